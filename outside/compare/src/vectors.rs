//! Pairs of terms with known answers: those of `vectors.txt` and the large ones.

use crate::{atoms, large, words, Answer, Question};

pub struct Vector {
    pub atoms: Vec<u8>,
    pub first: Vec<u8>,
    pub second: Vec<u8>,
    pub shares: Answer,
    pub matches: Answer,
    /// With the second as the pattern.
    pub matches_back: Answer,
    pub same: Answer,
}

impl Vector {
    /// The answers in the order shares, matches, matches back, same.
    pub fn new(
        atoms: &[u8],
        first: &str,
        second: &str,
        answers: [bool; 4],
    ) -> Result<Vector, String> {
        let [shares, matches, matches_back, same] = answers.map(Answer::of);
        Ok(Vector {
            atoms: atoms.to_vec(),
            first: words::entries(first)?,
            second: words::entries(second)?,
            shares,
            matches,
            matches_back,
            same,
        })
    }

    /// Every question, in both orders, with its answer.
    pub fn questions(&self) -> Vec<(Question, &[u8], &[u8], Answer)> {
        let (s, t) = (&self.first[..], &self.second[..]);
        vec![
            (Question::Shares, s, t, self.shares),
            (Question::Shares, t, s, self.shares),
            (Question::Matches, s, t, self.matches),
            (Question::Matches, t, s, self.matches_back),
            (Question::Same, s, t, self.same),
            (Question::Same, t, s, self.same),
        ]
    }
}

pub fn all() -> Result<Vec<Vector>, String> {
    let mut vectors = small()?;
    vectors.extend(large::vectors()?);
    Ok(vectors)
}

/// The lines of `vectors.txt`, each over the atoms of the last line that gives
/// some.
fn small() -> Result<Vec<Vector>, String> {
    let mut atoms = atoms::all_keys();
    let mut vectors = Vec::new();
    for line in include_str!("vectors.txt").lines() {
        match line.strip_prefix("atoms ") {
            Some(kinds) => atoms = atoms::in_words(kinds)?,
            None if line.is_empty() || line.starts_with('#') => {}
            None => vectors.push(vector(&atoms, line)?),
        }
    }
    Ok(vectors)
}

fn vector(atoms: &[u8], line: &str) -> Result<Vector, String> {
    let parts: Vec<&str> = line.split('|').collect();
    let [answers, first, second] = parts[..] else {
        return Err(format!("`{line}` must have three parts"));
    };
    Vector::new(atoms, first.trim(), second.trim(), yes_or_no(answers)?)
}

fn yes_or_no(words: &str) -> Result<[bool; 4], String> {
    let answers: Option<Vec<bool>> = words
        .split_whitespace()
        .map(|word| match word {
            "yes" => Some(true),
            "no" => Some(false),
            _ => None,
        })
        .collect();
    answers
        .and_then(|answers| answers.try_into().ok())
        .ok_or_else(|| format!("`{words}` must be four answers"))
}
