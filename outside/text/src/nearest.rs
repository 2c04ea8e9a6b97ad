//! Which of several words may have been meant by another.

use crate::letters::{in_ascii, LONGEST_WORD};

/// The hint that one of these words may have been meant.
pub fn did_you_mean<'a>(word: &str, among: impl Iterator<Item = &'a str>) -> Option<String> {
    let near = nearest(word, among);
    let quoted: Vec<String> = near
        .iter()
        .take(MOST)
        .map(|near| format!("`{near}`"))
        .collect();
    match &quoted[..] {
        [] => None,
        [one] => Some(format!("did you mean {one}?")),
        [before @ .., last] => Some(format!("did you mean {} or {last}?", before.join(", "))),
    }
}

/// So many words are named at most.
const MOST: usize = 4;

/// The words with the fewest letters that differ, if those are few. Other case,
/// and letters that only look alike, are no difference; long words are not compared.
fn nearest<'a>(word: &str, among: impl Iterator<Item = &'a str>) -> Vec<&'a str> {
    let word = plain(word);
    if word.len() > LONGEST_WORD {
        return Vec::new();
    }
    let most = (word.len() / 2).min(2);
    let near = among.filter_map(|other| {
        let letters = plain(other);
        let longer = letters.len().abs_diff(word.len());
        let apart = (longer <= most).then(|| distance(&word, &letters))?;
        (apart <= most).then_some(((apart, longer), other))
    });
    let near: Vec<((usize, usize), &str)> = near.collect();
    // Of equally near ones rather those of the same length.
    let least = near.iter().map(|(apart, _)| *apart).min();
    let nearest = near.iter().filter(|(apart, _)| Some(*apart) == least);
    nearest.map(|(_, other)| *other).collect()
}

fn plain(word: &str) -> Vec<char> {
    in_ascii(word).to_lowercase().chars().collect()
}

/// How many letters are to be put in, left out or replaced to make one word of
/// the other.
fn distance(one: &[char], other: &[char]) -> usize {
    let from_nothing: Vec<usize> = (0..=other.len()).collect();
    let distances = one.iter().fold(from_nothing, |before, letter| {
        with_letter(&before, *letter, other)
    });
    distances[other.len()]
}

/// From the distances of a word to each beginning of the other: those of the
/// word with one letter more.
fn with_letter(before: &[usize], letter: char, other: &[char]) -> Vec<usize> {
    let mut distances = vec![before[0] + 1];
    for (i, wanted) in other.iter().enumerate() {
        let replaced = before[i] + usize::from(letter != *wanted);
        let left_out = before[i + 1] + 1;
        let put_in = distances[i] + 1;
        distances.push(replaced.min(left_out).min(put_in));
    }
    distances
}
