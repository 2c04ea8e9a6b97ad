//! Asks the archive everything that is known by hand, and prints what it
//! answers otherwise.

use compare::no_terms::{self, NoTerm};
use compare::{disagreement, proved, vectors, words, Answer, Question, QUESTIONS};
use std::process::ExitCode;

fn main() -> ExitCode {
    command::run(|_| Ok(run()? == 0))
}

/// How many answers disagree.
fn run() -> Result<usize, String> {
    let vectors = vectors::all()?;
    let no_terms = no_terms::all();
    let mut count = Count::default();
    for vector in &vectors {
        for (question, s, t, expected) in vector.questions() {
            count.ask(question, &vector.atoms, s, t, expected);
        }
        count.alone(&vector.atoms, &vector.first);
        count.alone(&vector.atoms, &vector.second);
    }
    for NoTerm { atoms, bytes, .. } in &no_terms {
        count.no_term(atoms, bytes)?;
    }
    println!(
        "{} pairs of terms, {} that are no term, {} answers, {} disagree",
        vectors.len(),
        no_terms.len(),
        count.asked,
        count.wrong
    );
    Ok(count.wrong)
}

#[derive(Default)]
struct Count {
    asked: usize,
    wrong: usize,
}

impl Count {
    fn ask(&mut self, question: Question, atoms: &[u8], s: &[u8], t: &[u8], expected: Answer) {
        let found = proved::ask(question, atoms, s, t);
        self.asked += 1;
        if found != expected {
            self.wrong += 1;
            println!("{}", disagreement(question, atoms, s, t, expected, found));
        }
    }

    /// A term shares with, matches and is itself.
    fn alone(&mut self, atoms: &[u8], term: &[u8]) {
        for question in QUESTIONS {
            self.ask(question, atoms, term, term, Answer::Yes);
        }
    }

    /// On either side, and on both.
    fn no_term(&mut self, atoms: &[u8], bytes: &[u8]) -> Result<(), String> {
        let term = words::entries("?x")?;
        for question in QUESTIONS {
            self.ask(question, atoms, bytes, &term, Answer::NoTerm);
            self.ask(question, atoms, &term, bytes, Answer::NoTerm);
            self.ask(question, atoms, bytes, bytes, Answer::NoTerm);
        }
        Ok(())
    }
}
