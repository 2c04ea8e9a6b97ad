//! `term-random N [SEED]`: N random pairs, from this seed on, asked of the
//! archive and of the outside reference.

use command::Seeds;
use compare::{atoms, disagreement, outside, proved, Answer, Question, QUESTIONS};
use generate::pairs::{self, small_term_pair, term_pair};
use generate::random::Random;
use literal::{encode, Term};
use std::process::ExitCode;

fn main() -> ExitCode {
    command::run(run)
}

fn run(words: &[&str]) -> Result<bool, String> {
    let seeds = Seeds::of(words, "term-random")?;
    let mut tally = Tally::default();
    seeds.all().for_each(|seed| tally.pair(seed));
    let Seeds { count, first } = seeds;
    println!("{count} pairs from seed {first}, {}", tally.line());
    Ok(tally.wrong == 0)
}

/// Both kinds of pairs; on some the term has marked variables too.
fn random_pair(seed: u64) -> (Term, Term) {
    let (pattern, term) = match seed % 2 {
        0 => term_pair(seed),
        _ => small_term_pair(seed),
    };
    if seed % 3 == 0 {
        return (pattern, with_marks(&term));
    }
    (pattern, term)
}

/// Plain variables of odd number become marked ones.
fn with_marks(term: &Term) -> Term {
    match term {
        Term::Plain(number) if number % 2 == 1 => Term::Marked(*number),
        Term::PlainNonce(number) if number % 2 == 1 => Term::MarkedNonce(*number),
        _ => term.with_parts(with_marks),
    }
}

/// The atoms of the pairs; on some a kind is another, any bytes are changed, or
/// there are more or fewer.
fn random_atoms(seed: u64) -> Vec<u8> {
    let mut random = Random::new(seed ^ 0xA70);
    let mut bytes = atoms::bytes(&pairs::atoms());
    let at = random.below(bytes.len());
    match random.below(16) {
        0 => bytes.truncate(at),
        1 => bytes[at] = random.byte(),
        2..=4 => bytes[at / 4 * 4] = random.below(7) as u8,
        5 => bytes = atoms::all_keys(),
        _ => {}
    }
    bytes
}

/// One byte changed, most often to a small one, or the end cut off.
fn damaged(bytes: &[u8], seed: u64) -> Vec<u8> {
    let mut random = Random::new(!seed);
    let mut bytes = bytes.to_vec();
    let at = random.below(bytes.len());
    match random.below(8) {
        0 => bytes.truncate(at),
        1 => bytes[at] = random.byte(),
        _ => bytes[at] = random.below(11) as u8,
    }
    bytes
}

#[derive(Default)]
struct Tally {
    asked: usize,
    wrong: usize,
    /// Yes to each of the three questions, and no term.
    yes: [usize; 3],
    no_term: usize,
}

impl Tally {
    fn pair(&mut self, seed: u64) {
        let (pattern, term) = random_pair(seed);
        let (p, t) = (encode(&pattern), encode(&term));
        let atoms = random_atoms(seed);
        self.both_orders(&atoms, &p, &t, seed);
        self.both_orders(&atoms, &p, &damaged(&p, seed), seed);
    }

    fn both_orders(&mut self, atoms: &[u8], s: &[u8], t: &[u8], seed: u64) {
        for question in QUESTIONS {
            self.ask(question, atoms, s, t, seed);
            self.ask(question, atoms, t, s, seed);
        }
    }

    fn ask(&mut self, question: Question, atoms: &[u8], s: &[u8], t: &[u8], seed: u64) {
        let found = proved::ask(question, atoms, s, t);
        let expected = outside::ask(question, atoms, s, t);
        self.asked += 1;
        match expected {
            Answer::Yes => self.yes[question as usize] += 1,
            Answer::NoTerm => self.no_term += 1,
            Answer::No => {}
        }
        if found != expected {
            self.wrong += 1;
            let line = disagreement(question, atoms, s, t, expected, found);
            println!("seed {seed}: {line}");
        }
    }

    fn line(&self) -> String {
        let [shares, matches, same] = self.yes;
        format!(
            "{} answers ({shares} share, {matches} match, {same} same, {} no term), {} disagree",
            self.asked, self.no_term, self.wrong
        )
    }
}
