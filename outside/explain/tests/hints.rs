//! Hints do what they say: a mark where one is wanted makes a sure hat, and a bad
//! pattern that is offered opens what was closed.

mod common;

use explain::source::Source;
use literal::hats::{closings, has_sure_hat, sure_hats};
use literal::read::{read, Certificate, Rule};
use literal::term::{places, subterms, Place};
use literal::{Term, Verdict};

/// A certificate refused with 12, what is said of it, and its place.
struct Refused {
    text: String,
    certificate: Certificate,
    said: String,
    block: usize,
    entry: usize,
}

fn refused(seed: u64) -> Option<Refused> {
    let text = text::print(&generate::certificate(seed));
    let source = Source::of_text("lane.txt", text.as_bytes()).ok()?;
    let certificate = read(&source.file).ok()?;
    match literal::verdict(&source.file) {
        Verdict::Refused(refusal) if refusal.number == 12 => Some(Refused {
            said: common::why(&source),
            block: refusal.block as usize,
            entry: refusal.place as usize,
            text,
            certificate,
        }),
        _ => None,
    }
}

fn rule(certificate: &Certificate, block: usize) -> &Rule {
    let mut rules = certificate.rules.iter();
    rules.find(|rule| rule.block == block).expect("the rule")
}

/// The number behind this word, the last one before the end of the words.
fn number_behind(words: &str, word: &str) -> usize {
    let (_, behind) = words.rsplit_once(word).expect("the word");
    let digits = behind.split(|c: char| !c.is_ascii_digit()).next();
    digits
        .and_then(|digits| digits.parse().ok())
        .expect("a number")
}

/// The pattern with a new marked variable at this entry, and wherever else the same
/// variable stands.
fn with_mark(pattern: &Term, entry: usize) -> Term {
    let there = subterms(pattern)[entry].subterm.clone();
    let all = subterms(pattern);
    let is_free = |mark: &Term| !all.iter().any(|place| place.subterm == mark);
    let mark = match there {
        Term::PlainNonce(_) => (0..).map(Term::MarkedNonce).find(is_free),
        _ => (0..).map(Term::Marked).find(is_free),
    };
    let mark = mark.expect("a number that is free");
    let mut next = 0;
    marked(pattern, &mut next, &|number, term| {
        let is_wanted = number == entry || (there.is_variable() && *term == there);
        is_wanted.then(|| mark.clone())
    })
}

fn marked(term: &Term, next: &mut usize, other: &dyn Fn(usize, &Term) -> Option<Term>) -> Term {
    let number = *next;
    *next += 1;
    match other(number, term) {
        Some(mark) => mark,
        None => term.with_parts(|part| marked(part, next, other)),
    }
}

#[test]
fn a_mark_protects() {
    let mut tried = 0;
    for seed in 0..4_000 {
        let Some(refused) = refused(seed) else {
            continue;
        };
        let lines: Vec<&str> = refused.said.lines().collect();
        let end = "would protect the place";
        for hint in lines.windows(2).filter(|two| two[1].ends_with(end)) {
            let block = number_behind(hint[0], ", block ");
            let entry = number_behind(hint[1], ", entry ");
            let mut other = refused.certificate.clone();
            let mut goods = other.goods.iter_mut();
            let good = goods.find(|good| good.block == block).expect("the pattern");
            good.term = with_mark(&good.term, entry);
            let rule = rule(&refused.certificate, refused.block);
            let all = places(&rule.conclusion);
            let is_it = |place: &&Place| rule.premise_entries() + place.entry == refused.entry;
            let place = all.iter().find(is_it).expect("the place");
            let hats = sure_hats(&other, &rule.conclusion);
            assert!(has_sure_hat(&hats, place), "seed {seed}\n{}", refused.said);
            tried += 1;
        }
    }
    println!("{tried} marks");
    assert!(tried > 40, "{tried}");
}

#[test]
fn a_bad_pattern_opens() {
    let mut tried = 0;
    for seed in 0..4_000 {
        let Some(refused) = refused(seed) else {
            continue;
        };
        let lines: Vec<&str> = refused.said.lines().collect();
        let Some(at) = lines.iter().position(|line| line.ends_with("` opens it")) else {
            continue;
        };
        let closed = |line: &&&str| line.contains(") closes it: ");
        let closing = lines[..at]
            .iter()
            .rev()
            .find(closed)
            .expect("what closes it");
        let place = lines[..at]
            .iter()
            .rev()
            .find(|line| line.ends_with("is no open place:"));
        let upper = number_behind(closing.split(") closes it").next().unwrap(), ", entry ");
        let place = number_behind(place.expect("the place"), ", entry ");
        let bad = lines[at].rsplit('`').nth(1).expect("the pattern");
        let with_bad = refused
            .text
            .replacen("\nrule ", &format!("\n{bad}\nrule "), 1);
        let Ok(file) = text::assemble(&with_bad) else {
            continue;
        };
        let Ok(other) = read(&file) else { continue };
        let premise = rule(&other, refused.block + 1)
            .premise
            .clone()
            .expect("a premise");
        let all = places(&premise);
        let of = |entry: usize| all.iter().find(|place| place.entry == entry).expect("it");
        let closes = closings(&other, &premise);
        let mut still = closes.iter().filter(|closing| closing.closes(of(place)));
        assert!(
            still.all(|closing| closing.path != of(upper).path),
            "seed {seed}\n{}",
            refused.said
        );
        tried += 1;
    }
    println!("{tried} bad patterns");
    assert!(tried > 100, "{tried}");
}
