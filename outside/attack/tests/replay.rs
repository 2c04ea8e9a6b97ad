//! The runs that stand in the corpus, replayed: their derivations by `derive`,
//! then the walk. The search has no part in it.

mod common;

use attack::derive::derive;
use attack::message::{instance, variables};
use attack::{walk, Attack, Derivation, Step};
use common::{certificate, paths, text};
use literal::read::Certificate;
use literal::Term;

/// The message that the words mean under the text's atoms.
fn message(text: &str, words: &str) -> Term {
    let atoms: Vec<&str> = text
        .lines()
        .filter(|line| line.starts_with("atom "))
        .collect();
    let text = format!("{}\nsecret {words}\nrule -> {words}\n", atoms.join("\n"));
    certificate(&text).secrets[0].term.clone()
}

/// The names of a rule's variables, in order of first occurrence.
fn names(rule: &str) -> Vec<&str> {
    let mut names: Vec<&str> = Vec::new();
    for after in rule.split('?').skip(1) {
        let after = after.strip_prefix("n!").unwrap_or(after);
        let end = after
            .find(|c: char| !c.is_alphanumeric())
            .unwrap_or(after.len());
        if !names.contains(&&after[..end]) {
            names.push(&after[..end]);
        }
    }
    names
}

struct Replay<'a> {
    text: &'a str,
    certificate: Certificate,
    has: Vec<Term>,
    steps: Vec<Step>,
}

impl Replay<'_> {
    /// `RULE NAME=MESSAGE; NAME=MESSAGE`
    fn step(&mut self, words: &str) {
        let (number, given) = words.split_once(' ').unwrap_or((words, ""));
        let number: usize = number.parse().expect("a rule's number");
        let line = self.text.lines().filter(|line| line.starts_with("rule "));
        let names = names(line.clone().nth(number).expect("a rule"));
        let given: Vec<(&str, &str)> = given
            .split("; ")
            .filter_map(|s| s.split_once('='))
            .collect();
        let value = |name: &&str| {
            given
                .iter()
                .find(|(other, _)| other == name)
                .expect("a value")
                .1
        };
        let messages = names.iter().map(|name| message(self.text, value(name)));
        let rule = &self.certificate.rules[number];
        let replacement: Vec<(Term, Term)> = variables(rule).into_iter().zip(messages).collect();
        let premise = rule
            .premise
            .as_ref()
            .map(|term| instance(term, &replacement));
        self.has.push(instance(&rule.conclusion, &replacement));
        let before = &self.has[..self.has.len() - 1];
        let derived = |goal: &Term| self.derived(before, goal);
        self.steps.push(Step {
            rule: number,
            premise: premise.as_ref().map(derived),
            replacement,
        });
    }

    fn derived(&self, has: &[Term], goal: &Term) -> Derivation {
        derive(&self.certificate.atoms, has, goal).expect("a derivation")
    }

    fn attack(self, words: &str) -> (Certificate, Attack) {
        let goal = message(self.text, words);
        let mut secrets = self.certificate.secrets.iter();
        let attack = Attack {
            secret: secrets
                .position(|secret| secret.term == goal)
                .expect("a secret"),
            derivation: self.derived(&self.has, &goal),
            steps: self.steps,
        };
        (self.certificate, attack)
    }
}

/// The attack of the text's `#@` lines.
fn replayed(text: &str) -> Option<(Certificate, Attack)> {
    let goal = text
        .lines()
        .find_map(|line| line.strip_prefix("#@ derive "))?;
    let mut replay = Replay {
        text,
        certificate: certificate(text),
        has: Vec::new(),
        steps: Vec::new(),
    };
    let steps = text
        .lines()
        .filter_map(|line| line.strip_prefix("#@ step "));
    steps.for_each(|words| replay.step(words));
    Some(replay.attack(goal))
}

#[test]
fn runs_of_the_corpus() {
    let texts: Vec<String> = paths("../corpus", "txt")
        .iter()
        .map(|path| text(path))
        .collect();
    let attacks: Vec<_> = texts.iter().filter_map(|text| replayed(text)).collect();
    assert_eq!(attacks.len(), 6);
    for (certificate, attack) in &attacks {
        assert_eq!(walk::check(certificate, attack), Ok(()));
    }
}

/// Without any one of its steps none of them is an attack.
#[test]
fn every_step_is_needed() {
    let texts: Vec<String> = paths("../corpus", "txt")
        .iter()
        .map(|path| text(path))
        .collect();
    for (certificate, attack) in texts.iter().filter_map(|text| replayed(text)) {
        let without = |place: usize| {
            let mut fewer = attack.clone();
            fewer.steps.remove(place);
            walk::check(&certificate, &fewer)
        };
        assert!((0..attack.steps.len()).all(|place| without(place).is_err()));
    }
}
