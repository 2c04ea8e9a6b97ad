//! From the steps that were found to an attack with every derivation, without
//! the steps that are not needed.

use crate::derive::derive;
use crate::got::{Got, Messages};
use crate::message::instance;
use crate::store::{Id, Node, Store};
use crate::{Attack, Derivation, Move, Step};
use literal::numbers::FIRST_FOREIGN;
use literal::read::Certificate;
use literal::Term;

/// A step without its derivation.
#[derive(Clone, Debug)]
pub struct Taken {
    pub rule: usize,
    pub replacement: Vec<(Term, Term)>,
}

/// The term with its variables replaced; those for which anything would do get
/// a foreign atom each.
pub fn message(store: &Store, id: Id, foreign: &mut Vec<usize>) -> Term {
    let id = store.resolve(id);
    let mut below = |id| message(store, id, foreign);
    match store.node_at(id) {
        Node::Atom(number) => Term::Atom(number),
        Node::Pair(left, right) => {
            let left = below(left);
            Term::pair(left, below(right))
        }
        Node::Encryption(message, key) => Term::encryption(below(message), key),
        Node::Hash(message) => Term::hash(below(message)),
        Node::Signature(message, key) => Term::signature(below(message), key),
        Node::Variable(variable) => Term::Atom(foreign_for(variable, foreign)),
    }
}

fn foreign_for(variable: usize, foreign: &mut Vec<usize>) -> u16 {
    let there = foreign.iter().position(|other| *other == variable);
    let place = there.unwrap_or_else(|| {
        foreign.push(variable);
        foreign.len() - 1
    });
    FIRST_FOREIGN + place as u16
}

/// The attack with these steps, but for those that are not needed; none if a
/// premise or the secret is not derivable.
pub fn attack(certificate: &Certificate, steps: Vec<Taken>, secret: usize) -> Option<Attack> {
    let steps = needed(certificate, steps, secret)?;
    let mut messages = Messages::new(&certificate.atoms);
    let number = |step| numbered(certificate, step, &mut messages);
    let mut numbers: Vec<(usize, Numbers)> = steps.iter().map(number).enumerate().collect();
    let goal = messages.add(&certificate.secrets[secret].term);
    for place in (0..steps.len()).rev() {
        let left_out = numbers.remove(place);
        if !still_derives(&messages, &numbers, goal) {
            numbers.insert(place, left_out);
        }
    }
    let steps: Vec<&Taken> = numbers.iter().map(|(place, _)| &steps[*place]).collect();
    told(certificate, &steps, secret)
}

/// A step's premise and conclusion among the messages.
struct Numbers {
    premise: Option<Id>,
    conclusion: Id,
}

fn numbered(certificate: &Certificate, step: &Taken, messages: &mut Messages) -> Numbers {
    let rule = &certificate.rules[step.rule];
    let mut add = |term: &Term| messages.add(&instance(term, &step.replacement));
    Numbers {
        premise: rule.premise.as_ref().map(&mut add),
        conclusion: add(&rule.conclusion),
    }
}

/// Whether the steps and the secret need no other step.
fn still_derives(messages: &Messages, steps: &[(usize, Numbers)], secret: Id) -> bool {
    let mut got = Got::new(messages);
    let takes = |(_, step): &(usize, Numbers)| {
        let is_taken = step.premise.is_none_or(|premise| got.derives(premise));
        got.add(step.conclusion);
        is_taken
    };
    steps.iter().all(takes) && got.derives(secret)
}

fn conclusions<'a>(certificate: &Certificate, steps: impl Iterator<Item = &'a Taken>) -> Vec<Term> {
    let rule = |step: &Taken| &certificate.rules[step.rule];
    let conclusion = |step: &Taken| instance(&rule(step).conclusion, &step.replacement);
    steps.map(conclusion).collect()
}

/// How many steps it has, and how many moves.
pub fn length(attack: &Attack) -> (usize, usize) {
    let premises = attack.steps.iter().filter_map(|step| step.premise.as_ref());
    let derivations = premises.chain([&attack.derivation]);
    let moves = derivations.map(|derivation| derivation.moves.len()).sum();
    (attack.steps.len(), moves)
}

/// The steps that the derivation of the secret uses, and those that these use.
fn needed(certificate: &Certificate, steps: Vec<Taken>, secret: usize) -> Option<Vec<Taken>> {
    let conclusions = conclusions(certificate, steps.iter());
    let secret = &certificate.secrets[secret].term;
    let mut used = used(&derive(&certificate.atoms, &conclusions, secret)?);
    let mut kept = Vec::new();
    for (place, step) in steps.into_iter().enumerate().rev() {
        let before = &conclusions[..place];
        if used.contains(&conclusions[place]) && !before.contains(&conclusions[place]) {
            if let Some(derivation) = premise(certificate, &step, before)? {
                used.extend(self::used(&derivation));
            }
            kept.insert(0, step);
        }
    }
    Some(kept)
}

/// What the intruder has among the messages of a derivation.
fn used(derivation: &Derivation) -> Vec<Term> {
    let moves = derivation.moves.iter();
    let has = moves.filter(|step| matches!(step, Move::Has(_)));
    has.map(|step| step.named().clone()).collect()
}

/// The derivation of the step's premise, if the rule has one; none if it is
/// not derivable.
fn premise(certificate: &Certificate, step: &Taken, has: &[Term]) -> Option<Option<Derivation>> {
    let Some(premise) = &certificate.rules[step.rule].premise else {
        return Some(None);
    };
    let goal = instance(premise, &step.replacement);
    derive(&certificate.atoms, has, &goal).map(Some)
}

/// All steps with their derivations, and that of the secret.
fn told(certificate: &Certificate, taken: &[&Taken], secret: usize) -> Option<Attack> {
    let has = conclusions(certificate, taken.iter().copied());
    let step = |(place, step): (usize, &&Taken)| {
        Some(Step {
            rule: step.rule,
            replacement: step.replacement.clone(),
            premise: premise(certificate, step, &has[..place])?,
        })
    };
    let goal = &certificate.secrets[secret].term;
    Some(Attack {
        steps: taken.iter().enumerate().map(step).collect::<Option<_>>()?,
        secret,
        derivation: derive(&certificate.atoms, &has, goal)?,
    })
}
