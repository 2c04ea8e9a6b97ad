//! Random runs by document 01's words, with messages and no variables; nothing
//! of the search's is used.

use generate::random::Random;
use literal::atom::is_nonce;
use literal::numbers::FIRST_FOREIGN;
use literal::read::{Certificate, Rule};
use literal::term::subterms;
use literal::Term;

/// What the intruder has and gets out of it.
#[derive(Clone)]
pub struct Knowledge<'a> {
    pub certificate: &'a Certificate,
    pub got: Vec<Term>,
}

impl Knowledge<'_> {
    fn is_known(&self, number: u16) -> bool {
        let atom = self.certificate.atoms.get(number as usize);
        number >= FIRST_FOREIGN || atom.is_some_and(|atom| atom.known == 1)
    }

    pub fn has_atom(&self, number: u16) -> bool {
        self.is_known(number) || self.got.contains(&Term::Atom(number))
    }

    pub fn derives(&self, message: &Term) -> bool {
        let parts = || message.parts().all(|part| self.derives(part));
        self.got.contains(message)
            || match message {
                Term::Atom(number) => self.is_known(*number),
                Term::Encryption(_, key) | Term::Signature(_, key) => {
                    self.has_atom(*key) && parts()
                }
                _ => parts(),
            }
    }

    pub fn add(&mut self, message: Term) {
        self.got.push(message);
        while self.takes_one_apart() {}
    }

    /// Whether something new was got out.
    fn takes_one_apart(&mut self) -> bool {
        let opens = |key: u16| self.has_atom(self.certificate.atoms[key as usize].partner);
        let gives_parts = |message: &&Term| match message {
            Term::Pair(..) | Term::Signature(..) => true,
            Term::Encryption(_, key) => opens(*key),
            _ => false,
        };
        let parts = self.got.iter().filter(gives_parts).flat_map(Term::parts);
        let new = parts
            .filter(|part| !self.got.contains(part))
            .cloned()
            .next();
        let is_new = new.is_some();
        self.got.extend(new);
        is_new
    }
}

/// Steps of rules with variables in a random run up to the first secret that
/// is derived; none if it derives none.
pub fn steps_of_a_run(
    certificate: &Certificate,
    random: &mut Random,
    most: usize,
) -> Option<usize> {
    let mut knowledge = Knowledge {
        certificate,
        got: Vec::new(),
    };
    let stock = stock(certificate);
    let mut steps = 0;
    for _ in 0..most * 4 {
        fire(&mut knowledge);
        if certificate
            .secrets
            .iter()
            .any(|secret| knowledge.derives(&secret.term))
        {
            return Some(steps);
        }
        steps += usize::from(step(&mut knowledge, &stock, random));
        if steps > most {
            return None;
        }
    }
    None
}

/// Messages that a variable may get: what stands in the file, a foreign atom.
fn stock(certificate: &Certificate) -> Vec<Term> {
    let rules = certificate.rules.iter();
    let rules = rules.flat_map(|rule| rule.premise.iter().chain([&rule.conclusion]));
    let terms = certificate
        .secrets
        .iter()
        .map(|secret| &secret.term)
        .chain(rules);
    let places = terms.flat_map(subterms).map(|place| place.subterm.clone());
    let mut stock: Vec<Term> = places.filter(has_no_variable).collect();
    stock.push(Term::Atom(FIRST_FOREIGN));
    stock
}

fn has_no_variable(term: &Term) -> bool {
    subterms(term)
        .iter()
        .all(|place| !place.subterm.is_variable())
}

fn is_without_variables(rule: &Rule) -> bool {
    rule.premise.iter().all(has_no_variable) && has_no_variable(&rule.conclusion)
}

/// Every rule without variables that can be taken, until nothing is new.
fn fire(knowledge: &mut Knowledge) {
    let rules = knowledge.certificate.rules.iter();
    let ready = |rule: &&Rule| {
        is_without_variables(rule)
            && rule
                .premise
                .iter()
                .all(|premise| knowledge.derives(premise))
            && !knowledge.derives(&rule.conclusion)
    };
    let next = rules
        .clone()
        .find(ready)
        .map(|rule| rule.conclusion.clone());
    if let Some(conclusion) = next {
        knowledge.add(conclusion);
        fire(knowledge);
    }
}

type Replaced = Vec<(Term, Term)>;

/// A random step of a rule with variables; whether it added something.
fn step(knowledge: &mut Knowledge, stock: &[Term], random: &mut Random) -> bool {
    let rules: Vec<&Rule> = knowledge.certificate.rules.iter().collect();
    let rule = rules[random.below(rules.len())];
    if is_without_variables(rule) {
        return false;
    }
    let mut replaced = Replaced::new();
    if let Some(premise) = &rule.premise {
        match_some(knowledge, premise, random, &mut replaced);
    }
    let mut fill = |term: &Term| filled(knowledge, term, stock, random, &mut replaced);
    let premise = rule.premise.as_ref().map(&mut fill);
    let conclusion = fill(&rule.conclusion);
    let is_new =
        premise.iter().all(|message| knowledge.derives(message)) && !knowledge.derives(&conclusion);
    if is_new {
        knowledge.add(conclusion);
    }
    is_new
}

/// Matches parts of the premise with messages that were got, at random.
fn match_some(knowledge: &Knowledge, term: &Term, random: &mut Random, replaced: &mut Replaced) {
    let same = |got: &&Term| got.symbol() == term.symbol();
    let got: Vec<&Term> = knowledge.got.iter().filter(same).collect();
    let is_closed = matches!(
        term,
        Term::Encryption(..) | Term::Hash(_) | Term::Signature(..)
    );
    if is_closed && !got.is_empty() && random.chance(70) {
        let mut there = replaced.clone();
        let message = got[random.below(got.len())];
        if goes(knowledge.certificate, term, message, &mut there) {
            *replaced = there;
            return;
        }
    }
    for part in term.parts() {
        match_some(knowledge, part, random, replaced);
    }
}

/// Whether the message is the term with its variables replaced.
fn goes(certificate: &Certificate, term: &Term, message: &Term, replaced: &mut Replaced) -> bool {
    if term.is_variable() {
        let there = replaced.iter().find(|(variable, _)| variable == term);
        if let Some((_, there)) = there {
            return there == message;
        }
        replaced.push((term.clone(), message.clone()));
        return fits(certificate, term, message);
    }
    let mut parts = term.parts().zip(message.parts());
    term.symbol() == message.symbol() && parts.all(|(a, b)| goes(certificate, a, b, replaced))
}

fn fits(certificate: &Certificate, variable: &Term, message: &Term) -> bool {
    let is_nonce = |message: &Term| match message {
        Term::Atom(number) => is_nonce(&certificate.atoms, *number),
        _ => false,
    };
    !variable.is_nonce_variable() || is_nonce(message)
}

/// The term with every variable replaced, where needed by something at random.
fn filled(
    knowledge: &Knowledge,
    term: &Term,
    stock: &[Term],
    random: &mut Random,
    replaced: &mut Replaced,
) -> Term {
    if !term.is_variable() {
        return term.with_parts(|part| filled(knowledge, part, stock, random, replaced));
    }
    if let Some((_, there)) = replaced.iter().find(|(variable, _)| variable == term) {
        return there.clone();
    }
    let all: Vec<&Term> = stock.iter().chain(&knowledge.got).collect();
    let fitting = |message: &&&Term| fits(knowledge.certificate, term, message);
    let all: Vec<&&Term> = all.iter().filter(fitting).collect();
    let message = (*all[random.below(all.len())]).clone();
    replaced.push((term.clone(), message.clone()));
    message
}
