//! Certificates in which an attack was planted: first a run of messages that ends
//! with the secret, then for each of its steps a rule, in which some of the step's
//! messages are variables.

use super::sampler::Knowledge;
use super::small::{with_rules, KEYS, SECRET, SIGNERS};
use generate::random::Random;
use literal::atom::is_nonce;
use literal::numbers::FIRST_FOREIGN;
use literal::read::Certificate;
use literal::term::subterms;
use literal::Term;

/// The largest message, in symbols.
const LARGEST: usize = 20;

/// The certificate of a seed, and how many rules with variables the run takes; none
/// if no run came about.
pub fn planted(seed: u64) -> Option<(Certificate, usize)> {
    let mut random = Random::new(seed);
    let nothing = with_rules(Vec::new());
    let mut run = Run {
        knowledge: Knowledge {
            certificate: &nothing,
            got: Vec::new(),
        },
        rules: Vec::new(),
    };
    let steps = random.between(2, 4);
    for step in 1..=steps {
        run.goes_on(&mut random, step == steps)?;
    }
    let mut rules = run.rules;
    random.shuffle(&mut rules);
    let has_variables = |term: &Term| subterms(term).iter().any(|p| p.subterm.is_variable());
    let varied = rules.iter().filter(|(premise, conclusion)| {
        premise.iter().any(has_variables) || has_variables(conclusion)
    });
    let count = varied.count();
    Some((with_rules(rules), count))
}

struct Run<'a> {
    knowledge: Knowledge<'a>,
    rules: Vec<(Option<Term>, Term)>,
}

impl Run<'_> {
    /// One step more, the last of which gives the secret; none if a few tries gave
    /// nothing new.
    fn goes_on(&mut self, random: &mut Random, is_last: bool) -> Option<()> {
        (0..50).find_map(|_| {
            let premise = random.chance(90).then(|| self.derivable(random, 2));
            let conclusion = self.answer(random, premise.as_ref(), is_last);
            let mut after = self.knowledge.clone();
            after.add(conclusion.clone());
            let fits = conclusion.size() <= LARGEST
                && !self.knowledge.derives(&conclusion)
                && after.derives(&Term::Atom(SECRET)) == is_last;
            let rule = fits.then(|| self.varied(random, premise, conclusion))?;
            self.rules.push(rule?);
            self.knowledge = after;
            Some(())
        })
    }

    /// A message that the intruder derives, often from what it got last.
    fn derivable(&self, random: &mut Random, depth: usize) -> Term {
        let got = &self.knowledge.got;
        if !got.is_empty() && random.chance(50) {
            let last = got.len() - 1 - random.below(got.len().min(3));
            return got[last].clone();
        }
        let choice = if depth == 0 { 9 } else { random.below(8) };
        let key = |keys: &[u16], random: &mut Random| {
            let key = *random.pick(keys);
            self.knowledge.has_atom(key).then_some(key)
        };
        match choice {
            0..=2 => Term::pair(
                self.derivable(random, depth - 1),
                self.derivable(random, depth - 1),
            ),
            3 => Term::hash(self.derivable(random, depth - 1)),
            4 | 5 => match key(&KEYS, random) {
                Some(key) => Term::encryption(self.derivable(random, depth - 1), key),
                None => self.derivable(random, 0),
            },
            6 => match key(&SIGNERS, random) {
                Some(key) => Term::signature(self.derivable(random, depth - 1), key),
                None => self.derivable(random, 0),
            },
            _ => Term::Atom(*random.pick(&[0, 3, 4, 6, FIRST_FOREIGN, FIRST_FOREIGN + 1])),
        }
    }

    /// What the rule answers: parts of the premise and other atoms, mostly under keys
    /// that the intruder lacks, and at last the secret.
    fn answer(&self, random: &mut Random, premise: Option<&Term>, is_last: bool) -> Term {
        let mut parts: Vec<Term> = premise.map_or(Vec::new(), |premise| {
            let places = subterms(premise);
            places.iter().map(|place| place.subterm.clone()).collect()
        });
        parts.extend([1, 2, 3, 8].map(Term::Atom));
        let mut part = || random.pick(&parts).clone();
        let (one, other) = (part(), part());
        let message = match random.below(3) {
            0 => one,
            1 => Term::pair(one, other),
            _ => Term::pair(one, Term::hash(other)),
        };
        match random.below(if is_last { 3 } else { 8 }) {
            0 if is_last => Term::Atom(SECRET),
            1 if is_last => Term::pair(message, Term::Atom(SECRET)),
            0 => Term::signature(message, 5),
            1 => message,
            _ => Term::encryption(message, *random.pick(&[4, 4, 8])),
        }
    }

    /// The step as a rule with variables, if no foreign atom is left: no file lists one.
    fn varied(
        &self,
        random: &mut Random,
        premise: Option<Term>,
        conclusion: Term,
    ) -> Option<(Option<Term>, Term)> {
        let variables = self.variables(random, premise.as_ref());
        let premise = premise.map(|premise| with_variables(&premise, &variables));
        let conclusion = with_variables(&conclusion, &variables);
        let is_listed = |term: &Term| !subterms(term).iter().any(|p| is_foreign(p.subterm));
        (premise.iter().all(is_listed) && is_listed(&conclusion)).then_some((premise, conclusion))
    }

    /// Some parts of the premise, the foreign atoms among them, and their variables.
    fn variables(&self, random: &mut Random, premise: Option<&Term>) -> Vec<(Term, Term)> {
        let atoms = &self.knowledge.certificate.atoms;
        let mut variables: Vec<(Term, Term)> = Vec::new();
        for place in premise.into_iter().flat_map(subterms) {
            let message = place.subterm;
            let is_there = variables.iter().any(|(there, _)| there == message);
            if is_there || variables.len() == 8 || !(is_foreign(message) || random.chance(35)) {
                continue;
            }
            let number = variables.len() as u8;
            let is_nonce = matches!(message, Term::Atom(n) if is_nonce(atoms, *n));
            let variable = match is_nonce && random.chance(50) {
                true => Term::PlainNonce(number),
                false => Term::Plain(number),
            };
            variables.push((message.clone(), variable));
        }
        variables
    }
}

fn is_foreign(message: &Term) -> bool {
    matches!(message, Term::Atom(number) if *number >= FIRST_FOREIGN)
}

fn with_variables(message: &Term, variables: &[(Term, Term)]) -> Term {
    match variables.iter().find(|(there, _)| there == message) {
        Some((_, variable)) => variable.clone(),
        None => message.with_parts(|part| with_variables(part, variables)),
    }
}
