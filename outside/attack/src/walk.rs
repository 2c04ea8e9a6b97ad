//! The second walk through an attack, by document 01's moves alone. It knows
//! nothing of the search.

use crate::message::{instance, inverse, shown, variables};
use crate::{Attack, Derivation, Move, Step};
use literal::atom::{is_nonce, Atom};
use literal::numbers::FIRST_FOREIGN;
use literal::read::Certificate;
use literal::term::subterms;
use literal::Term;

/// Whether the steps are those of a run, each with its premise derived, and
/// the last derivation gives the listed secret. What is wrong otherwise is
/// said in words; steps and moves count from 1.
pub fn check(certificate: &Certificate, attack: &Attack) -> Result<(), String> {
    let mut walk = Walk {
        certificate,
        conclusions: Vec::new(),
    };
    for (number, step) in (1..).zip(&attack.steps) {
        let walked = walk.takes(step);
        walked.map_err(|wrong| format!("step {number}: {wrong}"))?;
    }
    let secret = certificate.secrets.get(attack.secret);
    let secret = secret.ok_or(format!("there is no secret {}", attack.secret))?;
    let derived = walk.derives(&attack.derivation, &secret.term);
    derived.map_err(|wrong| format!("the secret: {wrong}"))
}

/// What the intruder has besides the known and the foreign atoms.
struct Walk<'a> {
    certificate: &'a Certificate,
    conclusions: Vec<Term>,
}

impl Walk<'_> {
    /// Adds the conclusion's instance if the premise's is derived.
    fn takes(&mut self, step: &Step) -> Result<(), String> {
        let rule = self.certificate.rules.get(step.rule);
        let rule = rule.ok_or(format!("there is no rule {}", step.rule))?;
        self.replaces(&variables(rule), &step.replacement)?;
        match (&rule.premise, &step.premise) {
            (None, None) => {}
            (Some(premise), Some(derivation)) => {
                self.derives(derivation, &instance(premise, &step.replacement))?
            }
            (None, Some(_)) => return Err("a derivation, and the rule has no premise".into()),
            (Some(_), None) => return Err("no derivation of the rule's premise".into()),
        }
        let conclusion = instance(&rule.conclusion, &step.replacement);
        self.conclusions.push(conclusion);
        Ok(())
    }

    /// Each variable gets exactly one message that may stand for it.
    fn replaces(&self, wanted: &[Term], replacement: &[(Term, Term)]) -> Result<(), String> {
        if wanted.len() != replacement.len() {
            let (given, wanted) = (replacement.len(), wanted.len());
            return Err(format!("{given} variables replaced, the rule has {wanted}"));
        }
        for variable in wanted {
            let mut given = replacement.iter().filter(|(v, _)| v == variable);
            let message = given.next().map(|(_, message)| message);
            let message = message.ok_or(format!("{} is not replaced", shown(variable)))?;
            self.may_replace(variable, message)?;
        }
        Ok(())
    }

    fn may_replace(&self, variable: &Term, message: &Term) -> Result<(), String> {
        let places = subterms(message);
        let wrong = places.iter().find(|place| !self.may_stand(place.subterm));
        if let Some(place) = wrong {
            let (part, whole) = (shown(place.subterm), shown(message));
            return Err(format!("{part} in {whole} is no message"));
        }
        if variable.is_nonce_variable() && !self.is_a_nonce(message) {
            let (variable, message) = (shown(variable), shown(message));
            return Err(format!("{variable} is for a nonce, {message} is none"));
        }
        Ok(())
    }

    /// By the root alone: a listed or foreign atom, a key where one belongs.
    fn may_stand(&self, part: &Term) -> bool {
        let atom = |number: u16| self.certificate.atoms.get(number as usize);
        match part {
            Term::Atom(number) => *number >= FIRST_FOREIGN || atom(*number).is_some(),
            Term::Encryption(_, key) => atom(*key).is_some_and(Atom::is_key),
            Term::Signature(_, key) => atom(*key).is_some_and(Atom::is_private_key),
            _ => !part.is_variable(),
        }
    }

    fn is_a_nonce(&self, message: &Term) -> bool {
        let atoms = &self.certificate.atoms;
        matches!(message, Term::Atom(number) if is_nonce(atoms, *number))
    }

    /// Each move is legal after those before it, and the last gives the goal.
    fn derives(&self, derivation: &Derivation, goal: &Term) -> Result<(), String> {
        let mut given = Vec::new();
        for (number, step) in (1..).zip(&derivation.moves) {
            let legal = self.is_legal(step, &given);
            legal.map_err(|wrong| format!("move {number}: {wrong}"))?;
            given.push(step.derived());
        }
        match given.last() {
            Some(last) if *last == goal => Ok(()),
            _ => Err(format!("the moves do not end with {}", shown(goal))),
        }
    }

    /// What the move names is of its form, and what it is from was given.
    fn is_legal(&self, step: &Move, given: &[&Term]) -> Result<(), String> {
        let named = step.named();
        let needed = match (step, named) {
            (Move::Has(_), _) => return self.has(named),
            (Move::Pairs(_), Term::Pair(left, right)) => vec![(**left).clone(), (**right).clone()],
            (Move::Hashes(_), Term::Hash(message)) => vec![(**message).clone()],
            (Move::Encrypts(_), Term::Encryption(message, key))
            | (Move::Signs(_), Term::Signature(message, key)) => {
                vec![(**message).clone(), Term::Atom(*key)]
            }
            (Move::Left(_) | Move::Right(_), Term::Pair(..))
            | (Move::Reads(_), Term::Signature(..)) => vec![named.clone()],
            (Move::Decrypts(_), Term::Encryption(_, key)) => {
                let opens = inverse(&self.certificate.atoms, *key);
                vec![named.clone(), opens.ok_or(format!("{key} is no key"))?]
            }
            _ => return Err(format!("{} is not of that form", shown(named))),
        };
        let missing = needed.iter().find(|message| !given.contains(message));
        if let Some(message) = missing {
            return Err(format!("{} was not derived before", shown(message)));
        }
        match self.may_stand(named) {
            true => Ok(()),
            false => Err(format!("{} has another atom for its key", shown(named))),
        }
    }

    /// A known atom, a foreign one, or the conclusion of a step before.
    fn has(&self, message: &Term) -> Result<(), String> {
        let known = |number: u16| {
            let atom = self.certificate.atoms.get(number as usize);
            number >= FIRST_FOREIGN || atom.is_some_and(|atom| atom.known == 1)
        };
        match message {
            Term::Atom(number) if known(*number) => Ok(()),
            _ if self.conclusions.contains(message) => Ok(()),
            _ => Err(format!("the intruder does not have {}", shown(message))),
        }
    }
}
