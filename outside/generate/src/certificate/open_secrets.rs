//! Rules that show a listed secret in their premise, rules that nearly do, and
//! rules that no longer do.

use super::exceptions::subterm;
use super::{replace_at, Maker};
use literal::term::subterms;
use literal::Term;

type Rule = (Option<Term>, Term);

/// Of a hundred certificates, so many may have rules with an open secret.
pub const OPEN_SECRETS: usize = 13;

/// The term with another one wherever the first stands.
fn exchanged(term: &Term, from: &Term, to: &Term) -> Term {
    if term == from {
        return to.clone();
    }
    term.with_parts(|part| exchanged(part, from, to))
}

impl Maker<'_> {
    /// Something else where the premise shows a secret, mostly also where the
    /// conclusion has that secret; and mostly a conclusion that is covered then.
    pub(super) fn without_open_secrets(&mut self, rule: Rule) -> Rule {
        let (Some(mut premise), mut conclusion) = rule else {
            return rule;
        };
        let mut has_changed = false;
        while let Some(entry) = self.sketch.first_open_secret(&premise) {
            let secret = subterm(&premise, entry);
            let other = self.instead_of(&premise, entry, &secret);
            premise = replace_at(&premise, entry, &other);
            if self.random.chance(70) {
                conclusion = exchanged(&conclusion, &secret, &other);
            }
            has_changed = true;
        }
        if has_changed && self.random.chance(90) {
            conclusion = self.covered(&premise, conclusion);
        }
        (Some(premise), conclusion)
    }

    /// A variable, an atom, or the secret itself where a hat closes it.
    fn instead_of(&mut self, premise: &Term, entry: usize, secret: &Term) -> Term {
        match self.random.weighted(&[45, 20, 35]) {
            0 => self.variable(),
            1 => self.harmless_atom(),
            _ => {
                let hat = self.in_a_pattern(&self.sketch.goods.clone(), secret);
                let hidden = replace_at(premise, entry, &hat);
                match self.sketch.first_open_secret(&hidden) {
                    Some(open) if open < entry + hat.size() => self.variable(),
                    _ => hat,
                }
            }
        }
    }

    /// This conclusion, or another one that is covered.
    fn covered(&mut self, premise: &Term, conclusion: Term) -> Term {
        let open = self.seemingly_open(Some(premise));
        let mut sent = conclusion;
        while !self.sketch.covers(Some(premise), &sent) {
            sent = match self.random.weighted(&[60, 20, 20]) {
                0 => self.random.pick(&open).clone(),
                1 => self.conclusion(2, &open),
                _ => self.harmless_atom(),
            };
        }
        sent
    }

    /// Whether the next rule is to show a secret in its premise.
    pub(super) fn wants_open_secret(&mut self) -> bool {
        self.has_open_secrets && self.random.chance(45)
    }

    /// One to three pieces with secrets, among others.
    pub(super) fn open_secret_rule(&mut self) -> Rule {
        self.choose_variables();
        let mut premise = self.piece_with_secret();
        for _ in 0..self.random.weighted(&[40, 35, 25]) {
            let piece = match self.random.chance(60) {
                true => self.piece_with_secret(),
                false => self.premise_piece(1),
            };
            premise = self.in_either_order(premise, piece);
        }
        if self.random.chance(20) {
            premise = Term::encryption(premise, self.clear_key());
        }
        let conclusion = self.behind_an_open_secret(&premise);
        (Some(premise), conclusion)
    }

    /// Mostly one in which every place is covered.
    fn behind_an_open_secret(&mut self, premise: &Term) -> Term {
        let open = self.seemingly_open(Some(premise));
        let hats = if self.sketch.goods.is_empty() { 0 } else { 20 };
        match self.random.weighted(&[20, hats, 20, 20, 20]) {
            0 => self.harmless_atom(),
            1 => self.hat(1, &open),
            2 => self.random.pick(&open).clone(),
            3 => self.conclusion(3, &open),
            _ => self.some_secret(),
        }
    }

    fn piece_with_secret(&mut self) -> Term {
        let secret = self.some_secret();
        let (clear, hat) = (self.clear_key(), self.hat_key());
        match self.random.weighted(&[20, 14, 12, 18, 18, 10, 8]) {
            0 => secret,
            1 => {
                let other = self.small(1);
                Term::encryption(self.in_either_order(secret, other), clear)
            }
            2 => Term::encryption(Term::pair(self.any_atom(), secret), hat),
            3 => self.nearly_in_a_pattern(&self.sketch.bads.clone(), &secret),
            4 => self.nearly_in_a_pattern(&self.sketch.goods.clone(), &secret),
            5 => self.nearly(&secret),
            _ => {
                let other = self.some_secret();
                Term::pair(secret, other)
            }
        }
    }

    /// Often a nested one.
    fn some_secret(&mut self) -> Term {
        let nested = self.nested_secrets();
        match nested.is_empty() || self.random.chance(60) {
            true => self.random.pick(&self.sketch.secrets).clone(),
            false => self.random.pick(&nested).clone(),
        }
    }

    /// In place of one variable of a pattern, marked or not.
    pub(super) fn in_a_pattern(&mut self, patterns: &[Term], secret: &Term) -> Term {
        if patterns.is_empty() {
            return Term::encryption(self.variable(), self.hat_key());
        }
        let pattern = self.random.pick(patterns).clone();
        let all = subterms(&pattern);
        let is_variable = |entry: &usize| all[*entry].subterm.is_variable();
        let variables: Vec<usize> = (1..all.len()).filter(is_variable).collect();
        if variables.is_empty() {
            return pattern;
        }
        let entry = *self.random.pick(&variables);
        self.filled_around(&pattern, entry, secret)
    }

    /// The same, at times with an atom somewhere in it, so that it may be the
    /// pattern no longer.
    fn nearly_in_a_pattern(&mut self, patterns: &[Term], secret: &Term) -> Term {
        let piece = self.in_a_pattern(patterns, secret);
        match self.random.chance(30) {
            true => {
                let entry = self.random.between(1, piece.size() - 1);
                replace_at(&piece, entry, &self.harmless_atom())
            }
            false => piece,
        }
    }

    /// What shares an instance with a secret and is none.
    pub(super) fn nearly(&mut self, secret: &Term) -> Term {
        match secret.size() {
            1 => self.variable(),
            size => {
                let entry = self.random.between(1, size - 1);
                replace_at(secret, entry, &self.variable())
            }
        }
    }
}
