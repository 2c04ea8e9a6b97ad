//! Bad patterns with marks, and rules that rest on where the marks stand.

use super::{replace, replace_at, variables_of, Maker};
use literal::numbers::MOST_ENTRIES;
use literal::term::subterms;
use literal::{matches, Term};

type Rule = (Option<Term>, Term);

/// A variable of no block, in place of what is put in last.
const PUT_LAST: Term = Term::Marked(u8::MAX);

pub fn is_marked(pattern: &Term) -> bool {
    variables_of(pattern).iter().any(Term::is_mark)
}

pub fn subterm(term: &Term, entry: usize) -> Term {
    subterms(term)[entry].subterm.clone()
}

impl Maker<'_> {
    /// Marks in the bad patterns so far, and more patterns with marks.
    pub(super) fn mark_bads(&mut self) {
        if self.nested_secrets().is_empty() && self.random.chance(60) {
            let secret = self.compound_secret(&self.sketch.secrets.clone());
            self.sketch.secrets.push(secret);
        }
        for i in 0..self.sketch.bads.len() {
            if self.random.chance(60) {
                let bad = self.sketch.bads[i].clone();
                self.sketch.bads[i] = self.with_a_mark(&bad);
            }
        }
        if self.sketch.bads.is_empty() || self.random.chance(70) {
            let exception = self.exception();
            self.sketch.bads.push(exception);
        }
        if self.random.chance(45) {
            let bad = self.random.pick(&self.sketch.bads).clone();
            let other = self.sibling(&bad);
            self.sketch.bads.push(other);
        }
        self.sketch.bads.retain(|bad| bad.size() <= MOST_ENTRIES);
        self.random.shuffle(&mut self.sketch.bads);
    }

    /// A mark for a variable, everywhere or at one place, or for any subterm.
    fn with_a_mark(&mut self, bad: &Term) -> Term {
        let mark = self.mark();
        let variables = variables_of(bad);
        if variables.is_empty() || self.random.chance(20) {
            let entry = self.random.between(1, bad.size() - 1);
            return replace_at(bad, entry, &mark);
        }
        let variable = self.random.pick(&variables).clone();
        if self.random.chance(70) {
            return replace(bad, &[(variable, mark)]);
        }
        let all = subterms(bad);
        let entries: Vec<usize> = (1..all.len())
            .filter(|entry| *all[*entry].subterm == variable)
            .collect();
        replace_at(bad, *self.random.pick(&entries), &mark)
    }

    /// A good pattern, narrower at its marks, where some field has a mark.
    fn exception(&mut self) -> Term {
        if self.sketch.goods.is_empty() {
            return Term::encryption(self.marked_body(), self.hat_key());
        }
        let good = self.random.pick(&self.sketch.goods).clone();
        let bodies: Vec<(Term, Term)> = variables_of(&good)
            .into_iter()
            .map(|variable| {
                let body = match variable {
                    Term::Marked(_) => self.marked_body(),
                    _ if self.random.chance(60) => variable.clone(),
                    Term::PlainNonce(_) | Term::MarkedNonce(_) => self.nonce_in_pattern(),
                    _ => self.any_atom(),
                };
                (variable, body)
            })
            .collect();
        replace(&good, &bodies)
    }

    fn marked_body(&mut self) -> Term {
        let (m, x) = (self.mark(), self.plain());
        let (atom, key) = (self.any_atom(), self.any_key());
        match self.random.weighted(&[12, 14, 14, 8, 8, 8, 6, 40]) {
            0 => Term::pair(atom, m),
            1 => Term::pair(atom, Term::pair(x, m)),
            2 => Term::pair(atom, Term::pair(m, x)),
            3 => Term::pair(Term::pair(x, m), atom),
            4 => Term::pair(Term::pair(Term::pair(m, atom), x.clone()), x),
            5 => Term::pair(atom, Term::encryption(Term::pair(x, m), key)),
            6 => Term::pair(m, x),
            _ => Term::pair(atom, self.shape_of_secret()),
        }
    }

    /// A nested secret with one of its parts, mostly no secret, as a mark.
    fn shape_of_secret(&mut self) -> Term {
        let nested: Vec<Term> = self.nested_secrets();
        if nested.is_empty() {
            return Term::pair(self.plain(), self.mark());
        }
        let secret = self.random.pick(&nested).clone();
        let all = subterms(&secret);
        let mut entries: Vec<usize> = (1..all.len()).collect();
        let is_secret = |entry: usize| self.sketch.secrets.contains(all[entry].subterm);
        if entries.iter().any(|entry| !is_secret(*entry)) {
            entries.retain(|entry| !is_secret(*entry));
        }
        let entry = *self.random.pick(&entries);
        replace_at(&secret, entry, &self.mark())
    }

    /// An entry of the pattern above a mark, and a nested secret to put there.
    fn secret_above_a_mark(&mut self, bad: &Term) -> Option<(usize, Term)> {
        let secrets = self.nested_secrets();
        let atoms = &self.sketch.atoms;
        let mut possible: Vec<(usize, Term)> = Vec::new();
        for place in subterms(bad).iter().skip(1) {
            let part = place.subterm;
            if !part.is_variable() && is_marked(part) {
                let fitting = secrets.iter().filter(|secret| matches(atoms, part, secret));
                possible.extend(fitting.map(|secret| (place.entry, secret.clone())));
            }
        }
        match possible.is_empty() {
            true => None,
            false => Some(self.random.pick(&possible).clone()),
        }
    }

    /// An entry of the pattern, often a mark's, and what to put there.
    fn aim(&mut self, bad: &Term, marks_percent: usize) -> (usize, Term) {
        if self.random.chance(50) {
            if let Some(found) = self.secret_above_a_mark(bad) {
                return found;
            }
        }
        let all = subterms(bad);
        let is_mark = |entry: &usize| all[*entry].subterm.is_mark();
        let marks: Vec<usize> = (1..all.len()).filter(is_mark).collect();
        let entry = match self.random.chance(marks_percent) && !marks.is_empty() {
            true => *self.random.pick(&marks),
            false => self.random.between(1, bad.size() - 1),
        };
        (entry, self.wanted(all[entry].subterm))
    }

    pub(super) fn nested_secrets(&self) -> Vec<Term> {
        let mut secrets = self.sketch.secrets.clone();
        secrets.retain(|secret| secret.size() > 1);
        secrets
    }

    /// Marks where the other has none, and perhaps another atom.
    fn sibling(&mut self, bad: &Term) -> Term {
        let exchanged = |variable: Term| {
            let other = match variable {
                Term::Marked(number) => Term::Plain(number),
                Term::Plain(number) => Term::Marked(number),
                Term::MarkedNonce(number) => Term::PlainNonce(number),
                Term::PlainNonce(number) => Term::MarkedNonce(number),
                _ => unreachable!("only variables"),
            };
            (variable, other)
        };
        let by: Vec<_> = variables_of(bad).into_iter().map(exchanged).collect();
        let other = replace(bad, &by);
        let all = subterms(&other);
        let is_atom = |entry: &usize| matches!(all[*entry].subterm, Term::Atom(_));
        let atoms: Vec<usize> = (1..all.len()).filter(is_atom).collect();
        if atoms.is_empty() || self.random.chance(40) {
            return other;
        }
        let entry = *self.random.pick(&atoms);
        replace_at(&other, entry, &self.any_atom())
    }

    /// Whether the next rule is to rest on a bad pattern's marks.
    pub(super) fn wants_exception(&mut self) -> bool {
        self.sketch.bads.iter().any(is_marked) && self.random.chance(45)
    }

    /// A rule that sends nearly a bad pattern, or forwards out of one.
    pub(super) fn exception_rule(&mut self) -> Rule {
        self.choose_variables();
        let mut bads = self.sketch.bads.clone();
        if self.random.chance(85) {
            bads.retain(is_marked);
        }
        let bad = self.random.pick(&bads).clone();
        if self.random.chance(50) {
            let conclusion = self.sent_exception(&bad);
            let premise = self.random.chance(25).then(|| self.premise());
            return (premise, conclusion);
        }
        self.forwarding(&bad)
    }

    /// Harmless atoms at the marks and anything elsewhere; often something to
    /// be covered at one place more, and something around it.
    fn sent_exception(&mut self, bad: &Term) -> Term {
        let mut sent = match self.random.chance(55) {
            true => self.filled(bad),
            false => {
                let (entry, wanted) = self.aim(bad, 0);
                self.filled_around(bad, entry, &wanted)
            }
        };
        if self.random.chance(15) {
            sent = Term::encryption(sent, self.any_key());
        }
        if self.random.chance(15) {
            sent = Term::pair(self.harmless_atom(), sent);
        }
        sent
    }

    /// Takes something out of a bad pattern: at a mark, below, above, beside.
    fn forwarding(&mut self, bad: &Term) -> Rule {
        let (entry, wanted) = self.aim(bad, 60);
        let mut premise = self.filled_around(bad, entry, &wanted);
        if self.random.chance(15) {
            premise = Term::encryption(premise, self.clear_key());
        }
        let shown = match self.random.chance(60) {
            true => wanted,
            false => subterm(&wanted, self.random.below(wanted.size())),
        };
        let key = self.clear_key();
        let conclusion = match self.random.weighted(&[40, 25, 20, 15]) {
            0 => shown,
            1 => Term::encryption(shown, key),
            2 => Term::pair(self.harmless_atom(), shown),
            _ => self.random.pick(&self.sketch.secrets).clone(),
        };
        (Some(premise), conclusion)
    }

    /// What may stand where the pattern has this: a nested secret, a variable
    /// of the rule, or something with one inside.
    fn wanted(&mut self, part: &Term) -> Term {
        let mut secrets = self.sketch.secrets.clone();
        secrets.retain(|secret| matches(&self.sketch.atoms, part, secret));
        if !secrets.is_empty() && self.random.chance(if part.is_variable() { 30 } else { 75 }) {
            return self.random.pick(&secrets).clone();
        }
        if part.is_nonce_variable() {
            return self.body_of(part, 1);
        }
        match self.random.weighted(&[50, 20, 10, 20]) {
            0 => self.variable(),
            1 => Term::pair(self.variable(), self.harmless_atom()),
            2 => Term::encryption(self.variable(), self.clear_key()),
            _ if part.is_variable() => self.small(1),
            _ => self.filled(part),
        }
    }

    /// The pattern with its variables replaced: little at the marks.
    fn filled(&mut self, pattern: &Term) -> Term {
        let mut variables = variables_of(pattern);
        variables.retain(|variable| *variable != PUT_LAST);
        let bodies: Vec<(Term, Term)> = variables
            .into_iter()
            .map(|variable| {
                let body = match variable {
                    Term::Marked(_) if self.random.chance(75) => self.harmless_atom(),
                    Term::PlainNonce(_) | Term::MarkedNonce(_) => self.body_of(&variable, 1),
                    _ if self.random.chance(35) => self.random.pick(&self.sketch.secrets).clone(),
                    _ => self.small(1),
                };
                (variable, body)
            })
            .collect();
        replace(pattern, &bodies)
    }

    /// The same with this term at one entry of the pattern.
    pub(super) fn filled_around(&mut self, pattern: &Term, entry: usize, term: &Term) -> Term {
        let open = self.filled(&replace_at(pattern, entry, &PUT_LAST));
        replace(&open, &[(PUT_LAST, term.clone())])
    }
}
