//! Nonce variables in patterns and rules, and rules that rest on what may stand
//! there.

use super::exceptions::is_marked;
use super::{replace, replace_at, variables_of, Maker};
use literal::read::Atom;
use literal::term::{is_one_nonce, subterms};
use literal::Term;

type Rule = (Option<Term>, Term);

/// The atoms but the nonces; partners are numbered anew.
pub fn without_nonces(atoms: &[Atom]) -> Vec<Atom> {
    let kept: Vec<usize> = (0..atoms.len()).filter(|i| !atoms[*i].is_nonce()).collect();
    let renumbered = |i: &usize| {
        let atom = atoms[*i];
        let partner = kept.iter().position(|k| *k == atom.partner as usize);
        Atom {
            partner: if atom.is_key() {
                partner.unwrap_or(0) as u16
            } else {
                0
            },
            ..atom
        }
    };
    kept.iter().map(renumbered).collect()
}

/// A plain variable that stands at two places or more.
pub fn repeated_plain(pattern: &Term) -> Option<Term> {
    let all = subterms(pattern);
    let count = |variable: &Term| all.iter().filter(|p| p.subterm == variable).count();
    let mut variables = variables_of(pattern).into_iter();
    variables.find(|v| matches!(v, Term::Plain(_)) && count(v) > 1)
}

impl Maker<'_> {
    pub(super) fn wants_nonce_variable(&mut self) -> bool {
        self.has_nonce_variables && self.random.chance(30)
    }

    /// A nonce variable of the present rule.
    pub(super) fn nonce_variable(&mut self) -> Term {
        Term::PlainNonce(*self.random.pick(&self.variables))
    }

    /// A listed nonce, or a principal if there is none.
    fn listed_nonce(&mut self) -> Term {
        match self.numbers(Atom::is_nonce).as_slice() {
            [] => Term::Atom(0),
            nonces => Term::Atom(*self.random.pick(nonces)),
        }
    }

    /// A secret that is a nonce, if there is one, else any nonce.
    fn secret_nonce(&mut self) -> Term {
        let mut secrets = self.sketch.secrets.clone();
        secrets.retain(|secret| is_one_nonce(&self.sketch.atoms, secret));
        match secrets.as_slice() {
            [] => self.listed_nonce(),
            secrets => self.random.pick(secrets).clone(),
        }
    }

    /// What may stand at a nonce variable.
    fn nonce(&mut self) -> Term {
        match self.random.weighted(&[50, 30, 20]) {
            0 => self.nonce_variable(),
            1 => self.secret_nonce(),
            _ => self.listed_nonce(),
        }
    }

    /// What may not stand at one.
    fn no_nonce(&mut self) -> Term {
        let inner = self.small(0);
        let either = self.if_hashes(40);
        match self.random.weighted(&[30, 25, 15, 15, 15, either, either]) {
            0 => Term::Plain(*self.random.pick(&self.variables)),
            1 => Term::Atom(self.any_key()),
            2 => self.principal(),
            3 => Term::pair(inner, self.harmless_atom()),
            4 => Term::encryption(inner, self.any_key()),
            5 => Term::hash(inner),
            _ => self.signed(inner),
        }
    }

    fn principal(&mut self) -> Term {
        let principals = self.numbers(|atom| !atom.is_nonce() && !atom.is_key());
        Term::Atom(*self.random.pick(&principals))
    }

    /// What to put for a variable of a pattern; mostly a nonce for a nonce.
    pub(super) fn body_of(&mut self, variable: &Term, depth: usize) -> Term {
        match variable.is_nonce_variable() {
            true if self.random.chance(75) => self.nonce(),
            true => self.no_nonce(),
            false => self.small(depth),
        }
    }

    /// One of these that is a nonce, or one that is no secret.
    pub(super) fn nonce_among(&mut self, open: &[Term]) -> Term {
        let atoms = &self.sketch.atoms;
        let nonces: Vec<&Term> = open.iter().filter(|t| is_one_nonce(atoms, t)).collect();
        if !nonces.is_empty() && self.random.chance(60) {
            return (*self.random.pick(&nonces)).clone();
        }
        let known = |a: &Atom| a.is_nonce() && a.known == 1;
        match self.numbers(known).as_slice() {
            [] => self.harmless_atom(),
            known => Term::Atom(*self.random.pick(known)),
        }
    }

    /// What stands in a narrower pattern for a nonce variable.
    pub(super) fn nonce_in_pattern(&mut self) -> Term {
        match self.random.weighted(&[40, 20, 15, 15, 10]) {
            0 => self.listed_nonce(),
            1 => Term::PlainNonce(self.random.below(2) as u8),
            2 => self.plain(),
            3 => self.any_atom(),
            _ => Term::pair(self.any_atom(), self.plain()),
        }
    }

    /// Good patterns whose fields are nonces, or that tie a field to another.
    pub(super) fn make_nonce_goods(&mut self) {
        for _ in 0..self.random.weighted(&[20, 50, 30]) {
            let body = self.nonce_body();
            let key = self.hat_key();
            self.sketch.goods.push(Term::encryption(body, key));
        }
    }

    fn nonce_body(&mut self) -> Term {
        let (n, x) = (Term::PlainNonce(0), Term::Plain(0));
        let (m, s) = (Term::MarkedNonce(0), Term::Marked(0));
        let (atom, key) = (self.any_atom(), self.any_key());
        let tied = |one: Term, other: Term| Term::pair(one, Term::pair(other, s.clone()));
        match self
            .random
            .weighted(&[18, 12, 8, 8, 36, 8, 8, 14, 8, 6, 6, 14])
        {
            0 => m,
            1 => Term::pair(atom, m),
            2 => Term::pair(n, s),
            3 => Term::pair(m, x),
            4 => tied(x.clone(), x),
            5 => tied(n.clone(), n),
            6 => tied(n, Term::PlainNonce(1)),
            7 => tied(n, Term::encryption(x, key)),
            8 => Term::pair(m.clone(), m),
            9 => Term::pair(n, m),
            10 => Term::pair(s, m),
            _ => tied(n, Term::pair(x, atom)),
        }
    }

    /// Whether the next rule is to rest on what may stand at nonce variables.
    pub(super) fn wants_nonce_rule(&mut self) -> bool {
        self.has_nonce_variables && self.random.chance(45)
    }

    pub(super) fn nonce_rule(&mut self) -> Rule {
        self.choose_variables();
        match self.random.weighted(&[35, 30, 15, 10, 15]) {
            0 => self.shown_out_of_a_pattern(),
            1 => self.sent_in_a_pattern(),
            2 => self.answered(),
            3 => self.shown_by_number(),
            _ => self.shown_by_a_tie(),
        }
    }

    /// A pattern of either list, mostly a good one.
    fn some_pattern(&mut self) -> Term {
        let lists = [&self.sketch.goods, &self.sketch.bads];
        let list = lists[usize::from(self.random.chance(40))].clone();
        match list.as_slice() {
            [] => Term::encryption(self.nonce_body(), self.hat_key()),
            patterns => self.random.pick(patterns).clone(),
        }
    }

    /// Something is taken out of what nearly is a pattern: whether that shares
    /// an instance with the good ones, or is a bad one, decides.
    fn shown_out_of_a_pattern(&mut self) -> Rule {
        let pattern = self.some_pattern();
        let shown = match self.random.chance(70) {
            true => Term::Plain(self.variables[0]),
            false => Term::PlainNonce(self.variables[0]),
        };
        let other = match self.random.chance(30) {
            true => Some(Term::Plain(self.variables[1])),
            false => None,
        };
        let mut premise = self.filled_apart(&pattern, &shown, other.as_ref());
        if self.random.chance(15) {
            premise = Term::encryption(premise, self.clear_key());
        }
        let conclusion = match self.random.chance(60) {
            true => shown,
            false => Term::encryption(shown, self.clear_key()),
        };
        (Some(premise), conclusion)
    }

    /// Each place of a variable for itself: mostly what is shown at the marks,
    /// elsewhere the other one, at times for more than a variable, or, if there
    /// is none, nonces and what is none.
    fn filled_apart(&mut self, pattern: &Term, shown: &Term, other: Option<&Term>) -> Term {
        match pattern {
            part if other.is_some() && !is_marked(part) && self.random.chance(80) => {
                other.expect("there is one").clone()
            }
            part if !part.is_variable() => {
                part.with_parts(|part| self.filled_apart(part, shown, other))
            }
            mark if mark.is_mark() && self.random.chance(80) => shown.clone(),
            _ => match (other, self.random.chance(50)) {
                (Some(other), _) => other.clone(),
                (None, true) => self.nonce(),
                (None, false) => self.no_nonce(),
            },
        }
    }

    /// A good pattern's variable meets a nonce variable at one place and
    /// something else at another; what is at the marks is shown.
    fn shown_by_a_tie(&mut self) -> Rule {
        let mut tied = self.sketch.goods.clone();
        tied.retain(|good| repeated_plain(good).is_some());
        if tied.is_empty() {
            return self.shown_out_of_a_pattern();
        }
        let good = self.random.pick(&tied).clone();
        let repeated = repeated_plain(&good);
        let (shown, nonce) = (
            Term::Plain(self.variables[0]),
            Term::PlainNonce(self.variables[1]),
        );
        let mut premise = good.clone();
        let mut tie = vec![nonce, self.no_nonce(), self.nonce()];
        self.random.shuffle(&mut tie[1..]);
        self.random.shuffle(&mut tie[..2]);
        // From the last to the first, so that the entries before stay.
        for place in subterms(&good).iter().rev() {
            let body = match place.subterm {
                mark if mark.is_mark() => shown.clone(),
                variable if Some(variable) == repeated.as_ref() && !tie.is_empty() => tie.remove(0),
                variable if variable.is_variable() => self.nonce(),
                _ => continue,
            };
            premise = replace_at(&premise, place.entry, &body);
        }
        (Some(premise), shown)
    }

    /// A good pattern with a secret or a nonce variable at its marks, and
    /// elsewhere nonces that the premise shows.
    fn sent_in_a_pattern(&mut self) -> Rule {
        if self.sketch.goods.is_empty() {
            return self.answered();
        }
        let good = self.random.pick(&self.sketch.goods).clone();
        let shown = self.nonce_variable();
        let bodies: Vec<(Term, Term)> = variables_of(&good)
            .into_iter()
            .map(|variable| {
                let body = self.sent_at(&variable, &shown);
                (variable, body)
            })
            .collect();
        let sent = replace(&good, &bodies);
        (self.random.chance(60).then_some(shown), sent)
    }

    fn sent_at(&mut self, variable: &Term, shown: &Term) -> Term {
        match variable {
            Term::MarkedNonce(_) => match self.random.weighted(&[45, 35, 20]) {
                0 => self.secret_nonce(),
                1 => self.nonce_variable(),
                _ => self.no_nonce(),
            },
            Term::Marked(_) if self.random.chance(60) => self.nonce(),
            Term::Marked(_) => self.small(1),
            _ if self.random.chance(50) => shown.clone(),
            Term::PlainNonce(_) => self.nonce_among(&[]),
            _ => self.harmless_atom(),
        }
    }

    /// As in a handshake: a nonce comes in and goes out beside a secret one.
    fn answered(&mut self) -> Rule {
        let (name, y) = (self.principal(), self.nonce_variable());
        let mut came = Term::pair(name.clone(), y.clone());
        if self.random.chance(30) {
            came = y.clone();
        }
        let key = self.hat_key();
        let fields = Term::pair(y, self.secret_nonce());
        let answer = match self.random.chance(50) {
            true => Term::pair(name, fields),
            false => fields,
        };
        let out = if self.random.chance(80) {
            key
        } else {
            self.clear_key()
        };
        (
            Some(Term::encryption(came, key)),
            Term::encryption(answer, out),
        )
    }

    /// A variable is shown, and one of another sort with the same number sent.
    fn shown_by_number(&mut self) -> Rule {
        let number = *self.random.pick(&self.variables);
        let (x, n) = (Term::Plain(number), Term::PlainNonce(number));
        let (shown, sent) = match self.random.chance(50) {
            true => (x, n),
            false => (n, x),
        };
        let key = self.clear_key();
        let sent = match self.random.chance(25) {
            true => shown.clone(),
            false => sent,
        };
        (Some(Term::encryption(shown, key)), sent)
    }
}
