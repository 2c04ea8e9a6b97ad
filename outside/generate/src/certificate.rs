//! Certificates that are mostly well-formed, over few atoms and variables.

use crate::random::Random;
use crate::sketch::Sketch;
use crate::spread::onto_two_blocks;
use literal::numbers::atom_kind::{NONCE, PRINCIPAL, PRIVATE, PUBLIC, SYMMETRIC};
use literal::numbers::{ENTRIES, MOST_BLOCKS, MOST_ENTRIES, VARIABLES};
use literal::read::Atom;
use literal::{matches, Term};

mod exceptions;
mod hashes;
mod nonces;
mod open_secrets;

pub use open_secrets::OPEN_SECRETS;

/// Of a hundred certificates, so many may have nonce variables.
const NONCE_VARIABLES: usize = 40;
/// Of a hundred certificates, so many may have hashes and signatures.
const HASHES: usize = 30;

/// A certificate of the generator, not yet bytes.
pub fn sketch(random: &mut Random) -> Sketch {
    let mut maker = Maker::new(random);
    maker.make_secrets();
    maker.make_goods();
    maker.make_bads();
    for _ in 0..maker.rule_count() {
        maker.make_rule();
    }
    if maker.random.chance(16) {
        maker.sketch = onto_two_blocks(maker.random, &maker.sketch);
    }
    if maker.random.chance(1) {
        maker.fill_up();
    }
    maker.sketch
}

/// A sketch in the making.
struct Maker<'r> {
    random: &'r mut Random,
    sketch: Sketch,
    /// Keys that good patterns stand under.
    hat_keys: Vec<u16>,
    /// The variables that the present rule draws from.
    variables: Vec<u8>,
    /// Whether patterns and rules have nonce variables.
    has_nonce_variables: bool,
    /// Whether premises may show a secret.
    has_open_secrets: bool,
    /// Whether secrets, patterns and rules have hashes and signatures.
    has_hashes: bool,
}

impl<'r> Maker<'r> {
    fn new(random: &'r mut Random) -> Maker<'r> {
        let has_hashes = random.aside().chance(HASHES);
        let has_nonce_variables = random.chance(NONCE_VARIABLES);
        let has_open_secrets = random.chance(OPEN_SECRETS);
        let mut atoms = atoms(random);
        if has_nonce_variables && random.chance(6) {
            atoms = nonces::without_nonces(&atoms);
        }
        if has_hashes && random.chance(30) {
            hashes::with_unknown_public_keys(&mut atoms);
        }
        let mut maker = Maker {
            random,
            sketch: Sketch {
                atoms,
                ..Sketch::default()
            },
            hat_keys: Vec::new(),
            variables: vec![0, 1],
            has_nonce_variables,
            has_open_secrets,
            has_hashes,
        };
        maker.choose_hat_keys();
        maker
    }

    // Atoms.

    fn numbers(&self, wanted: impl Fn(&Atom) -> bool) -> Vec<u16> {
        let atoms = self.sketch.atoms.iter().enumerate();
        atoms
            .filter(|(_, a)| wanted(a))
            .map(|(i, _)| i as u16)
            .collect()
    }

    fn keys(&self) -> Vec<u16> {
        self.numbers(Atom::is_key)
    }

    fn any_key(&mut self) -> u16 {
        *self.random.pick(&self.keys())
    }

    fn hat_key(&mut self) -> u16 {
        *self.random.pick(&self.hat_keys)
    }

    /// A key that no good pattern stands under, if there is one.
    fn clear_key(&mut self) -> u16 {
        let hats = self.hat_keys.clone();
        let mut clear = self.keys();
        clear.retain(|key| !hats.contains(key));
        if clear.is_empty() {
            return self.any_key();
        }
        *self.random.pick(&clear)
    }

    fn any_atom(&mut self) -> Term {
        Term::Atom(self.random.below(self.sketch.atoms.len()) as u16)
    }

    /// An atom that is no secret.
    fn harmless_atom(&mut self) -> Term {
        loop {
            let atom = self.any_atom();
            if !self.sketch.secrets.contains(&atom) {
                return atom;
            }
        }
    }

    /// Keys with an unknown inverse, so that the inverse may be a secret.
    fn choose_hat_keys(&mut self) {
        let atoms = self.sketch.atoms.clone();
        let mut possible = self.numbers(|a| a.is_key() && atoms[a.partner as usize].known == 0);
        self.random.shuffle(&mut possible);
        possible.truncate(self.random.between(1, 2));
        self.hat_keys = possible;
    }

    // Secrets.

    fn make_secrets(&mut self) {
        let mut secrets: Vec<Term> = Vec::new();
        for key in self.hat_keys.clone() {
            if !self.random.chance(3) {
                secrets.push(Term::Atom(self.sketch.atoms[key as usize].partner));
            }
        }
        for number in self.numbers(|a| a.known == 0) {
            let nonce = self.sketch.atoms[number as usize].kind == NONCE;
            if self.random.chance(if nonce { 75 } else { 20 }) {
                secrets.push(Term::Atom(number));
            }
        }
        if secrets.is_empty() {
            secrets.push(Term::Atom(self.numbers(|a| a.known == 0)[0]));
        }
        secrets.dedup();
        for _ in 0..self.random.weighted(&[60, 25, 15]) {
            let secret = self.compound_secret(&secrets);
            secrets.push(secret);
        }
        if self.random.chance(1) {
            secrets.push(self.any_atom());
        }
        self.random.shuffle(&mut secrets);
        self.sketch.secrets = secrets;
        if self.has_hashes {
            self.make_hash_secrets();
        }
    }

    /// Weakly closed with the secrets so far, but for a few.
    fn compound_secret(&mut self, so_far: &[Term]) -> Term {
        let kept = self.random.pick(so_far).clone();
        let other = self.any_atom();
        let key = self.any_key();
        match self.random.weighted(&[30, 30, 20, 20, 1]) {
            0 => Term::pair(kept, other),
            1 => Term::pair(other, kept),
            2 => Term::encryption(kept, key),
            3 => match self.secret_key(so_far) {
                Some(key) => Term::encryption(other, key),
                None => Term::encryption(kept, key),
            },
            _ => Term::pair(other.clone(), other),
        }
    }

    fn secret_key(&mut self, secrets: &[Term]) -> Option<u16> {
        let mut keys = self.keys();
        keys.retain(|key| secrets.contains(&Term::Atom(*key)));
        if keys.is_empty() {
            return None;
        }
        Some(*self.random.pick(&keys))
    }

    // Patterns.

    fn make_goods(&mut self) {
        self.make_plain_goods();
        if self.has_hashes {
            self.make_hash_goods();
        }
    }

    fn make_plain_goods(&mut self) {
        if self.has_nonce_variables && self.random.chance(45) {
            return self.make_nonce_goods();
        }
        for _ in 0..self.random.weighted(&[4, 46, 35, 15]) {
            let body = self.good_body();
            let key = self.hat_key();
            self.sketch.goods.push(Term::encryption(body, key));
        }
        if self.has_nonce_variables {
            self.make_nonce_goods();
        }
    }

    fn good_body(&mut self) -> Term {
        let s = self.mark();
        let t = self.mark();
        let x = self.plain();
        let atom = self.any_atom();
        let key = self.any_key();
        match self
            .random
            .weighted(&[24, 14, 8, 8, 8, 6, 6, 6, 3, 5, 8, 4])
        {
            0 => s,
            1 => Term::pair(atom, s),
            2 => Term::pair(x, s),
            3 => Term::pair(s, x),
            4 => Term::pair(atom, Term::pair(x, s)),
            5 => Term::pair(x.clone(), Term::pair(x, s)),
            6 => Term::pair(Term::encryption(s, key), x),
            7 => Term::pair(x, Term::encryption(s, key)),
            8 => Term::pair(s.clone(), s),
            9 => Term::pair(s, t),
            10 => self.random_pattern(3, true),
            _ => Term::pair(x, atom),
        }
    }

    /// Mostly few numbers, so that those of different sorts meet.
    fn mark(&mut self) -> Term {
        let number = *self.random.pick(&[0, 0, 0, 1, VARIABLES - 1]);
        match self.wants_nonce_variable() {
            true => Term::MarkedNonce(number),
            false => Term::Marked(number),
        }
    }

    fn plain(&mut self) -> Term {
        let number = *self.random.pick(&[0, 0, 0, 1, 1, VARIABLES - 1]);
        match self.wants_nonce_variable() {
            true => Term::PlainNonce(number),
            false => Term::Plain(number),
        }
    }

    fn random_pattern(&mut self, depth: usize, marked: bool) -> Term {
        let nests = if depth == 0 { 0 } else { 50 };
        let either = self.if_hashes(nests / 3);
        match self
            .random
            .weighted(&[nests, nests / 2, 20, 40, 25, either, either])
        {
            0 => Term::pair(
                self.random_pattern(depth - 1, marked),
                self.random_pattern(depth - 1, marked),
            ),
            1 => {
                let message = self.random_pattern(depth - 1, marked);
                Term::encryption(message, self.any_key())
            }
            2 => self.any_atom(),
            3 if marked => self.mark(),
            5 => Term::hash(self.random_pattern(depth - 1, marked)),
            6 => {
                let message = self.random_pattern(depth - 1, marked);
                self.signed(message)
            }
            _ => self.plain(),
        }
    }

    fn make_bads(&mut self) {
        for _ in 0..self.random.weighted(&[35, 35, 20, 10]) {
            let bad = self.bad_pattern();
            if bad.size() <= MOST_ENTRIES {
                self.sketch.bads.push(bad);
            }
        }
        if self.has_hashes {
            self.make_hash_bads();
        }
        if self.random.chance(35) {
            self.mark_bads();
        }
    }

    fn bad_pattern(&mut self) -> Term {
        let x = self.plain();
        let body = match self.random.weighted(&[50, 25, 12, 12, 1]) {
            0 if !self.sketch.goods.is_empty() => {
                let good = self.random.pick(&self.sketch.goods).clone();
                return self.narrower(&good);
            }
            0 | 1 => Term::pair(self.any_atom(), x),
            2 => Term::pair(x.clone(), x),
            3 => self.random_pattern(2, false),
            _ => x,
        };
        let key = if self.random.chance(85) {
            self.hat_key()
        } else {
            self.any_key()
        };
        Term::encryption(body, key)
    }

    /// A good pattern with its variables replaced by terms with plain ones.
    fn narrower(&mut self, good: &Term) -> Term {
        let bodies: Vec<(Term, Term)> = variables_of(good)
            .into_iter()
            .map(|variable| {
                let body = match variable.is_nonce_variable() {
                    true => self.nonce_in_pattern(),
                    false => self.narrow_body(),
                };
                (variable, body)
            })
            .collect();
        replace(good, &bodies)
    }

    fn narrow_body(&mut self) -> Term {
        let x = self.plain();
        let either = self.if_hashes(10);
        match self.random.weighted(&[30, 30, 20, 10, 10, either, either]) {
            0 => self.any_atom(),
            1 => Term::pair(self.any_atom(), x),
            2 => x,
            3 => Term::pair(x.clone(), x),
            4 => Term::encryption(x, self.any_key()),
            5 => Term::hash(x),
            _ => self.signed(x),
        }
    }

    // Rules.

    /// Fewer where more of them do not pass.
    fn rule_count(&mut self) -> usize {
        match self.has_nonce_variables || self.has_hashes {
            true => self.random.weighted(&[0, 34, 31, 19, 8, 5, 3]),
            false => self.random.weighted(&[0, 18, 24, 22, 16, 12, 8]),
        }
    }

    fn make_rule(&mut self) {
        loop {
            let mut rule = self.next_rule();
            self.change_rule(&mut rule);
            if self.has_hashes {
                self.change_hashes(&mut rule);
            }
            if !self.has_open_secrets {
                rule = self.without_open_secrets(rule);
            }
            let (premise, conclusion) = &rule;
            let fits = |term: &Term| term.size() <= MOST_ENTRIES;
            if fits(conclusion) && premise.as_ref().is_none_or(fits) {
                self.sketch.rules.push(rule);
                return;
            }
        }
    }

    /// At times something else in it, or much around it.
    fn change_rule(&mut self, (premise, conclusion): &mut (Option<Term>, Term)) {
        if self.random.chance(6) {
            *conclusion = self.mutated(conclusion);
        }
        if let Some(premise) = premise.as_mut().filter(|_| self.random.chance(6)) {
            *premise = self.mutated(premise);
        }
        if self.random.chance(2) {
            *conclusion = self.wrapped_deep(conclusion);
        }
        if let Some(premise) = premise.as_mut().filter(|_| self.random.chance(2)) {
            *premise = self.wrapped_deep(premise);
        }
    }

    fn next_rule(&mut self) -> (Option<Term>, Term) {
        if self.wants_open_secret() {
            return self.open_secret_rule();
        }
        if self.wants_hash_rule() {
            return self.hash_rule();
        }
        if self.wants_exception() {
            return self.exception_rule();
        }
        if self.wants_nonce_rule() {
            return self.nonce_rule();
        }
        let premise = self.next_premise();
        let open = self.seemingly_open(premise.as_ref());
        let conclusion = self.next_conclusion(&open);
        (premise, conclusion)
    }

    /// A premise or none; at times that of the rule before, with its variables.
    fn next_premise(&mut self) -> Option<Term> {
        if self.random.chance(12) {
            if let Some((premise, _)) = self.sketch.rules.last() {
                return premise.clone();
            }
        }
        self.choose_variables();
        self.random.chance(80).then(|| self.premise())
    }

    /// A conclusion; at times that of the rule before.
    fn next_conclusion(&mut self, open: &[Term]) -> Term {
        if self.random.chance(4) {
            if let Some((_, conclusion)) = self.sketch.rules.last() {
                return conclusion.clone();
            }
        }
        self.conclusion(3, open)
    }

    /// Rules repeated up to the 64th block, in a few files one beyond.
    fn fill_up(&mut self) {
        let most = MOST_BLOCKS + usize::from(self.random.chance(20));
        while self.sketch.block_count() < most {
            let rule = self.random.pick(&self.sketch.rules).clone();
            self.sketch.rules.push(rule);
        }
    }

    /// Two or three of all, often 0 and 1.
    fn choose_variables(&mut self) {
        self.variables = vec![0, 1];
        if self.random.chance(30) {
            let mut all: Vec<u8> = (0..VARIABLES).collect();
            self.random.shuffle(&mut all);
            self.variables = all[..3].to_vec();
        }
    }

    fn variable(&mut self) -> Term {
        match self.wants_nonce_variable() {
            true => self.nonce_variable(),
            false => Term::Plain(*self.random.pick(&self.variables)),
        }
    }

    /// A small rule term.
    fn small(&mut self, depth: usize) -> Term {
        let nests = if depth == 0 { 0 } else { 25 };
        let either = self.if_hashes(nests / 3);
        match self
            .random
            .weighted(&[nests, nests / 2, 35, 15, 5, either, either])
        {
            0 => Term::pair(self.small(depth - 1), self.small(depth - 1)),
            1 => {
                let message = self.small(depth - 1);
                Term::encryption(message, self.any_key())
            }
            2 => self.variable(),
            3 => self.harmless_atom(),
            4 => self.random.pick(&self.sketch.secrets).clone(),
            5 => Term::hash(self.small(depth - 1)),
            _ => {
                let message = self.small(depth - 1);
                self.signed(message)
            }
        }
    }

    fn premise(&mut self) -> Term {
        let mut term = self.premise_piece(2);
        for _ in 0..self.random.weighted(&[45, 35, 20]) {
            let piece = self.premise_piece(2);
            term = self.in_either_order(term, piece);
        }
        term
    }

    fn in_either_order(&mut self, one: Term, other: Term) -> Term {
        match self.random.chance(50) {
            true => Term::pair(one, other),
            false => Term::pair(other, one),
        }
    }

    fn premise_piece(&mut self, depth: usize) -> Term {
        let nests = if depth == 0 { 0 } else { 8 };
        let either = self.if_hashes(nests);
        match self
            .random
            .weighted(&[16, 8, 20, 22, 18, 10, nests, nests, 3, either, either])
        {
            0 => self.variable(),
            1 => self.harmless_atom(),
            2 => Term::encryption(self.small(2), self.clear_key()),
            3 => self.instance_of_some(&self.sketch.goods.clone()),
            4 => self.instance_of_some(&self.sketch.bads.clone()),
            5 => Term::encryption(self.small(2), self.hat_key()),
            6 => {
                let inner = self.premise_piece(depth - 1);
                Term::encryption(inner, self.clear_key())
            }
            7 => {
                let inner = self.premise_piece(depth - 1);
                Term::encryption(inner, self.hat_key())
            }
            8 => self.random.pick(&self.sketch.secrets).clone(),
            9 => Term::hash(self.premise_piece(depth - 1)),
            _ => {
                let inner = self.premise_piece(depth - 1);
                self.signed(inner)
            }
        }
    }

    /// One of the patterns with its variables replaced by small terms.
    fn instance_of_some(&mut self, patterns: &[Term]) -> Term {
        if patterns.is_empty() {
            return Term::pair(self.variable(), self.harmless_atom());
        }
        let pattern = self.random.pick(patterns).clone();
        let bodies: Vec<(Term, Term)> = variables_of(&pattern)
            .into_iter()
            .map(|variable| {
                let body = self.body_of(&variable, 1);
                (variable, body)
            })
            .collect();
        replace(&pattern, &bodies)
    }

    /// The subterms that the premise seems to show. A guess is enough here.
    fn seemingly_open(&self, premise: Option<&Term>) -> Vec<Term> {
        let mut open = Vec::new();
        if let Some(term) = premise {
            self.add_open(term, &mut open);
        }
        open
    }

    fn add_open(&self, term: &Term, open: &mut Vec<Term>) {
        open.push(term.clone());
        match term {
            Term::Pair(left, right) => {
                self.add_open(left, open);
                self.add_open(right, open);
            }
            Term::Encryption(message, key) => {
                let atoms = &self.sketch.atoms;
                let bad = self.sketch.bads.iter().any(|bad| matches(atoms, bad, term));
                if bad || !self.hat_keys.contains(key) {
                    self.add_open(message, open);
                }
            }
            Term::Signature(message, _) => self.add_open(message, open),
            _ => {}
        }
    }

    /// Mostly made of what is covered.
    fn conclusion(&mut self, depth: usize, open: &[Term]) -> Term {
        let copies = if open.is_empty() { 0 } else { 36 };
        let nests = if depth == 0 { 0 } else { 18 };
        let hats = if depth == 0 || self.sketch.goods.is_empty() {
            0
        } else {
            34
        };
        let either = self.if_hashes(nests / 2);
        match self
            .random
            .weighted(&[copies, 8, nests, nests, hats, 3, either, either])
        {
            0 => self.random.pick(open).clone(),
            1 => self.harmless_atom(),
            2 => Term::pair(
                self.conclusion(depth - 1, open),
                self.conclusion(depth - 1, open),
            ),
            3 => {
                let message = self.conclusion(depth - 1, open);
                Term::encryption(message, self.any_key())
            }
            4 => self.hat(depth, open),
            5 => self.small(2),
            6 => Term::hash(self.small(2)),
            _ => {
                let message = self.conclusion(depth - 1, open);
                self.signed(message)
            }
        }
    }

    /// A good pattern with anything at its marks and covered terms elsewhere.
    fn hat(&mut self, depth: usize, open: &[Term]) -> Term {
        let good = self.random.pick(&self.sketch.goods).clone();
        let bodies: Vec<(Term, Term)> = variables_of(&good)
            .into_iter()
            .map(|variable| {
                let body = match variable {
                    Term::Plain(_) => self.conclusion(depth - 1, open),
                    Term::PlainNonce(_) => self.nonce_among(open),
                    _ => self.body_of(&variable, 2),
                };
                (variable, body)
            })
            .collect();
        replace(&good, &bodies)
    }

    /// One subterm replaced by a small term.
    fn mutated(&mut self, term: &Term) -> Term {
        let entry = self.random.below(term.size());
        let other = self.small(1);
        replace_at(term, entry, &other)
    }

    /// Under many clear encryptions, up to the last entry.
    fn wrapped_deep(&mut self, term: &Term) -> Term {
        let key = self.clear_key();
        let mut deep = term.clone();
        while deep.size() < MOST_ENTRIES {
            deep = Term::encryption(deep, key);
        }
        deep
    }
}

/// Eight to twelve atoms of all kinds, in any order; in a few files one block is
/// filled up with nonces.
fn atoms(random: &mut Random) -> Vec<Atom> {
    loop {
        let mut wanted = wanted_atoms(random);
        if (8..=12).contains(&wanted.len()) {
            if random.chance(1) {
                wanted.resize(ENTRIES, (NONCE, 1, 0));
            }
            random.shuffle(&mut wanted);
            return with_partners(&wanted);
        }
    }
}

/// Kind, known, and which pair of keys it belongs to.
type Wanted = (u8, u8, usize);

fn wanted_atoms(random: &mut Random) -> Vec<Wanted> {
    let mut wanted = vec![(PRINCIPAL, 1, 0)];
    let public_known = u8::from(random.chance(85));
    wanted.extend([(PUBLIC, public_known, 1), (PRIVATE, 0, 1)]);
    wanted.extend([(SYMMETRIC, 0, 0), (NONCE, 0, 0), (NONCE, 1, 0)]);
    if random.chance(60) {
        wanted.extend([(PUBLIC, 1, 2), (PRIVATE, 1, 2)]);
    }
    let extra: [(usize, Wanted); 6] = [
        (50, (PRINCIPAL, 1, 0)),
        (50, (SYMMETRIC, 1, 0)),
        (40, (SYMMETRIC, 0, 0)),
        (50, (NONCE, 0, 0)),
        (40, (NONCE, 1, 0)),
        (10, (PRINCIPAL, 0, 0)),
    ];
    for (percent, atom) in extra {
        if random.chance(percent) {
            wanted.push(atom);
        }
    }
    wanted
}

fn with_partners(wanted: &[Wanted]) -> Vec<Atom> {
    let key = |kind, pair| wanted.iter().position(|w| w.0 == kind && w.2 == pair);
    let partner_of = |i: usize| match wanted[i] {
        (PUBLIC, _, pair) => key(PRIVATE, pair).unwrap(),
        (PRIVATE, _, pair) => key(PUBLIC, pair).unwrap(),
        (SYMMETRIC, _, _) => i,
        _ => 0,
    };
    (0..wanted.len())
        .map(|i| Atom {
            kind: wanted[i].0,
            known: wanted[i].1,
            partner: partner_of(i) as u16,
        })
        .collect()
}

/// The variables of a term, each once.
pub fn variables_of(term: &Term) -> Vec<Term> {
    let mut found = Vec::new();
    for place in literal::term::subterms(term) {
        if place.subterm.is_variable() && !found.contains(place.subterm) {
            found.push(place.subterm.clone());
        }
    }
    found
}

/// The term with each listed variable replaced by the term beside it.
pub fn replace(term: &Term, by: &[(Term, Term)]) -> Term {
    match by.iter().find(|(v, _)| v == term) {
        Some((_, body)) => body.clone(),
        None => term.with_parts(|part| replace(part, by)),
    }
}

/// The term with the subterm at this entry replaced.
pub fn replace_at(term: &Term, entry: usize, other: &Term) -> Term {
    if entry == 0 {
        return other.clone();
    }
    let mut first = 1;
    term.with_parts(|part| {
        let within = entry.checked_sub(first).filter(|w| *w < part.size());
        first += part.size();
        match within {
            Some(within) => replace_at(part, within, other),
            None => part.clone(),
        }
    })
}
