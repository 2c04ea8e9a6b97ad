//! Hashes and signatures in secrets, patterns and rules, and rules that rest on
//! what stands below them.

use super::exceptions::is_marked;
use super::nonces::repeated_plain;
use super::{replace, replace_at, variables_of, Maker};
use literal::numbers::MOST_ENTRIES;
use literal::read::Atom;
use literal::term::subterms;
use literal::Term;

type Rule = (Option<Term>, Term);

/// The public keys of unknown private ones unknown too, so that these may be
/// root keys.
pub fn with_unknown_public_keys(atoms: &mut [Atom]) {
    for i in 0..atoms.len() {
        let atom = atoms[i];
        if atom.is_private_key() && atom.known == 0 {
            atoms[atom.partner as usize].known = 0;
        }
    }
}

fn is_hash_or_signature(term: &Term) -> bool {
    term.is_hash() || term.is_signature()
}

fn has_either(term: &Term) -> bool {
    subterms(term)
        .iter()
        .any(|s| is_hash_or_signature(s.subterm))
}

/// Whether a mark stands below a hash.
fn hides_a_mark(pattern: &Term) -> bool {
    subterms(pattern)
        .iter()
        .any(|s| s.subterm.is_hash() && is_marked(s.subterm))
}

impl Maker<'_> {
    /// This weight, or none in a certificate without hashes and signatures.
    pub(super) fn if_hashes(&self, weight: usize) -> usize {
        match self.has_hashes {
            true => weight,
            false => 0,
        }
    }

    /// Often one that good patterns stand under, if there is one.
    fn signing_key(&mut self) -> u16 {
        let keys = self.numbers(Atom::is_private_key);
        let hats = self.hat_keys.iter().filter(|key| keys.contains(key));
        let hats: Vec<u16> = hats.copied().collect();
        match !hats.is_empty() && self.random.chance(50) {
            true => *self.random.pick(&hats),
            false => *self.random.pick(&keys),
        }
    }

    /// Another one, if there is one.
    fn other_signing_key(&mut self, than: u16) -> u16 {
        let keys = self.numbers(Atom::is_private_key);
        let others: Vec<u16> = keys.into_iter().filter(|key| *key != than).collect();
        match others.as_slice() {
            [] => than,
            others => *self.random.pick(others),
        }
    }

    pub(super) fn signed(&mut self, message: Term) -> Term {
        Term::signature(message, self.signing_key())
    }

    /// Below a signature, at times beside something or in another one.
    fn signed_around(&mut self, message: Term) -> Term {
        let atom = self.harmless_atom();
        match self.random.weighted(&[55, 20, 10, 15]) {
            0 => self.signed(message),
            1 => self.signed(Term::pair(atom, message)),
            2 => self.signed(Term::pair(message, Term::hash(atom))),
            _ => {
                let inner = self.signed(message);
                self.signed(inner)
            }
        }
    }

    /// Below a hash, at times beside or below something else there.
    fn hashed_around(&mut self, message: Term) -> Term {
        let beside = self.small(1);
        Term::hash(match self.random.weighted(&[35, 20, 10, 15, 12, 8]) {
            0 => message,
            1 => self.in_either_order(message, beside),
            2 => Term::pair(beside, Term::pair(self.harmless_atom(), message)),
            3 => Term::encryption(message, self.any_key()),
            4 => self.signed(message),
            _ => Term::hash(message),
        })
    }

    fn either_around(&mut self, message: Term) -> Term {
        match self.random.chance(50) {
            true => Term::hash(message),
            false => self.signed(message),
        }
    }

    /// A hash or a signature around one subterm below the root.
    fn with_one_around(&mut self, term: &Term) -> Term {
        if term.size() < 2 || term.size() >= MOST_ENTRIES {
            return term.clone();
        }
        let entry = self.random.between(1, term.size() - 1);
        let wrapped = self.either_around(subterms(term)[entry].subterm.clone());
        replace_at(term, entry, &wrapped)
    }

    /// One hash or signature turned into another one, or into an encryption.
    fn turned(&mut self, term: &Term) -> Term {
        let mut possible = subterms(term);
        possible.retain(|s| s.entry > 0 && is_hash_or_signature(s.subterm));
        if possible.is_empty() {
            return self.with_one_around(term);
        }
        let found = self.random.pick(&possible).clone();
        let message = found.subterm.parts().next().expect("a message").clone();
        let other = match (found.subterm, self.random.below(4)) {
            (Term::Signature(_, key), 0) => Term::encryption(message, *key),
            (Term::Signature(..), 1) => Term::hash(message),
            (Term::Signature(_, key), _) => Term::signature(message, self.other_signing_key(*key)),
            (Term::Hash(_), 0 | 1) => Term::encryption(message, self.any_key()),
            (Term::Hash(_), 2) => Term::hash(self.small(1)),
            _ => self.signed(message),
        };
        replace_at(term, found.entry, &other)
    }

    // Secrets.

    /// Hashes and signatures, with what closes them but for a few.
    pub(super) fn make_hash_secrets(&mut self) {
        for _ in 0..self.random.weighted(&[25, 40, 25, 10]) {
            for secret in self.hash_secrets() {
                let at = self.random.below(self.sketch.secrets.len() + 1);
                self.sketch.secrets.insert(at, secret);
            }
        }
    }

    /// One of them, and what has to be listed with it.
    fn hash_secrets(&mut self) -> Vec<Term> {
        let kept = self.random.pick(&self.sketch.secrets).clone();
        let (other, key) = (self.any_atom(), self.any_key());
        let pair = self.in_either_order(kept.clone(), other.clone());
        let hash = Term::hash(kept.clone());
        match self.random.weighted(&[28, 10, 18, 16, 6, 6, 6, 6, 2, 2]) {
            0 => vec![hash],
            1 => vec![Term::hash(pair.clone()), pair],
            2 => vec![self.signed(kept)],
            3 => vec![self.signed_with_a_secret(other, kept)],
            4 => {
                let signed = self.signed(kept);
                vec![Term::hash(signed.clone()), signed]
            }
            5 => vec![Term::encryption(hash.clone(), key), hash],
            6 => vec![self.signed(hash.clone()), hash],
            7 => vec![Term::pair(hash.clone(), other), hash],
            8 => vec![Term::hash(pair)],
            _ => vec![self.signed(other)],
        }
    }

    /// Closed by its key if a private key is listed, else by its message.
    fn signed_with_a_secret(&mut self, other: Term, kept: Term) -> Term {
        let secrets = self.sketch.secrets.clone();
        let mut keys = self.numbers(Atom::is_private_key);
        keys.retain(|key| secrets.contains(&Term::Atom(*key)));
        match keys.as_slice() {
            [] => self.signed(kept),
            keys => Term::signature(other, *self.random.pick(keys)),
        }
    }

    // Patterns.

    pub(super) fn make_hash_goods(&mut self) {
        if self.random.chance(35) {
            for i in 0..self.sketch.goods.len() {
                let good = self.sketch.goods[i].clone();
                self.sketch.goods[i] = self.with_one_around(&good);
            }
        }
        for _ in 0..self.random.weighted(&[30, 50, 20]) {
            let good = Term::encryption(self.hash_body(), self.hat_key());
            self.sketch.goods.push(good);
        }
    }

    /// A good pattern's message.
    fn hash_body(&mut self) -> Term {
        let (s, x) = (self.mark(), self.plain());
        let (atom, key) = (self.any_atom(), self.signing_key());
        let signed = |message| Term::signature(message, key);
        let tied = |one: Term, other: Term| Term::pair(one, Term::pair(other, s.clone()));
        match self
            .random
            .weighted(&[8, 12, 10, 12, 8, 8, 10, 8, 12, 8, 12, 10])
        {
            0 => Term::hash(s),
            1 => Term::pair(Term::hash(x), s),
            2 => Term::pair(s, Term::hash(x)),
            3 => signed(s),
            4 => signed(Term::pair(atom, s)),
            5 => Term::pair(x, signed(s)),
            6 => Term::pair(Term::hash(s.clone()), s),
            7 => Term::pair(Term::hash(atom), s),
            8 => Term::pair(signed(x), s),
            9 => tied(Term::hash(x.clone()), x),
            10 => tied(x.clone(), Term::hash(x)),
            _ => tied(x.clone(), signed(x)),
        }
    }

    pub(super) fn make_hash_bads(&mut self) {
        if self.random.chance(25) {
            for i in 0..self.sketch.bads.len() {
                let bad = self.sketch.bads[i].clone();
                self.sketch.bads[i] = self.with_one_around(&bad);
            }
        }
        for _ in 0..self.random.weighted(&[60, 32, 8]) {
            let bad = self.hash_bad();
            self.sketch.bads.push(bad);
        }
        self.sketch.bads.retain(|bad| bad.size() <= MOST_ENTRIES);
    }

    /// A good pattern, narrower at its marks, or a pattern of its own.
    fn hash_bad(&mut self) -> Term {
        let body = self.exposed_below();
        if self.sketch.goods.is_empty() || self.random.chance(50) {
            return Term::encryption(body, self.hat_key());
        }
        let good = self.random.pick(&self.sketch.goods).clone();
        let mut marks = variables_of(&good);
        marks.retain(Term::is_mark);
        let by: Vec<(Term, Term)> = marks.into_iter().map(|m| (m, body.clone())).collect();
        replace(&good, &by)
    }

    /// Mostly with a mark below a hash.
    fn exposed_below(&mut self) -> Term {
        let (m, x) = (self.mark(), self.plain());
        let hash = Term::hash(m.clone());
        match self.random.weighted(&[18, 22, 22, 12, 8, 10, 8]) {
            0 => hash,
            1 => Term::pair(hash, x),
            2 => Term::pair(x, hash),
            3 => Term::pair(Term::hash(Term::pair(x.clone(), m)), x),
            4 => Term::pair(hash, m),
            5 => self.signed(m),
            _ => Term::pair(Term::hash(x), self.plain()),
        }
    }

    // Rules.

    /// Whether the next rule is to rest on a hash or a signature.
    pub(super) fn wants_hash_rule(&mut self) -> bool {
        self.has_hashes && self.random.chance(55)
    }

    /// Often the first of several that passes.
    pub(super) fn hash_rule(&mut self) -> Rule {
        for _ in 0..*self.random.pick(&[0, 0, 3, 6]) {
            let (premise, conclusion) = self.any_hash_rule();
            if self.sketch.covers(premise.as_ref(), &conclusion) {
                return (premise, conclusion);
            }
        }
        self.any_hash_rule()
    }

    fn any_hash_rule(&mut self) -> Rule {
        self.choose_variables();
        if self.sketch.bads.iter().any(hides_a_mark) && self.random.chance(35) {
            return self.near_a_hidden_mark();
        }
        if !self.goods_under_private_keys().is_empty() && self.random.chance(30) {
            return self.signed_like_a_hat();
        }
        match self.random.weighted(&[16, 14, 16, 16, 14, 26, 6, 12]) {
            0 => self.committed(),
            1 => self.sent_signed(),
            2 => self.read_under_a_signature(),
            3 => self.behind_a_hash(),
            4 => self.out_of_a_hash_pattern(),
            5 => self.in_a_hash_pattern(),
            6 => self.out_of_a_knot(),
            _ => self.near_a_hash_secret(),
        }
    }

    /// A secret or a variable of the rule.
    fn to_be_kept(&mut self) -> Term {
        match self.random.chance(55) {
            true => self.random.pick(&self.sketch.secrets).clone(),
            false => self.variable(),
        }
    }

    /// What a listed hash or signature holds, if there is one.
    fn message_of_a_secret(&mut self) -> Term {
        let mut secrets = self.sketch.secrets.clone();
        secrets.retain(is_hash_or_signature);
        match secrets.as_slice() {
            [] => self.to_be_kept(),
            secrets => {
                let secret = self.random.pick(secrets);
                secret.parts().next().expect("a message").clone()
            }
        }
    }

    /// A pattern of these that holds a hash or a signature, if there is one.
    fn some_hash_pattern(&mut self, patterns: &[Term]) -> Term {
        let mut possible = patterns.to_vec();
        possible.retain(has_either);
        match possible.as_slice() {
            [] => Term::encryption(self.hash_body(), self.hat_key()),
            possible => self.random.pick(possible).clone(),
        }
    }

    /// This where a good pattern has one of its variables.
    fn in_a_good(&mut self, term: &Term) -> Term {
        self.in_a_pattern(&self.sketch.goods.clone(), term)
    }

    /// A commitment: something below a hash, and often beside it what was
    /// committed to, in a hat or not.
    fn committed(&mut self) -> Rule {
        let premise = self.next_premise();
        let kept = self.to_be_kept();
        let hash = self.hashed_around(kept.clone());
        let beside = match self.random.weighted(&[30, 15, 25, 15, 15]) {
            0 => None,
            1 => Some(kept),
            2 => Some(self.in_a_good(&kept)),
            3 => Some(self.harmless_atom()),
            _ => Some(self.signed(kept)),
        };
        let mut sent = match beside {
            Some(beside) => self.in_either_order(hash, beside),
            None => hash,
        };
        match self.random.weighted(&[70, 15, 15]) {
            0 => {}
            1 => sent = Term::encryption(sent, self.clear_key()),
            _ => sent = self.signed(sent),
        }
        (premise, sent)
    }

    /// A signature around something to be kept or around a hat, or in a hat.
    fn sent_signed(&mut self) -> Rule {
        let premise = self.next_premise();
        let kept = self.to_be_kept();
        let hat = self.in_a_good(&kept);
        let inner = match self.random.weighted(&[45, 40, 15]) {
            0 => kept.clone(),
            1 => hat,
            _ => self.harmless_atom(),
        };
        let signed = self.signed_around(inner);
        let sent = match self.random.weighted(&[35, 40, 10, 15]) {
            0 => signed,
            1 => self.in_a_good(&signed),
            2 => Term::encryption(signed, self.clear_key()),
            _ => Term::pair(self.harmless_atom(), signed),
        };
        (premise, sent)
    }

    /// Message and key.
    fn goods_under_private_keys(&self) -> Vec<(Term, u16)> {
        let goods = self.sketch.goods.iter();
        let root = |good: &Term| match good {
            Term::Encryption(message, key) => Some(((**message).clone(), *key)),
            _ => None,
        };
        let is_private = |key: u16| self.sketch.atoms[key as usize].is_private_key();
        goods.filter_map(root).filter(|r| is_private(r.1)).collect()
    }

    /// A signature with a good pattern's message and key, which is no hat.
    fn signed_like_a_hat(&mut self) -> Rule {
        let possible = self.goods_under_private_keys();
        let (message, key) = self.random.pick(&possible).clone();
        let kept = self.to_be_kept();
        let signed = Term::signature(self.hash_filled(&message, &kept), key);
        match self.random.chance(50) {
            true => (Some(Term::Plain(self.variables[1])), signed),
            false => (Some(signed), kept),
        }
    }

    /// The message of a signature goes out, or the signature itself.
    fn read_under_a_signature(&mut self) -> Rule {
        let x = self.variable();
        let message = match self.random.chance(25) {
            true => Term::pair(x.clone(), self.to_be_kept()),
            false => x.clone(),
        };
        let signed = self.signed_around(message);
        let premise = match self.random.weighted(&[40, 20, 15, 15, 10]) {
            0 => signed.clone(),
            1 => Term::encryption(signed.clone(), self.clear_key()),
            2 => Term::encryption(signed.clone(), self.hat_key()),
            3 => self.in_a_good(&signed),
            _ => self.hashed_around(signed.clone()),
        };
        let sent = match self.random.weighted(&[45, 20, 10, 10, 15]) {
            0 => x,
            1 => signed,
            2 => Term::hash(x),
            3 => self.signed(x),
            _ => Term::encryption(x, self.clear_key()),
        };
        (Some(premise), sent)
    }

    /// What came below a hash goes out, or the hash itself.
    fn behind_a_hash(&mut self) -> Rule {
        let kept = self.to_be_kept();
        let hash = self.hashed_around(kept.clone());
        let piece = self.premise_piece(1);
        let premise = match self.random.weighted(&[40, 20, 15, 15, 10]) {
            0 => hash.clone(),
            1 => self.in_either_order(hash.clone(), piece),
            2 => Term::encryption(hash.clone(), self.clear_key()),
            3 => self.signed(hash.clone()),
            _ => self.in_a_good(&hash),
        };
        let open = self.seemingly_open(Some(&premise));
        let sent = match self.random.weighted(&[20, 30, 15, 15, 20]) {
            0 => kept,
            1 => hash,
            2 => self.harmless_atom(),
            3 => self.in_a_good(&kept),
            _ => self.conclusion(2, &open),
        };
        (Some(premise), sent)
    }

    /// Something is taken out of what nearly is a pattern: whether the two
    /// share an instance, or it is a bad one, decides.
    fn out_of_a_hash_pattern(&mut self) -> Rule {
        let lists = [&self.sketch.goods, &self.sketch.bads];
        let list = lists[usize::from(self.random.chance(25))].clone();
        let pattern = self.some_hash_pattern(&list);
        let shown = Term::Plain(self.variables[0]);
        let mut premise = self.hash_filled(&pattern, &shown);
        if self.random.chance(35) {
            premise = self.turned(&premise);
        }
        let sent = match self.random.chance(75) {
            true => shown,
            false => Term::encryption(shown, self.clear_key()),
        };
        (Some(premise), sent)
    }

    /// Each place of a variable for itself: mostly this at the marks, elsewhere
    /// the other variable, an atom, a hash or a signature.
    fn hash_filled(&mut self, pattern: &Term, at_marks: &Term) -> Term {
        if !pattern.is_variable() {
            return pattern.with_parts(|part| self.hash_filled(part, at_marks));
        }
        if pattern.is_mark() && self.random.chance(85) {
            return at_marks.clone();
        }
        let other = Term::Plain(self.variables[1]);
        match self.random.weighted(&[40, 15, 20, 20, 5]) {
            0 => other,
            1 => self.harmless_atom(),
            2 => Term::hash(other),
            3 => self.signed(other),
            _ => self.small(1),
        }
    }

    /// A good pattern's variable meets a variable at one place and a hash or a
    /// signature of it at another; what is at the marks is shown.
    fn out_of_a_knot(&mut self) -> Rule {
        let mut tied = self.sketch.goods.clone();
        tied.retain(|good| repeated_plain(good).is_some());
        if tied.is_empty() {
            return self.out_of_a_hash_pattern();
        }
        let good = self.random.pick(&tied).clone();
        let (shown, y) = (
            Term::Plain(self.variables[0]),
            Term::Plain(self.variables[1]),
        );
        let mut knot = vec![y.clone(), self.either_around(y)];
        self.random.shuffle(&mut knot);
        let tied = repeated_plain(&good);
        let premise = self.knotted(&good, tied.as_ref(), &mut knot, &shown);
        (Some(premise), shown)
    }

    fn knotted(
        &mut self,
        good: &Term,
        tied: Option<&Term>,
        knot: &mut Vec<Term>,
        shown: &Term,
    ) -> Term {
        match good {
            variable if Some(variable) == tied => match knot.pop() {
                Some(end) => end,
                None => self.harmless_atom(),
            },
            mark if mark.is_mark() => shown.clone(),
            other if other.is_variable() => self.harmless_atom(),
            part => part.with_parts(|part| self.knotted(part, tied, knot, shown)),
        }
    }

    /// A good pattern with a secret or a variable at its marks, and elsewhere
    /// what the premise shows.
    fn in_a_hash_pattern(&mut self) -> Rule {
        let good = self.some_hash_pattern(&self.sketch.goods.clone());
        let kept = match self.random.chance(30) {
            true => self.message_of_a_secret(),
            false => self.to_be_kept(),
        };
        let mut sent = self.hash_filled(&good, &kept);
        if self.random.chance(45) {
            sent = self.turned(&sent);
        }
        let premise = match self.random.weighted(&[65, 35]) {
            0 => Some(Term::Plain(self.variables[1])),
            _ => None,
        };
        (premise, sent)
    }

    /// Nearly a bad pattern with a mark below a hash: a variable or a secret
    /// stands at, above or beside the hash.
    fn near_a_hidden_mark(&mut self) -> Rule {
        let mut bads = self.sketch.bads.clone();
        bads.retain(hides_a_mark);
        let bad = self.random.pick(&bads).clone();
        let all = subterms(&bad);
        let hides = |entry: &usize| hides_a_mark(all[*entry].subterm);
        let above: Vec<usize> = (1..all.len()).filter(hides).collect();
        let kept = self.to_be_kept();
        let entry = match above.as_slice() {
            above if !above.is_empty() && self.random.chance(65) => *self.random.pick(above),
            _ => self.random.between(1, all.len() - 1),
        };
        let near = self.filled_around(&bad, entry, &kept);
        if self.random.chance(60) {
            let shown = self.random.chance(35).then(|| self.variable());
            return (shown, near);
        }
        let sent = match self.random.chance(50) {
            true => kept,
            false => Term::hash(self.harmless_atom()),
        };
        (Some(near), sent)
    }

    /// What shares an instance with a secret that is or holds one of the two.
    fn near_a_hash_secret(&mut self) -> Rule {
        let mut secrets = self.sketch.secrets.clone();
        secrets.retain(has_either);
        if secrets.is_empty() {
            return self.behind_a_hash();
        }
        let secret = self.random.pick(&secrets).clone();
        let near = match self.random.chance(75) {
            true => self.nearly(&secret),
            false => secret,
        };
        let shown = variables_of(&near).pop();
        let premise = match self.random.weighted(&[30, 25, 15, 15, 15]) {
            0 => shown,
            1 => Some(near.clone()),
            2 => Some(Term::pair(near.clone(), self.harmless_atom())),
            3 => Some(self.signed(near.clone())),
            _ => None,
        };
        let sent = match self.random.weighted(&[45, 20, 20, 15]) {
            0 => near,
            1 => self.in_a_good(&near),
            2 => self.signed(near),
            _ => Term::encryption(near, self.clear_key()),
        };
        (premise, sent)
    }

    /// Either around a part of the rule, or much of one around all of it.
    pub(super) fn change_hashes(&mut self, (premise, conclusion): &mut Rule) {
        if self.random.chance(8) {
            *conclusion = self.with_one_around(conclusion);
        }
        if let Some(premise) = premise.as_mut().filter(|_| self.random.chance(8)) {
            *premise = self.with_one_around(premise);
        }
        if self.random.chance(2) {
            *conclusion = self.either_many_times(conclusion);
        }
        if let Some(premise) = premise.as_mut().filter(|_| self.random.chance(2)) {
            *premise = self.either_many_times(premise);
        }
    }

    /// Below many signatures, at times with hashes among them, up to the last
    /// entry.
    fn either_many_times(&mut self, term: &Term) -> Term {
        let hashes = *self.random.pick(&[0, 0, 2]);
        let mut deep = term.clone();
        while deep.size() < MOST_ENTRIES {
            deep = match self.random.chance(hashes) {
                true => Term::hash(deep),
                false => self.signed(deep),
            };
        }
        deep
    }
}
