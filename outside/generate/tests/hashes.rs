//! How many generated files have hashes and signatures, and what rests on them.

mod common;
mod judged;

use common::{answer_by, Answer};
use judged::judged;
use literal::hats::{closings, first_secret, has_sure_hat, is_risky, stands_at, sure_hats};
use literal::hats::{Closing, SureHat};
use literal::read::{read, Certificate, Listed, Rule};
use literal::term::{places, strictly_above, subterms, Path, Place};
use literal::{Refusal, Term, Verdict};

const FILES: u64 = 100_000;

fn has(term: &Term, wanted: fn(&Term) -> bool) -> bool {
    subterms(term).iter().any(|s| wanted(s.subterm))
}

fn is_either(term: &Term) -> bool {
    term.is_hash() || term.is_signature()
}

/// Whether such a subterm stands strictly above the path.
fn is_below(term: &Term, path: &Path, wanted: fn(&Term) -> bool) -> bool {
    let mut all = subterms(term).into_iter();
    all.any(|s| wanted(s.subterm) && strictly_above(&s.path, path))
}

fn terms(list: &[Listed]) -> impl Iterator<Item = &Term> {
    list.iter().map(|listed| &listed.term)
}

fn rule_terms(rules: &[Rule]) -> impl Iterator<Item = &Term> {
    rules
        .iter()
        .flat_map(|rule| rule.premise.iter().chain([&rule.conclusion]))
}

fn all_terms(certificate: &Certificate) -> impl Iterator<Item = &Term> {
    let patterns = terms(&certificate.goods).chain(terms(&certificate.bads));
    let listed = terms(&certificate.secrets).chain(patterns);
    listed.chain(rule_terms(&certificate.rules))
}

/// Files whose rules are judged and that have a hash or a signature.
#[derive(Default, Debug)]
struct Uses {
    all: u64,
    hashes: u64,
    signatures: u64,
    in_secrets: u64,
    in_goods: u64,
    in_bads: u64,
    in_rules: u64,
    accepted: u64,
    uncovered: u64,
    open_secret: u64,
    /// A mark of a good or a bad pattern below a hash.
    hidden_mark: u64,
    /// A conclusion or a premise with a secret below a hash; with one below a
    /// signature.
    secret_below_hash: u64,
    secret_below_signature: u64,
    /// Refused behind a hash, so that the entry is no place's number.
    behind_a_hash: u64,
    /// Refused at, or below, a hash or a signature.
    at_either: u64,
    below_signature: u64,
}

impl Uses {
    fn add(&mut self, certificate: &Certificate, right: Option<Answer>) {
        let add = |count: &mut u64, yes: bool| *count += u64::from(yes);
        let number = right.map_or(0, |(number, ..)| number);
        let any = |wanted| all_terms(certificate).any(|term| has(term, wanted));
        let in_list = |list: &[Listed]| terms(list).any(|term| has(term, is_either));
        self.all += 1;
        add(&mut self.hashes, any(Term::is_hash));
        add(&mut self.signatures, any(Term::is_signature));
        add(&mut self.in_secrets, in_list(&certificate.secrets));
        add(&mut self.in_goods, in_list(&certificate.goods));
        add(&mut self.in_bads, in_list(&certificate.bads));
        let mut in_rules = rule_terms(&certificate.rules);
        add(
            &mut self.in_rules,
            in_rules.any(|term| has(term, is_either)),
        );
        add(&mut self.accepted, number == 0);
        add(&mut self.uncovered, number == 12);
        add(&mut self.open_secret, number == 15);
        let mut patterns = terms(&certificate.goods).chain(terms(&certificate.bads));
        add(&mut self.hidden_mark, patterns.any(hides_a_mark));
        self.add_secrets(certificate);
        if let Some((_, block, entry)) = right {
            self.add_refused(certificate, block, entry);
        }
    }

    fn add_secrets(&mut self, certificate: &Certificate) {
        let secret_below = |term: &Term, wanted| {
            let all = subterms(term).into_iter();
            let mut below = all.filter(|s| is_below(term, &s.path, wanted));
            below.any(|s| terms(&certificate.secrets).any(|secret| secret == s.subterm))
        };
        let in_rules = |wanted| rule_terms(&certificate.rules).any(|t| secret_below(t, wanted));
        self.secret_below_hash += u64::from(in_rules(Term::is_hash));
        self.secret_below_signature += u64::from(in_rules(Term::is_signature));
    }

    fn add_refused(&mut self, certificate: &Certificate, block: usize, entry: usize) {
        let mut rules = certificate.rules.iter();
        let rule = rules.find(|rule| rule.block == block).expect("a rule");
        let first = rule.premise_entries();
        let (term, within) = match &rule.premise {
            Some(premise) if entry < first => (premise, entry),
            _ => (&rule.conclusion, entry - first),
        };
        let found = &subterms(term)[within];
        let before = places(term).iter().filter(|p| p.entry < within).count();
        self.behind_a_hash += u64::from(before < within);
        self.at_either += u64::from(is_either(found.subterm));
        let is_below_one = is_below(term, &found.path, Term::is_signature);
        self.below_signature += u64::from(is_below_one);
    }

    fn are_frequent(&self) {
        let often = |count: u64, of: u64, percent: u64, name: &str| {
            assert!(count * 100 > of * percent, "{name}");
        };
        often(self.all, FILES, 18, "all");
        often(self.hashes, self.all, 80, "hashes");
        often(self.signatures, self.all, 80, "signatures");
        often(self.in_secrets, self.all, 50, "secrets");
        often(self.in_goods, self.all, 50, "goods");
        often(self.in_bads, self.all, 25, "bads");
        often(self.in_rules, self.all, 70, "rules");
        often(self.accepted, self.all, 25, "accepted");
        often(self.uncovered, self.all, 30, "uncovered");
        often(self.open_secret, self.all, 4, "open secret");
        often(self.hidden_mark, self.all, 25, "hidden mark");
        often(self.secret_below_hash, self.all, 25, "below a hash");
        often(self.secret_below_signature, self.all, 20, "signed");
        let refused = self.uncovered + self.open_secret;
        often(self.behind_a_hash, refused, 8, "behind a hash");
        often(self.at_either, refused, 5, "at either");
        often(self.below_signature, refused, 8, "below a signature");
    }
}

fn hides_a_mark(pattern: &Term) -> bool {
    let all = subterms(pattern);
    let mut marks = all.iter().filter(|s| s.subterm.is_mark());
    marks.any(|mark| is_below(pattern, &mark.path, Term::is_hash))
}

/// What the places of a term are.
type Places = fn(&Term) -> Vec<Place<'_>>;

/// Which subterms are places: those of conclusions that may be risky, those of
/// premises that cover, and those at which 15 looks.
#[derive(Clone, Copy)]
struct Reading {
    risky: Places,
    covering: Places,
    fifteen: Places,
}

const RIGHT: Reading = Reading {
    risky: places,
    covering: places,
    fifteen: places,
};

fn above(term: &Term, wanted: fn(&Term) -> bool) -> Vec<Place<'_>> {
    let mut all = places(term);
    all.retain(|place| !is_below(term, &place.path, wanted));
    all
}

fn above_signatures(term: &Term) -> Vec<Place<'_>> {
    above(term, Term::is_signature)
}

fn but(term: &Term, wanted: fn(&Term) -> bool) -> Vec<Place<'_>> {
    let mut all = places(term);
    all.retain(|place| !wanted(place.subterm));
    all
}

/// Only the message of a hash itself is left out.
fn all_but_messages_of_hashes(term: &Term) -> Vec<Place<'_>> {
    let messages: Vec<Path> = subterms(term)
        .into_iter()
        .filter(|s| s.subterm.is_hash())
        .map(|hash| [&hash.path[..], &[0]].concat())
        .collect();
    let mut all = subterms(term);
    all.retain(|s| !messages.contains(&s.path));
    all
}

impl Reading {
    fn open<'a>(closings: &[Closing], mut open: Vec<Place<'a>>) -> Vec<Place<'a>> {
        open.retain(|place| !closings.iter().any(|upper| upper.closes(place)));
        open
    }

    fn first_open_secret(&self, certificate: &Certificate, rule: &Rule) -> Option<usize> {
        let premise = rule.premise.as_ref()?;
        let open = Self::open(&closings(certificate, premise), (self.fifteen)(premise));
        first_secret(&open, &certificate.secrets)
    }

    fn first_uncovered(&self, certificate: &Certificate, rule: &Rule) -> Option<usize> {
        let premise = rule.premise.as_ref();
        let open = premise.map_or(Vec::new(), |premise| {
            Self::open(&closings(certificate, premise), (self.covering)(premise))
        });
        let hats: Vec<SureHat> = sure_hats(certificate, &rule.conclusion);
        let all = (self.risky)(&rule.conclusion);
        let mut risky = all.iter().filter(|place| is_risky(certificate, place));
        let found = risky.find(|p| !has_sure_hat(&hats, p) && !stands_at(&open, p.subterm))?;
        Some(rule.premise_entries() + found.entry)
    }

    fn answer(&self, certificate: &Certificate) -> Option<Answer> {
        answer_by(
            certificate,
            |rule| self.first_open_secret(certificate, rule),
            |rule| self.first_uncovered(certificate, rule),
        )
    }
}

/// A wrong reading of which subterms are places: its name, it, and of how many
/// of a thousand files with a hash or a signature it answers something else at
/// least.
type Named = (&'static str, Reading, u64);

const READINGS: [Named; 9] = [
    (
        "risky below a hash",
        Reading {
            risky: subterms,
            ..RIGHT
        },
        100,
    ),
    (
        "risky below a hash but for its message",
        Reading {
            risky: all_but_messages_of_hashes,
            ..RIGHT
        },
        80,
    ),
    (
        "covering below a hash",
        Reading {
            covering: subterms,
            ..RIGHT
        },
        30,
    ),
    (
        "15 below a hash",
        Reading {
            fifteen: subterms,
            ..RIGHT
        },
        60,
    ),
    (
        "a hash that is not risky",
        Reading {
            risky: |term| but(term, Term::is_hash),
            ..RIGHT
        },
        30,
    ),
    (
        "a hash that does not cover",
        Reading {
            covering: |term| but(term, Term::is_hash),
            ..RIGHT
        },
        5,
    ),
    (
        "not risky below a signature",
        Reading {
            risky: above_signatures,
            ..RIGHT
        },
        60,
    ),
    (
        "not covering below a signature",
        Reading {
            covering: above_signatures,
            ..RIGHT
        },
        40,
    ),
    (
        "no 15 below a signature",
        Reading {
            fifteen: above_signatures,
            ..RIGHT
        },
        5,
    ),
];

/// The certificate with all its terms changed.
fn changed(certificate: &Certificate, change: fn(&Term) -> Term) -> Certificate {
    let mut other = certificate.clone();
    let lists = [&mut other.secrets, &mut other.goods, &mut other.bads];
    for listed in lists.into_iter().flatten() {
        listed.term = change(&listed.term);
    }
    for rule in &mut other.rules {
        rule.premise = rule.premise.as_ref().map(change);
        rule.conclusion = change(&rule.conclusion);
    }
    other
}

/// Every signature with the same key.
fn one_signing_key(term: &Term) -> Term {
    match term {
        Term::Signature(message, _) => Term::signature(one_signing_key(message), 0),
        _ => term.with_parts(one_signing_key),
    }
}

/// Every signature as an encryption under its key, but for roots of bad patterns.
fn as_encryptions(term: &Term) -> Term {
    match term {
        Term::Signature(message, key) => Term::encryption(as_encryptions(message), *key),
        _ => term.with_parts(as_encryptions),
    }
}

/// Every hash as an encryption under a key that no atom is.
fn under_no_key(term: &Term) -> Term {
    match term {
        Term::Hash(message) => Term::encryption(under_no_key(message), u16::MAX),
        _ => term.with_parts(under_no_key),
    }
}

/// Every hash with the same message.
fn one_hash(term: &Term) -> Term {
    match term {
        Term::Hash(_) => Term::hash(Term::Atom(0)),
        _ => term.with_parts(one_hash),
    }
}

/// Every mark below a hash as a plain variable of a number of its own.
fn without_hidden_marks(term: &Term) -> Term {
    match term {
        Term::Hash(message) => Term::hash(without_marks(message)),
        _ => term.with_parts(without_hidden_marks),
    }
}

fn without_marks(term: &Term) -> Term {
    match term {
        Term::Marked(number) => Term::Plain(number + 100),
        Term::MarkedNonce(number) => Term::PlainNonce(number + 100),
        _ => term.with_parts(without_marks),
    }
}

/// Other terms in their place: its name, it, and of how many of a thousand files
/// with a hash or a signature the answer is another one at least.
type Change = (&'static str, fn(&Term) -> Term, u64);

const CHANGES: [Change; 5] = [
    ("signing keys not compared", one_signing_key, 10),
    ("signatures as encryptions", as_encryptions, 10),
    ("hashes as encryptions", under_no_key, 100),
    ("hashes not gone into", one_hash, 60),
    (
        "marks below hashes as plain variables",
        without_hidden_marks,
        5,
    ),
];

/// Files whose rules are not judged.
#[derive(Default, Debug)]
struct Others {
    /// Those that can be read and have a hash or a signature.
    with_either: u64,
    /// Refused with 10 for a hash, and for a signature.
    open_hash: u64,
    open_signature: u64,
}

impl Others {
    fn add(&mut self, file: &[u8]) {
        let Ok(certificate) = read(file) else {
            return;
        };
        self.with_either += u64::from(has_some(&certificate));
        if let Verdict::Refused(Refusal {
            number: 10, block, ..
        }) = literal::verdict(file)
        {
            let mut secrets = certificate.secrets.iter();
            let at = |secret: &&Listed| secret.block == block as usize;
            let secret = &secrets.find(at).expect("a secret").term;
            self.open_hash += u64::from(secret.is_hash());
            self.open_signature += u64::from(secret.is_signature());
        }
    }
}

fn has_some(certificate: &Certificate) -> bool {
    all_terms(certificate).any(|term| has(term, is_either))
}

/// How many files get another answer by each reading and each change.
#[derive(Default)]
struct Otherwise {
    by_reading: [u64; READINGS.len()],
    by_change: [u64; CHANGES.len()],
}

impl Otherwise {
    fn add(&mut self, certificate: &Certificate, right: Option<Answer>) {
        for (count, (_, reading, _)) in self.by_reading.iter_mut().zip(&READINGS) {
            *count += u64::from(reading.answer(certificate) != right);
        }
        for (count, (_, change, _)) in self.by_change.iter_mut().zip(CHANGES) {
            let other = changed(certificate, change);
            *count += u64::from(RIGHT.answer(&other) != right);
        }
    }

    fn are_frequent(&self, all: u64) {
        let readings = READINGS.iter().map(|(name, _, least)| (name, least));
        let changes = CHANGES.iter().map(|(name, _, least)| (name, least));
        let counts = self.by_reading.iter().chain(&self.by_change);
        for ((name, least), count) in readings.chain(changes).zip(counts) {
            println!("another answer by {name}: {count}");
            assert!(count * 1_000 > all * least, "{name}");
        }
    }
}

#[test]
fn files_rest_on_hashes_and_signatures() {
    let (mut uses, mut others) = (Uses::default(), Others::default());
    let mut otherwise = Otherwise::default();
    for seed in 0..FILES {
        match judged(seed) {
            None => others.add(&generate::file(seed)),
            Some((certificate, right)) if has_some(&certificate) => {
                assert_eq!(RIGHT.answer(&certificate), right);
                uses.add(&certificate, right);
                otherwise.add(&certificate, right);
            }
            _ => {}
        }
    }
    println!("of {FILES} files, rules judged: {uses:?}");
    println!("of {FILES} files, rules not judged: {others:?}");
    otherwise.are_frequent(uses.all);
    uses.are_frequent();
    assert!(others.with_either * 40 > FILES);
    assert!(others.open_hash * 250 > FILES && others.open_signature * 400 > FILES);
}
