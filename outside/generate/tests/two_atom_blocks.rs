//! How many generated files have two atom blocks, and what is in these.

mod common;

use common::answer;
use literal::block::{check_of, entry, first_count, kind, stored_check, Entry};
use literal::numbers::{atom_kind, tag, BLOCK, ENTRIES, MOST_ATOMS};
use literal::read::{read, Certificate};
use literal::{Refusal, Term, Verdict};

const FILES: u64 = 100_000;

/// Block i, if the file has it whole.
fn block(file: &[u8], i: usize) -> Option<&[u8]> {
    file.get(BLOCK * i..BLOCK * i + BLOCK)
}

fn holds_atoms(file: &[u8], i: usize) -> bool {
    block(file, i).is_some_and(|block| kind(block) == 1)
}

/// Files with two atom blocks, and how many of them show it.
#[derive(Default, Debug)]
struct Uses {
    all: u64,
    /// Atoms up to the last number that there can be.
    most_atoms: u64,
    accepted: u64,
    uncovered: u64,
    /// An atom or a key of the second block in a rule, in a secret.
    in_a_rule: u64,
    in_a_secret: u64,
    /// A good pattern under a key of the second block; a symmetric one; one
    /// whose inverse is in the other block.
    root_key: u64,
    symmetric_root_key: u64,
    inverse_across: u64,
    /// An accepted rule that needs one of these patterns.
    hat_needed: u64,
    /// An atom of a rule and one of a secret so far behind it.
    apart_126: u64,
    apart_128: u64,
}

/// The atoms and keys of a term.
fn numbers(term: &Term, found: &mut Vec<u16>) {
    match term {
        Term::Atom(number) => found.push(*number),
        Term::Pair(left, right) => {
            numbers(left, found);
            numbers(right, found);
        }
        Term::Encryption(message, key) => {
            found.push(*key);
            numbers(message, found);
        }
        _ => {}
    }
}

fn numbers_of<'a>(terms: impl Iterator<Item = &'a Term>) -> Vec<u16> {
    let mut found = Vec::new();
    terms.for_each(|term| numbers(term, &mut found));
    found
}

fn is_of_second(number: &u16) -> bool {
    *number as usize >= ENTRIES
}

impl Uses {
    fn add(&mut self, certificate: &Certificate, accepted: bool) {
        let rules = certificate.rules.iter();
        let in_rules = numbers_of(rules.flat_map(|rule| {
            let conclusion = std::iter::once(&rule.conclusion);
            rule.premise.iter().chain(conclusion)
        }));
        let in_secrets = numbers_of(certificate.secrets.iter().map(|secret| &secret.term));
        self.most_atoms += u64::from(certificate.atoms.len() == MOST_ATOMS);
        self.in_a_rule += u64::from(in_rules.iter().any(is_of_second));
        self.in_a_secret += u64::from(in_secrets.iter().any(is_of_second));
        let apart = |by: u16| {
            let other = |number: &u16| in_secrets.contains(&(*number + by));
            in_rules.iter().any(other)
        };
        self.apart_126 += u64::from(apart(126));
        self.apart_128 += u64::from(apart(128));
        self.add_goods(certificate, accepted);
    }

    fn add_goods(&mut self, certificate: &Certificate, accepted: bool) {
        let root_key = |term: &Term| match term {
            Term::Encryption(_, key) => *key,
            _ => unreachable!("a pattern's root is an encryption"),
        };
        let goods = certificate.goods.iter();
        let mut keys: Vec<u16> = goods.map(|good| root_key(&good.term)).collect();
        let inverse = |key: &u16| certificate.atoms[*key as usize].partner;
        let across = |key: &u16| is_of_second(key) != is_of_second(&inverse(key));
        self.inverse_across += u64::from(keys.iter().any(across));
        keys.retain(is_of_second);
        self.root_key += u64::from(!keys.is_empty());
        self.symmetric_root_key += u64::from(keys.iter().any(|key| inverse(key) == *key));
        let mut fewer = certificate.clone();
        let is_kept = |term: &Term| !is_of_second(&root_key(term));
        fewer.goods.retain(|good| is_kept(&good.term));
        self.hat_needed += u64::from(accepted && answer(&fewer).is_some());
    }
}

#[test]
fn files_use_both_blocks() {
    let mut uses = Uses::default();
    for seed in 0..FILES {
        let file = generate::file(seed);
        if !holds_atoms(&file, 0) || !holds_atoms(&file, 1) {
            continue;
        }
        uses.all += 1;
        let verdict = literal::verdict(&file);
        let accepted = matches!(verdict, Verdict::Accepted(_));
        uses.accepted += u64::from(accepted);
        uses.uncovered += u64::from(matches!(verdict, Verdict::Refused(r) if r.number == 12));
        if let Ok(certificate) = read(&file) {
            uses.add(&certificate, accepted);
        }
    }
    println!("of {FILES} files: {uses:?}");
    let share = |count: u64, of: u64, percent: u64| count * 100 > of * percent;
    assert!(
        share(uses.all, FILES, 12) && !share(uses.all, FILES, 20),
        "all"
    );
    assert!(share(uses.accepted, uses.all, 25), "accepted");
    assert!(share(uses.uncovered, uses.all, 25), "uncovered");
    assert!(share(uses.most_atoms, uses.all, 20), "most atoms");
    assert!(share(uses.in_a_rule, uses.all, 60), "in a rule");
    assert!(share(uses.in_a_secret, uses.all, 50), "in a secret");
    assert!(share(uses.root_key, uses.all, 30), "root key");
    assert!(share(uses.symmetric_root_key, uses.all, 10), "symmetric");
    assert!(share(uses.inverse_across, uses.all, 10), "across");
    assert!(share(uses.hat_needed, uses.accepted, 10), "hat needed");
    assert!(share(uses.apart_126, uses.all, 5), "126 apart");
    assert!(share(uses.apart_128, uses.all, 5), "128 apart");
}

/// Files refused for what only two atom blocks bring.
#[derive(Default, Debug)]
struct Faults {
    /// 2 or 5 at block 1, and a wrong entry in block 0.
    check_before_entry: u64,
    layout_before_entry: u64,
    /// 5 at block 1 behind 125 atoms.
    not_full: u64,
    /// 3 at a third atom block.
    third: u64,
    /// 6 at block 1; at block 0; both before a wrong check of block 2.
    entry_of_second: u64,
    entry_of_first: u64,
    entry_before_check: u64,
    /// 6 at a key that numbers its partner, or itself, within the second block.
    partner_within: u64,
    itself_within: u64,
    /// 7 at the number after the last atom's, at 252.
    next_number: u64,
    number_252: u64,
    /// 4 with two atom blocks alone.
    alone: u64,
}

/// A kind or a known byte that no entry has.
fn is_wrong(atom: Entry) -> bool {
    !(1..=5).contains(&atom.first) || atom.second > 1
}

fn check_is_wrong(file: &[u8], i: usize) -> bool {
    block(file, i).is_some_and(|block| check_of(block) != stored_check(block))
}

/// Whether the file has an atom of this number that names that one.
fn names(file: &[u8], number: usize, named: usize) -> bool {
    let place = block(file, number / ENTRIES);
    place.is_some_and(|block| entry(block, number % ENTRIES).value as usize == named)
}

impl Faults {
    fn add(&mut self, file: &[u8], refusal: Refusal) {
        let [first, second] = [0, 1].map(|i| block(file, i).expect("two blocks"));
        let wrong_before = (0..first_count(first)).any(|i| is_wrong(entry(first, i)));
        let add = |count: &mut u64, yes: bool| *count += u64::from(yes);
        match (refusal.number, refusal.block) {
            (2, 1) => add(&mut self.check_before_entry, wrong_before),
            (3, 2) => add(&mut self.third, holds_atoms(file, 2)),
            (4, 2) => self.alone += 1,
            (5, 1) => {
                add(&mut self.layout_before_entry, wrong_before);
                add(&mut self.not_full, first_count(first) == ENTRIES - 1);
            }
            (6, at) => {
                add(&mut self.entry_of_first, at == 0);
                add(&mut self.entry_of_second, at == 1);
                add(&mut self.entry_before_check, check_is_wrong(file, 2));
                self.add_key(file, at as usize, refusal.place as usize);
            }
            (7, at) => {
                let value = value_at(file, at, refusal.place);
                add(
                    &mut self.next_number,
                    value == Some(ENTRIES + first_count(second)),
                );
                add(&mut self.number_252, value == Some(MOST_ATOMS));
            }
            _ => {}
        }
    }

    /// A key that would be right if its partner counted from 0.
    fn add_key(&mut self, file: &[u8], at: usize, place: usize) {
        let atom = entry(block(file, at).expect("a block"), place);
        let (number, partner) = (ENTRIES * at + place, atom.value as usize);
        if atom.first == atom_kind::SYMMETRIC && partner == place {
            self.itself_within += 1;
        }
        let is_one_of_two = [atom_kind::PUBLIC, atom_kind::PRIVATE].contains(&atom.first);
        if is_one_of_two && partner < ENTRIES && names(file, partner + ENTRIES, number) {
            self.partner_within += 1;
        }
    }
}

/// The value of an atom's or a key's entry.
fn value_at(file: &[u8], at: u8, place: u8) -> Option<usize> {
    let entry = entry(block(file, at as usize)?, place as usize);
    let has_number = [tag::ATOM, tag::ENCRYPTION].contains(&entry.first);
    has_number.then_some(entry.value as usize)
}

#[test]
fn faults_of_both_blocks() {
    let mut faults = Faults::default();
    for seed in 0..FILES {
        let file = generate::file(seed);
        let two = holds_atoms(&file, 0) && holds_atoms(&file, 1);
        match literal::verdict(&file) {
            Verdict::Refused(refusal) if two && refusal.number > 1 => faults.add(&file, refusal),
            _ => {}
        }
    }
    println!("of {FILES} files: {faults:?}");
    for (name, count) in [
        ("2 before 6", faults.check_before_entry),
        ("5 before 6", faults.layout_before_entry),
        ("not full", faults.not_full),
        ("third", faults.third),
        ("6 of the second", faults.entry_of_second),
        ("6 of the first", faults.entry_of_first),
        ("6 before 2", faults.entry_before_check),
        ("partner within", faults.partner_within),
        ("itself within", faults.itself_within),
        ("next number", faults.next_number),
        ("number 252", faults.number_252),
        ("alone", faults.alone),
    ] {
        assert!(count * 2_000 > FILES, "{name}: {count}");
    }
}
