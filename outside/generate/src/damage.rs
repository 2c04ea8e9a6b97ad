//! Files damaged on purpose, for the numbers 1 to 11.

use crate::certificate;
use crate::joined;
use crate::random::Random;
use crate::sketch::Sketch;
use literal::block::{check_of, entry_at};
use literal::numbers::{atom_kind, kind, tag, BLOCK, CHECKED, ENTRIES, HEADER, MODULUS};
use literal::numbers::{MOST_ATOMS, MOST_ATOM_BLOCKS, MOST_BYTES, MOST_ENTRIES, VARIABLES};
use literal::read::Atom;
use literal::{encode, Term};

/// A certificate with one fault, at times two.
pub fn damaged_file(random: &mut Random) -> Vec<u8> {
    let mut sketch = certificate::sketch(random);
    if sketch.atoms.len() > ENTRIES && random.chance(70) {
        return joined::damaged(random, sketch.blocks()).concat();
    }
    let number = random.between(1, 11);
    damage_sketch(random, &mut sketch, number);
    if random.chance(15) {
        let second = *random.pick(&[9, 9, 10, 10, 11, 4]);
        damage_sketch(random, &mut sketch, second);
    }
    let mut blocks = sketch.blocks();
    damage_blocks(random, &mut blocks, number);
    if random.chance(20) {
        let second = random.between(2, 8);
        damage_blocks(random, &mut blocks, second);
    }
    if random.chance(5) {
        poke(random, &mut blocks);
    }
    let file = blocks.concat();
    if number == 1 {
        return wrong_length(random, file);
    }
    file
}

// Faults in what the certificate says: 4, 9, 10, 11.

fn damage_sketch(random: &mut Random, sketch: &mut Sketch, number: usize) {
    match number {
        4 => empty_a_list(random, sketch),
        9 => {
            let secret = atom_with(random, sketch, true);
            insert(random, &mut sketch.secrets, secret);
        }
        10 => {
            let secret = not_closed(random, sketch);
            insert(random, &mut sketch.secrets, secret);
        }
        11 => {
            let good = not_kept(random, sketch);
            insert(random, &mut sketch.goods, good);
        }
        _ => {}
    }
    if number >= 9 && !sketch.secrets.is_empty() && random.chance(15) {
        add_open_secret(random, sketch);
    }
}

/// A rule that 15 would refuse, behind the other fault.
fn add_open_secret(random: &mut Random, sketch: &mut Sketch) {
    let secret = random.pick(&sketch.secrets).clone();
    let rule = (Some(Term::pair(Term::Plain(0), secret)), Term::Plain(0));
    sketch.rules.push(rule);
}

fn empty_a_list(random: &mut Random, sketch: &mut Sketch) {
    match random.below(3) {
        0 => sketch.secrets.clear(),
        1 => sketch.rules.clear(),
        _ => {
            sketch.secrets.clear();
            sketch.rules.clear();
        }
    }
}

fn insert(random: &mut Random, list: &mut Vec<Term>, term: Term) {
    let at = random.below(list.len() + 1);
    list.insert(at, term);
}

fn atom_with(random: &mut Random, sketch: &Sketch, known: bool) -> Term {
    let possible: Vec<u16> = (0..sketch.atoms.len() as u16)
        .filter(|i| (sketch.atoms[*i as usize].known == 1) == known)
        .collect();
    Term::Atom(*random.pick(&possible))
}

/// A compound of atoms, nothing that closes it meant to be listed.
fn not_closed(random: &mut Random, sketch: &Sketch) -> Term {
    let left = atom_with(random, sketch, true);
    let right = atom_with(random, sketch, true);
    match random.weighted(&[40, 30, 10, 10, 10]) {
        0 => Term::pair(left, right),
        1 => Term::encryption(left, any_key(random, sketch)),
        2 => Term::hash(left),
        3 => Term::signature(left, key_with(random, sketch, Atom::is_private_key)),
        _ => {
            let secret = atom_with(random, sketch, false);
            Term::hash(Term::pair(secret, left))
        }
    }
}

/// A pattern under any key: mostly its inverse is not listed.
fn not_kept(random: &mut Random, sketch: &Sketch) -> Term {
    let body = Term::pair(Term::Plain(1), Term::Marked(1));
    Term::encryption(body, any_key(random, sketch))
}

fn any_key(random: &mut Random, sketch: &Sketch) -> u16 {
    key_with(random, sketch, Atom::is_key)
}

fn key_with(random: &mut Random, sketch: &Sketch, wanted: fn(&Atom) -> bool) -> u16 {
    let keys: Vec<u16> = (0..sketch.atoms.len() as u16)
        .filter(|i| wanted(&sketch.atoms[*i as usize]))
        .collect();
    *random.pick(&keys)
}

// Faults in the blocks: 2, 3, 5, 6, 7, 8.

fn damage_blocks(random: &mut Random, blocks: &mut Vec<Vec<u8>>, number: usize) {
    match number {
        2 => wrong_check(random, blocks),
        3 => wrong_kind(random, blocks),
        5 => wrong_layout(random, blocks),
        6 => {
            let at = random.below(atom_blocks(blocks));
            wrong_atom(random, blocks, at)
        }
        7 => wrong_entry(random, blocks),
        8 => wrong_shape(random, blocks),
        _ => {}
    }
}

pub(crate) fn seal(block: &mut [u8]) {
    literal::seal(block).expect("a block has 512 bytes");
}

fn between(random: &mut Random, first: u8, last: u8) -> u8 {
    random.between(first as usize, last as usize) as u8
}

/// How many of the first blocks hold atoms, at least one and at most two.
fn atom_blocks(blocks: &[Vec<u8>]) -> usize {
    let leading = blocks.iter().take_while(|block| block[0] == kind::ATOMS);
    leading.count().clamp(1, MOST_ATOM_BLOCKS)
}

/// How many atoms these blocks list.
pub(crate) fn atoms_listed(blocks: &[Vec<u8>]) -> usize {
    let lists = blocks[..atom_blocks(blocks)].iter();
    lists.map(|block| block[1] as usize).sum()
}

pub(crate) fn set_value(block: &mut [u8], entry: usize, value: u16) {
    block[entry_at(entry) + 2..entry_at(entry + 1)].copy_from_slice(&value.to_le_bytes());
}

/// How many entries the block uses.
fn used(block: &[u8]) -> usize {
    block[1] as usize + block[2] as usize
}

/// The bytes of the header and of the entries that the block uses.
fn used_bytes(block: &[u8]) -> usize {
    entry_at(used(block)).min(CHECKED)
}

fn wrong_length(random: &mut Random, file: Vec<u8>) -> Vec<u8> {
    let mut file = file;
    match random.below(5) {
        0 => file.clear(),
        1 => file.truncate(random.below(file.len())),
        2 => {
            let more = random.between(1, BLOCK - 1);
            file.extend((0..more).map(|_| 0));
        }
        3 => {
            let last = file[file.len() - BLOCK..].to_vec();
            while file.len() <= MOST_BYTES {
                file.extend(&last);
            }
        }
        _ => file.truncate(*random.pick(&[1, BLOCK - 1, BLOCK, BLOCK + 1])),
    }
    file
}

/// Damage after sealing.
pub(crate) fn wrong_check(random: &mut Random, blocks: &mut [Vec<u8>]) {
    let at = random.below(blocks.len());
    let block = &mut blocks[at];
    match random.below(6) {
        0 => block[CHECKED + random.below(4)] ^= 1 << random.below(8),
        1 => block[random.below(CHECKED)] ^= 1 << random.below(8),
        2 => {
            let end = used_bytes(block);
            block[random.below(end)] = random.byte();
        }
        3 => {
            let end = used_bytes(block);
            block.swap(random.below(end), random.below(end));
        }
        4 => block[CHECKED..].fill(0),
        _ => not_reduced(random, block),
    }
}

/// A block whose A is below 15, stored with 65,521 added.
fn not_reduced(random: &mut Random, block: &mut [u8]) {
    block[HEADER..CHECKED].fill(0);
    let header: usize = block[..HEADER].iter().map(|b| *b as usize).sum();
    let mut left = MODULUS as usize + random.below(15) - header;
    for byte in &mut block[HEADER..CHECKED] {
        *byte = left.min(255) as u8;
        left -= *byte as usize;
    }
    let start = HEADER + random.below(200);
    random.shuffle(&mut block[start..CHECKED]);
    seal(block);
    let stored = check_of(block).0 + MODULUS;
    if random.chance(80) {
        block[CHECKED..CHECKED + 2].copy_from_slice(&stored.to_le_bytes());
    }
}

fn wrong_kind(random: &mut Random, blocks: &mut Vec<Vec<u8>>) {
    let at = random.below(blocks.len());
    let other = random.below(blocks.len());
    match random.below(6) {
        0 => blocks[at][0] = *random.pick(&[0, 6, 7, 255]),
        1 => blocks[at][0] = between(random, kind::ATOMS, kind::RULE),
        2 => blocks.swap(at, other),
        3 => blocks.insert(at, blocks[0].clone()),
        4 => {
            blocks.remove(0);
        }
        _ => blocks[at][0] = random.byte(),
    }
    blocks.iter_mut().for_each(|block| seal(block));
}

pub(crate) fn wrong_layout(random: &mut Random, blocks: &mut [Vec<u8>]) {
    let at = random.below(blocks.len());
    let block = &mut blocks[at];
    match random.below(7) {
        0 => block[1] = 0,
        1 => block[1] = *random.pick(&[63, 64, 126, 127, 128, 255]),
        2 => block[2] = *random.pick(&[0, 1, 63, 64, 127, 255]),
        3 => block[3] = random.byte(),
        4 => {
            let unused = entry_at(used(block));
            if unused < CHECKED {
                block[unused + random.below(CHECKED - unused)] = 1 << random.below(8);
            }
        }
        5 => block[CHECKED - 1] = 1,
        _ => block[1] = block[1].wrapping_sub(1),
    }
    seal(block);
}

/// In this one of the atom blocks.
pub(crate) fn wrong_atom(random: &mut Random, blocks: &mut [Vec<u8>], number: usize) {
    let listed = atoms_listed(blocks);
    let block = &mut blocks[number];
    let entry = random.below((block[1] as usize).clamp(1, ENTRIES));
    let at = entry_at(entry);
    match random.below(6) {
        0 => block[at] = *random.pick(&[0, 6, 255]),
        1 => block[at] = between(random, atom_kind::PRINCIPAL, atom_kind::SYMMETRIC),
        2 => block[at + 1] = *random.pick(&[2, 3, 255]),
        3 => set_value(block, entry, random.below(listed + 2) as u16),
        4 => set_value(
            block,
            entry,
            *random.pick(&[MOST_ATOMS as u16, 255, 256, 1000, 65_535]),
        ),
        _ => block[at + 3] = random.byte(),
    }
    seal(block);
}

fn holds_terms(block: &[u8]) -> bool {
    (kind::SECRET..=kind::RULE).contains(&block[0])
}

/// One of the blocks that hold terms, with one of its entries.
pub(crate) fn some_entry(random: &mut Random, blocks: &[Vec<u8>]) -> Option<(usize, usize)> {
    let terms: Vec<usize> = (0..blocks.len())
        .filter(|i| holds_terms(&blocks[*i]) && (1..=ENTRIES).contains(&used(&blocks[*i])))
        .collect();
    if terms.is_empty() {
        return None;
    }
    let block = *random.pick(&terms);
    Some((block, random.below(used(&blocks[block]))))
}

fn wrong_entry(random: &mut Random, blocks: &mut [Vec<u8>]) {
    match random.weighted(&[50, 25, 25]) {
        0 => {}
        1 => return misplaced_nonce_variable(random, blocks),
        _ => return wrong_hash(random, blocks),
    }
    let Some((number, entry)) = some_entry(random, blocks) else {
        return;
    };
    let atoms = atoms_listed(blocks);
    spoil_entry(random, &mut blocks[number], entry, atoms);
    seal(&mut blocks[number]);
}

/// A variable's number, or the first that is none.
fn some_variable(random: &mut Random) -> u16 {
    random.below(VARIABLES as usize + 1) as u16
}

fn spoil_entry(random: &mut Random, block: &mut [u8], entry: usize, atoms: usize) {
    let at = entry_at(entry);
    match random.weighted(&[2, 2, 2, 2, 2, 2, 5, 5, 2]) {
        0 => block[at] = *random.pick(&[0, 6, 7, 8, 9, 10, 255]),
        1 => block[at + 1] = *random.pick(&[1, 2, 255]),
        2 => set_value(
            block,
            entry,
            *random.pick(&[
                VARIABLES as u16,
                ENTRIES as u16,
                MOST_ATOMS as u16,
                255,
                256,
                65_535,
            ]),
        ),
        3 => set_value(block, entry, atoms as u16),
        4 => set_entry(block, entry, tag::PLAIN, some_variable(random)),
        5 => set_entry(block, entry, tag::MARKED, some_variable(random)),
        6 => other_value(random, block, tag::ENCRYPTION, atoms),
        7 => mark_a_variable(random, block),
        _ => block[at + 3] = 1,
    }
}

/// The entries of the block with this tag.
fn entries_with(block: &[u8], tag: u8) -> Vec<usize> {
    let all = 0..used(block).min(ENTRIES);
    all.filter(|entry| block[entry_at(*entry)] == tag).collect()
}

/// Any atom's number in an entry with this tag.
fn other_value(random: &mut Random, block: &mut [u8], tag: u8, atoms: usize) {
    let possible = entries_with(block, tag);
    if !possible.is_empty() {
        let entry = *random.pick(&possible);
        set_value(block, entry, random.below(atoms.max(1)) as u16);
    }
}

fn mark_a_variable(random: &mut Random, block: &mut [u8]) {
    let plain = entries_with(block, tag::PLAIN);
    let nonces = entries_with(block, tag::PLAIN_NONCE);
    let possible = [plain, nonces].concat();
    if !possible.is_empty() {
        let tag = &mut block[entry_at(*random.pick(&possible))];
        *tag = if *tag == tag::PLAIN {
            tag::MARKED
        } else {
            tag::MARKED_NONCE
        };
    }
}

/// For a leaf: a nonce variable in a secret, a marked one in a rule, or one with
/// a number that is too large by little.
fn misplaced_nonce_variable(random: &mut Random, blocks: &mut [Vec<u8>]) {
    let leaves = |block: &[u8]| {
        let tags = [tag::ATOM]
            .into_iter()
            .chain(tag::PLAIN..=tag::MARKED_NONCE);
        tags.flat_map(|tag| entries_with(block, tag))
            .collect::<Vec<_>>()
    };
    let with_leaves: Vec<usize> = (0..blocks.len())
        .filter(|i| holds_terms(&blocks[*i]) && !leaves(&blocks[*i]).is_empty())
        .collect();
    if with_leaves.is_empty() {
        return;
    }
    let block = &mut blocks[*random.pick(&with_leaves)];
    let entry = *random.pick(&leaves(block));
    let either = *random.pick(&[tag::PLAIN_NONCE, tag::MARKED_NONCE]);
    let number = random.below(VARIABLES as usize) as u16;
    match block[0] {
        kind::SECRET => set_entry(block, entry, either, number),
        kind::RULE if random.chance(50) => set_entry(block, entry, tag::MARKED_NONCE, number),
        _ => set_entry(block, entry, either, VARIABLES as u16 + number),
    }
    seal(block);
}

/// A hash or a signature with a wrong value or second byte, made of any entry
/// with one child.
fn wrong_hash(random: &mut Random, blocks: &mut [Vec<u8>]) {
    let atoms = atoms_listed(blocks).max(1);
    let with_one_child = |block: &[u8]| {
        let tags = [tag::ENCRYPTION, tag::HASH, tag::SIGNATURE];
        tags.map(|tag| entries_with(block, tag)).concat()
    };
    let possible: Vec<usize> = (0..blocks.len())
        .filter(|i| holds_terms(&blocks[*i]) && !with_one_child(&blocks[*i]).is_empty())
        .collect();
    if possible.is_empty() {
        return;
    }
    let block = &mut blocks[*random.pick(&possible)];
    let entry = *random.pick(&with_one_child(block));
    let number = random.below(atoms) as u16;
    match random.weighted(&[20, 40, 15, 10, 15]) {
        0 => block[entry_at(entry)] = tag::SIGNATURE,
        1 => set_entry(block, entry, tag::SIGNATURE, number),
        2 => set_entry(block, entry, tag::HASH, number),
        3 => set_entry(block, entry, tag::HASH, *random.pick(&[1, 256, 65_535])),
        _ => {
            let either = *random.pick(&[tag::HASH, tag::SIGNATURE]);
            block[entry_at(entry)..entry_at(entry) + 2].copy_from_slice(&[either, 1]);
        }
    }
    seal(block);
}

fn set_entry(block: &mut [u8], entry: usize, tag: u8, value: u16) {
    block[entry_at(entry)] = tag;
    set_value(block, entry, value);
}

fn wrong_shape(random: &mut Random, blocks: &mut [Vec<u8>]) {
    match random.weighted(&[65, 20, 15]) {
        0 => {}
        1 => return both_terms(random, blocks),
        _ => return other_root(random, blocks),
    }
    let Some((number, entry)) = some_entry(random, blocks) else {
        return;
    };
    let block = &mut blocks[number];
    let many = used(block);
    match random.below(6) {
        0 => set_entry(block, entry, tag::PAIR, 0),
        1 => set_entry(block, entry, tag::ATOM, 0),
        2 => set_entry(block, 0, tag::ATOM, 0),
        3 => set_entry(block, 0, tag::PAIR, 0),
        4 if block[0] == kind::RULE => move_border(random, block),
        _ if many < MOST_ENTRIES => {
            let count = if block[0] == kind::RULE { 2 } else { 1 };
            block[count] += 1;
            block[entry_at(many)..entry_at(many + 1)].copy_from_slice(&encode(&Term::Atom(0)));
        }
        _ => set_entry(block, many - 1, tag::PAIR, 0),
    }
    seal(block);
}

/// A rule whose premise is no whole term, with a wrong entry in its conclusion.
fn both_terms(random: &mut Random, blocks: &mut [Vec<u8>]) {
    let atoms = atoms_listed(blocks);
    let rules = blocks.iter_mut().filter(|block| block[0] == kind::RULE);
    let mut with_premise: Vec<&mut Vec<u8>> = rules
        .filter(|block| block[1] > 0 && block[2] > 0 && used(block) <= ENTRIES)
        .collect();
    if with_premise.is_empty() {
        return;
    }
    let at = random.below(with_premise.len());
    let block = &mut with_premise[at];
    let (premise, all) = (block[1] as usize, used(block));
    set_entry(block, random.below(premise), tag::PAIR, 0);
    let spoilt = random.between(premise, all - 1);
    spoil_entry(random, block, spoilt, atoms);
    seal(block);
}

/// A pattern that is a hash or a signature.
fn other_root(random: &mut Random, blocks: &mut [Vec<u8>]) {
    let lists = &blocks[..atom_blocks(blocks)];
    let kinds = lists.iter().flat_map(|list| {
        let used = (list[1] as usize).min(ENTRIES);
        (0..used).map(|i| list[entry_at(i)])
    });
    let keys: Vec<u16> = (0..)
        .zip(kinds)
        .filter(|(_, kind)| *kind == atom_kind::PRIVATE)
        .map(|(number, _)| number)
        .collect();
    let is_pattern = |block: &&mut Vec<u8>| [kind::GOOD, kind::BAD].contains(&block[0]);
    let mut patterns: Vec<&mut Vec<u8>> = blocks.iter_mut().filter(is_pattern).collect();
    if patterns.is_empty() || keys.is_empty() {
        return;
    }
    let at = random.below(patterns.len());
    let block = &mut patterns[at];
    match random.chance(40) {
        true => set_entry(block, 0, tag::HASH, 0),
        false => set_entry(block, 0, tag::SIGNATURE, *random.pick(&keys)),
    }
    seal(block);
}

/// The border between premise and conclusion moved.
fn move_border(random: &mut Random, block: &mut [u8]) {
    let many = used(block).min(MOST_ENTRIES);
    if used(block) == many {
        let premise = random.below(many);
        block[1] = premise as u8;
        block[2] = (many - premise) as u8;
    }
}

/// Any byte of any block, sealed again or not.
fn poke(random: &mut Random, blocks: &mut [Vec<u8>]) {
    if blocks.is_empty() {
        return;
    }
    let at = random.below(blocks.len());
    let end = used_bytes(&blocks[at]);
    blocks[at][random.below(end)] = random.byte();
    if random.chance(80) {
        seal(&mut blocks[at]);
    }
}
