//! Faults that only files with two atom blocks have.

use crate::damage::{atoms_listed, seal, set_value, some_entry};
use crate::damage::{wrong_atom, wrong_check, wrong_layout};
use crate::random::Random;
use literal::block::{entry, entry_at};
use literal::numbers::{atom_kind, tag, ENTRIES, ENTRY, MOST_ATOMS};

/// These blocks, of which the first two hold atoms, with one fault or two.
pub fn damaged(random: &mut Random, mut blocks: Vec<Vec<u8>>) -> Vec<Vec<u8>> {
    let other = random.below(2);
    match random.weighted(&[2, 2, 1, 1, 1, 2, 1, 1, 1, 1, 1]) {
        0 => {
            wrong_atom(random, &mut blocks, 0);
            wrong_check(random, &mut blocks[1..2]);
        }
        1 => {
            wrong_atom(random, &mut blocks, 0);
            wrong_layout(random, &mut blocks[1..2]);
        }
        2 => wrong_atom(random, &mut blocks, 1),
        3 => {
            wrong_atom(random, &mut blocks, 1);
            wrong_atom(random, &mut blocks, other);
        }
        4 => {
            wrong_atom(random, &mut blocks, other);
            wrong_check(random, &mut blocks[2..3]);
        }
        5 => not_full(random, &mut blocks),
        6 => third(random, &mut blocks),
        7 => partner_in_its_block(random, &mut blocks),
        8 => names_its_place(random, &mut blocks[1]),
        9 => not_listed(random, &mut blocks),
        _ => blocks.truncate(2),
    }
    blocks
}

/// The first block's count one less; its last entry zeroed, or left as an
/// unused one.
fn not_full(random: &mut Random, blocks: &mut [Vec<u8>]) {
    let first = &mut blocks[0];
    first[1] -= 1;
    if random.chance(80) {
        first[entry_at(ENTRIES - 1)..entry_at(ENTRIES)].fill(0);
    }
    seal(first);
    match random.below(4) {
        0 => wrong_check(random, &mut blocks[1..2]),
        1 => wrong_atom(random, blocks, 0),
        _ => {}
    }
}

/// A copy of one of the two behind them, perhaps after a wrong entry.
fn third(random: &mut Random, blocks: &mut Vec<Vec<u8>>) {
    let (copied, wrong) = (random.below(2), random.below(2));
    blocks.insert(2, blocks[copied].clone());
    if random.chance(30) {
        wrong_atom(random, blocks, wrong);
    }
}

/// Block and entry of the atoms of these kinds.
fn atoms_of(blocks: &[Vec<u8>], kinds: &[u8]) -> Vec<(usize, usize)> {
    let all = blocks.iter().enumerate();
    let places = all.flat_map(|(number, block)| (0..block[1] as usize).map(move |i| (number, i)));
    places
        .filter(|(number, i)| kinds.contains(&entry(&blocks[*number], *i).first))
        .collect()
}

/// A key whose partner is in the second block numbers it from 0.
fn partner_in_its_block(random: &mut Random, blocks: &mut [Vec<u8>]) {
    let mut keys = atoms_of(&blocks[..2], &[atom_kind::PUBLIC, atom_kind::PRIVATE]);
    keys.retain(|(number, i)| entry(&blocks[*number], *i).value >= ENTRIES as u16);
    if keys.is_empty() {
        return;
    }
    let (number, i) = *random.pick(&keys);
    let partner = entry(&blocks[number], i).value;
    set_value(&mut blocks[number], i, partner - ENTRIES as u16);
    seal(&mut blocks[number]);
}

/// A symmetric key of the second block; another atom is made one if need be.
fn names_its_place(random: &mut Random, second: &mut Vec<u8>) {
    let keys = atoms_of(std::slice::from_ref(second), &[atom_kind::SYMMETRIC]);
    let i = match keys.is_empty() {
        true => random.below(second[1] as usize),
        false => random.pick(&keys).1,
    };
    second[entry_at(i)] = atom_kind::SYMMETRIC;
    set_value(second, i, i as u16);
    seal(second);
}

/// The first number that is no atom's, or one that no list has, in a term.
fn not_listed(random: &mut Random, blocks: &mut [Vec<u8>]) {
    let listed = atoms_listed(blocks);
    let Some((number, i)) = some_entry(random, blocks) else {
        return;
    };
    let block = &mut blocks[number];
    if ![tag::ENCRYPTION, tag::SIGNATURE].contains(&block[entry_at(i)]) {
        block[entry_at(i)..entry_at(i) + ENTRY].copy_from_slice(&[tag::ATOM, 0, 0, 0]);
    }
    set_value(block, i, *random.pick(&[listed, MOST_ATOMS]) as u16);
    seal(block);
}
