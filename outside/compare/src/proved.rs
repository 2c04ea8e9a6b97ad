//! The archive's functions. Any bytes may be given.

use crate::{Answer, Question};

/// Atoms, and two terms over them: pointer and length of each.
type Function = unsafe extern "C" fn(*const u8, usize, *const u8, usize, *const u8, usize) -> u32;

extern "C" {
    fn zepayong_shares(
        atoms: *const u8,
        atoms_len: usize,
        s: *const u8,
        s_len: usize,
        t: *const u8,
        t_len: usize,
    ) -> u32;
    fn zepayong_matches(
        atoms: *const u8,
        atoms_len: usize,
        p: *const u8,
        p_len: usize,
        t: *const u8,
        t_len: usize,
    ) -> u32;
    fn zepayong_same(
        atoms: *const u8,
        atoms_len: usize,
        s: *const u8,
        s_len: usize,
        t: *const u8,
        t_len: usize,
    ) -> u32;
}

pub fn shares(atoms: &[u8], s: &[u8], t: &[u8]) -> Answer {
    call(zepayong_shares, atoms, s, t)
}

pub fn matches(atoms: &[u8], pattern: &[u8], term: &[u8]) -> Answer {
    call(zepayong_matches, atoms, pattern, term)
}

pub fn same(atoms: &[u8], s: &[u8], t: &[u8]) -> Answer {
    call(zepayong_same, atoms, s, t)
}

fn call(function: Function, atoms: &[u8], s: &[u8], t: &[u8]) -> Answer {
    let [(a, a_len), (s, s_len), (t, t_len)] = [atoms, s, t].map(|b| (b.as_ptr(), b.len()));
    // SAFETY: all three are whole slices, and the archive only reads them.
    answer(unsafe { function(a, a_len, s, s_len, t, t_len) })
}

pub fn ask(question: Question, atoms: &[u8], s: &[u8], t: &[u8]) -> Answer {
    match question {
        Question::Shares => shares(atoms, s, t),
        Question::Matches => matches(atoms, s, t),
        Question::Same => same(atoms, s, t),
    }
}

fn answer(number: u32) -> Answer {
    match number {
        0 => Answer::No,
        1 => Answer::Yes,
        2 => Answer::NoTerm,
        _ => panic!("{number} is no answer"),
    }
}
