//! The archive's functions. Any bytes may be given.

use crate::{Checker, Spot};
use std::ptr::{null, null_mut};

extern "C" {
    fn zepayong_check(file: *const u8, n: usize) -> u32;
    fn zepayong_line(file: *const u8, n: usize, buffer: *mut u8, m: usize) -> u32;
    fn zepayong_part(
        file: *const u8,
        n: usize,
        number: u32,
        block: u8,
        place: u8,
        buffer: *mut u8,
        m: usize,
    ) -> u32;
    fn zepayong_tally(file: *const u8, n: usize, loader: u32, counts: *mut u32, m: usize) -> u32;
    fn zepayong_seal(block: *mut u8, n: usize) -> u32;
}

/// An empty slice is passed with the pointer it has.
pub const CHECKER: Checker = checker::<false>();
/// An empty slice is passed with a null pointer.
pub const WITH_NULL: Checker = checker::<true>();

const fn checker<const NULL: bool>() -> Checker {
    Checker {
        check: check::<NULL>,
        line: line::<NULL>,
        part: part::<NULL>,
        tally: tally::<NULL>,
        seal: seal::<NULL>,
    }
}

fn start<const NULL: bool>(bytes: &[u8]) -> *const u8 {
    if NULL && bytes.is_empty() {
        return null();
    }
    bytes.as_ptr()
}

fn start_mut<const NULL: bool, T>(lent: &mut [T]) -> *mut T {
    if NULL && lent.is_empty() {
        return null_mut();
    }
    lent.as_mut_ptr()
}

fn check<const NULL: bool>(file: &[u8]) -> u32 {
    // SAFETY: a whole slice, which the archive only reads.
    unsafe { zepayong_check(start::<NULL>(file), file.len()) }
}

fn line<const NULL: bool>(file: &[u8], buffer: &mut [u8]) -> u32 {
    let (to, room) = (start_mut::<NULL, _>(buffer), buffer.len());
    // SAFETY: two whole slices that do not meet; the archive writes the second only.
    unsafe { zepayong_line(start::<NULL>(file), file.len(), to, room) }
}

fn part<const NULL: bool>(file: &[u8], spot: Spot, buffer: &mut [u8]) -> u32 {
    let (to, room) = (start_mut::<NULL, _>(buffer), buffer.len());
    let (from, length) = (start::<NULL>(file), file.len());
    // SAFETY: as above.
    unsafe { zepayong_part(from, length, spot.number, spot.block, spot.place, to, room) }
}

fn tally<const NULL: bool>(file: &[u8], loader: u32, counts: &mut [u32]) -> u32 {
    let (to, room) = (start_mut::<NULL, _>(counts), counts.len());
    // SAFETY: as above, with counts in place of bytes.
    unsafe { zepayong_tally(start::<NULL>(file), file.len(), loader, to, room) }
}

fn seal<const NULL: bool>(block: &mut [u8]) -> u32 {
    // SAFETY: a whole slice, lent to the archive to write.
    unsafe { zepayong_seal(start_mut::<NULL, _>(block), block.len()) }
}
