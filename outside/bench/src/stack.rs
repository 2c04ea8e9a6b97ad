//! How much stack one check takes at its peak. A thread with a stack of known
//! size paints an area of it below the current frame with a pattern, calls the
//! check from the same depth, and then looks how far down the pattern is gone.
//! The figure counts from the call's frame, so a call of nothing is measured
//! the same way and taken off. A byte that the check leaves as painted at the
//! very bottom would not be seen; the pattern changes from byte to byte, so
//! that this misses a few bytes at most.

use std::hint::black_box;

const STACK: usize = 1 << 20;
const PAINTED: usize = 256 << 10;

/// Bytes of stack that the check of this file takes.
pub fn peak(check: fn(&[u8]) -> u32, file: &[u8]) -> usize {
    std::thread::scope(|scope| {
        let run = move || {
            let nothing = deepest(|_| 0, file);
            // Once before, so that nothing is set up for the first time.
            black_box(check(black_box(file)));
            deepest(check, file).saturating_sub(nothing)
        };
        std::thread::Builder::new()
            .stack_size(STACK)
            .spawn_scoped(scope, run)
            .expect("a thread can be started")
            .join()
            .expect("the check ends")
    })
}

fn deepest(check: fn(&[u8]) -> u32, file: &[u8]) -> usize {
    let top = paint();
    black_box(call(check, file));
    top.0 - lowest_gone(top)
}

#[inline(never)]
fn call(check: fn(&[u8]) -> u32, file: &[u8]) -> u32 {
    check(black_box(file))
}

/// An address of the stack below which the area is painted.
#[derive(Clone, Copy)]
struct Top(usize);

fn pattern(address: usize) -> u8 {
    (address as u8).wrapping_mul(167) ^ 0x5A
}

/// Paints the bytes of a large frame, which lies where the check's will.
#[inline(never)]
fn paint() -> Top {
    let mut area = [0u8; PAINTED];
    let start = area.as_mut_ptr();
    for i in 0..PAINTED {
        // Volatile: the bytes are looked at only after the frame is gone.
        unsafe { start.add(i).write_volatile(pattern(start as usize + i)) };
    }
    black_box(&mut area);
    Top(start as usize + PAINTED)
}

/// The lowest address below the top whose byte is not as painted. The frame
/// that was painted is gone, so the language promises nothing of these bytes;
/// they are this thread's own stack, which stays mapped.
#[inline(never)]
fn lowest_gone(top: Top) -> usize {
    // This function's own frame is small and at the top; it looks from the
    // bottom up and stops at the first byte that changed.
    let start = top.0 - PAINTED;
    (start..top.0)
        .find(|address| unsafe { (*address as *const u8).read_volatile() } != pattern(*address))
        .unwrap_or(top.0)
}
