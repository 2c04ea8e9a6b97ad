//! The archives' checks.

extern "C" {
    fn zepayong_check(file: *const u8, length: usize) -> u32;
    fn zepayong_tally(
        file: *const u8,
        length: usize,
        loader: u32,
        counts: *mut u32,
        many: usize,
    ) -> u32;
}

pub fn check(file: &[u8]) -> u32 {
    // The archive reads these bytes only and keeps nothing.
    unsafe { zepayong_check(file.as_ptr(), file.len()) }
}

/// With a tally, for loader 3.
pub fn check_of_loader(file: &[u8]) -> u32 {
    tally(file, 3)
}

/// With a tally, for a number that no loader has.
pub fn check_of_nobody(file: &[u8]) -> u32 {
    tally(file, 8)
}

fn tally(file: &[u8], loader: u32) -> u32 {
    let mut counts = [0; 16];
    let (from, to) = (file.as_ptr(), counts.as_mut_ptr());
    // The archive reads these bytes, writes these counts and keeps nothing.
    unsafe { zepayong_tally(from, file.len(), loader, to, counts.len()) }
}
