//! Bytes or counts lent to a call, between others that no call may touch.

use generate::random::Random;
use std::fmt::Display;

/// How many stand before and after the lent ones.
const AROUND: usize = 32;

/// What is lent.
pub trait Item: Copy + PartialEq + Display {
    const NAME: &'static str;

    fn any(random: &mut Random) -> Self;
}

impl Item for u8 {
    const NAME: &'static str = "byte";

    fn any(random: &mut Random) -> u8 {
        random.byte()
    }
}

impl Item for u32 {
    const NAME: &'static str = "count";

    fn any(random: &mut Random) -> u32 {
        random.number() as u32
    }
}

#[derive(Clone, PartialEq, Eq)]
pub struct Lent<T = u8> {
    all: Vec<T>,
}

impl<T: Item> Lent<T> {
    /// These items, with arbitrary ones around them.
    pub fn of(items: &[T], random: &mut Random) -> Lent<T> {
        let mut all: Vec<T> = (0..AROUND).map(|_| T::any(random)).collect();
        all.extend(items);
        all.extend((0..AROUND).map(|_| T::any(random)));
        Lent { all }
    }

    /// So many arbitrary ones.
    pub fn new(length: usize, random: &mut Random) -> Lent<T> {
        let all = (0..length + 2 * AROUND).map(|_| T::any(random)).collect();
        Lent { all }
    }

    pub fn items(&mut self) -> &mut [T] {
        let end = self.all.len() - AROUND;
        &mut self.all[AROUND..end]
    }

    /// What differs from the expected ones, in words; empty if nothing does.
    pub fn unlike(&self, expected: &Lent<T>) -> String {
        let pairs = self.all.iter().zip(&expected.all);
        match pairs.into_iter().position(|(found, right)| found != right) {
            None => String::new(),
            Some(at) => format!(
                ", {} {} is {} for {}",
                T::NAME,
                at as isize - AROUND as isize,
                self.all[at],
                expected.all[at]
            ),
        }
    }
}
