//! What a file costs, relative to the typical one and to `fast`.

use crate::clock::{fastest, once};
use crate::{proved, stack};

/// Microseconds after which one call is enough.
const LONG: f64 = 4_000.0;
/// Microseconds for all rounds of a careful measurement.
const ALL_ROUNDS: f64 = 40_000.0;

#[derive(Clone, Copy, Debug)]
pub struct Cost {
    pub proved: f64,
    pub fast: f64,
}

/// What the search goes for.
#[derive(Clone, Copy, Debug, PartialEq)]
pub enum By {
    /// The proved check, to the typical file.
    Time,
    /// The proved check, to the fast one.
    Ratio,
    /// The fast check, to the typical file.
    Fast,
    /// The peak of the proved check's stack, in bytes.
    Stack,
}

impl By {
    pub fn named(name: &str) -> Option<By> {
        match name {
            "time" => Some(By::Time),
            "ratio" => Some(By::Ratio),
            "fast" => Some(By::Fast),
            "stack" => Some(By::Stack),
            _ => None,
        }
    }
}

/// The typical file, to which others are compared.
pub struct Scale {
    file: Vec<u8>,
    typical: Cost,
}

impl Scale {
    pub fn of(typical: &[u8]) -> Scale {
        Scale {
            file: typical.to_vec(),
            typical: careful(typical),
        }
    }

    /// Measures the typical file anew.
    pub fn again(&mut self) {
        self.typical = careful(&self.file);
    }

    /// Times a typical file.
    pub fn time(&self, cost: Cost) -> f64 {
        cost.proved / self.typical.proved
    }

    /// Times `fast`; where both are far below the typical file, the ratio says
    /// little, so a tenth of the typical file is the least that counts.
    pub fn ratio(&self, cost: Cost) -> f64 {
        cost.proved / cost.fast.max(self.typical.fast / 10.0)
    }

    pub fn fast(&self, cost: Cost) -> f64 {
        cost.fast / self.typical.fast
    }

    /// What a climb by this makes larger.
    pub fn score(&self, by: By, file: &[u8]) -> f64 {
        match by {
            By::Time => self.time(quick(file)),
            By::Ratio => self.ratio(quick(file)),
            By::Fast => self.fast(quick(file)),
            By::Stack => stack::peak(proved::check, file) as f64,
        }
    }
}

/// A few calls of each, fewer where they are long.
fn quick(file: &[u8]) -> Cost {
    let [proved, fast] = [proved::check, fast::check].map(|check| {
        let mut best = once(check, file);
        let more = (LONG / best).clamp(0.0, 3.0) as usize;
        for _ in 0..more {
            best = best.min(once(check, file));
        }
        best
    });
    Cost { proved, fast }
}

/// Many rounds of each, fewer where they are long.
pub fn careful(file: &[u8]) -> Cost {
    let once = quick(file);
    let rounds = (ALL_ROUNDS / once.proved.max(once.fast)).clamp(3.0, 40.0) as usize;
    let [proved, fast] = fastest([proved::check, fast::check], file, rounds);
    Cost { proved, fast }
}
