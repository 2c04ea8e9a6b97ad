//! Two terms side by side, up to the first clash.

use crate::alphabet::{Symbol, FIRST_VARIABLE};
use crate::numbers::{ORDINARY, PLACES};
use crate::quick::{Quick, Stopped};
use crate::term::{is_for_nonce, of_a_rule, Occurrences, OF_A_RULE};
use crate::term::{is_marked, span, variable_bit, variable_number, Bits, Term, STRIDE};

/// Where a variable stands beside something, entry of either side.
pub struct Meetings {
    pub list: [(u8, u8); PLACES],
    pub count: usize,
    /// The variables met.
    pub seen: u64,
    /// Some variable was met twice.
    pub repeated: bool,
}

impl Meetings {
    pub const NONE: Meetings = Meetings {
        list: [(0, 0); PLACES],
        count: 0,
        seen: 0,
        repeated: false,
    };

    fn clear(&mut self) {
        self.count = 0;
        self.seen = 0;
        self.repeated = false;
    }

    #[inline(always)]
    fn meet(&mut self, term: &Term, i: usize, pattern: &Term, j: usize) {
        let bit = |symbol| match is_variable(symbol) {
            true => variable_bit(symbol),
            false => 0,
        };
        let variables = bit(term.symbol(i)) | bit(pattern.symbol(j));
        self.list[self.count & (PLACES - 1)] = (i as u8, j as u8);
        self.count += 1;
        self.repeated |= self.seen & variables != 0;
        self.seen |= variables;
    }
}

#[inline(always)]
fn is_variable(symbol: Symbol) -> bool {
    symbol >= FIRST_VARIABLE
}

/// How many symbols are equal from `i` and `j` on.
#[inline(always)]
fn equal_run(term: &Term, i: usize, pattern: &Term, j: usize) -> usize {
    let mut run = 0;
    loop {
        let other = term.four(i + run) ^ pattern.four(j + run);
        if other != 0 {
            return run + (other.trailing_zeros() / 16) as usize;
        }
        run += STRIDE;
    }
}

/// Four bits, one for each of four symbols that is not zero.
#[inline(always)]
fn not_zero(four: u64) -> u64 {
    const LOW: u64 = 0x7FFF_7FFF_7FFF_7FFF;
    let high = (((four & LOW) + LOW) | four) >> 15 & 0x0001_0001_0001_0001;
    // The bits at 0, 16, 32 and 48, gathered.
    high.wrapping_mul(1 << 48 | 1 << 33 | 1 << 18 | 1 << 3) >> 48 & 15
}

/// How many entries stand beside each other from `i` and `j` on, equal but for
/// those that are `free`; these count from `j`.
#[inline(always)]
fn even_run(term: &Term, i: usize, pattern: &Term, j: usize, free: u64) -> usize {
    let mut run = 0;
    while j + run < pattern.length() {
        let other = term.four(i + run) ^ pattern.four(j + run);
        if other != 0 {
            let wrong = not_zero(other) & !(free >> run);
            if wrong != 0 {
                run += wrong.trailing_zeros() as usize;
                return run.min(pattern.length() - j);
            }
        }
        run += STRIDE;
    }
    pattern.length() - j
}

/// What is known of a pattern's variables.
#[derive(Clone, Copy)]
pub struct Watched {
    /// Entries with a variable that the pattern has more than once.
    pub repeated: u64,
    /// Entries with a marked variable.
    pub marked: u64,
}

impl Watched {
    pub const NONE: Watched = Watched {
        repeated: 0,
        marked: 0,
    };

    pub fn of(pattern: &Term) -> Watched {
        let marked = Bits(pattern.variables)
            .filter(|j| is_marked(pattern.symbol(*j)))
            .fold(0, |marked, j| marked | 1 << j);
        Watched {
            repeated: pattern.repeated(),
            marked,
        }
    }
}

/// Parts of two terms in which entry stands beside entry, as long as what a
/// variable meets is one entry long; behind that, such a longer one.
pub struct Parts {
    /// The first entry of either side, and the pattern's behind the last.
    list: [(u8, u8, u8); PLACES],
    count: usize,
}

impl Parts {
    pub const NONE: Parts = Parts {
        list: [(0, 0, 0); PLACES],
        count: 0,
    };

    /// Finds the parts, or the pattern's entry of the first clash.
    #[inline(always)]
    pub fn find(&mut self, term: &Term, at: usize, pattern: &Term) -> Result<(), usize> {
        // Most clash at their first difference.
        let run = equal_run(term, at, pattern, 0);
        let (one, other) = (term.symbol(at + run), pattern.symbol(run));
        if run < pattern.length() && !is_variable(one) && !is_variable(other) {
            return Err(run);
        }
        let (leaves, pattern_leaves) = (!term.nested, !pattern.nested);
        self.count = 0;
        let (mut i, mut j) = (at, 0);
        while j < pattern.length() {
            let free = (pattern.variables >> j) & (leaves >> i)
                | (term.variables >> i) & (pattern_leaves >> j);
            let run = even_run(term, i, pattern, j, free);
            self.list[self.count & (PLACES - 1)] =
                (i as u8, j as u8, (j + run + 1).min(pattern.length()) as u8);
            self.count += 1;
            (i, j) = (i + run, j + run);
            if j >= pattern.length() {
                break;
            }
            (i, j) = if pattern.variables >> j & 1 == 1 {
                (term.end(i), j + 1)
            } else if term.variables >> i & 1 == 1 {
                (i + 1, pattern.end(j))
            } else {
                return Err(j);
            };
        }
        Ok(())
    }

    /// With the parts found: no variable for one nonce meets what never is one,
    /// or the pattern's first entry where one does.
    pub fn nonces_fit(&self, term: &Term, pattern: &Term) -> Result<(), usize> {
        let never = !(term.variables | term.nonces);
        let pattern_never = !(pattern.variables | pattern.nonces);
        for (i, j, end) in &self.list[..self.count] {
            let clash = (term.nonce_variables() >> i << j) & pattern_never
                | (never >> i << j) & pattern.nonce_variables();
            let here = clash & span(*j as usize, *end as usize);
            if here != 0 {
                return Err(here.trailing_zeros() as usize);
            }
        }
        Ok(())
    }

    /// Some variable of the term meets what is no variable.
    #[inline(always)]
    pub fn term_is_replaced(&self, term: &Term, pattern: &Term) -> bool {
        self.list[..self.count].iter().any(|(i, j, end)| {
            let met = (term.variables >> i << j) & !pattern.variables;
            met & span(*j as usize, *end as usize) != 0
        })
    }

    /// With the parts found: the term's entries at these marks of the pattern,
    /// or the variable above a mark.
    #[inline(always)]
    pub fn beside_marks(&self, marked: u64) -> u64 {
        let (mut beside, mut reached, mut last) = (0, 0, 0);
        for (i, j, end) in &self.list[..self.count] {
            let (i, j, end) = (*i as usize, *j as usize, *end as usize);
            let is_below = marked & span(reached, j) != 0;
            beside |= (is_below as u64) << last | (marked & span(j, end)) >> j << i;
            (reached, last) = (end, i + end - 1 - j);
        }
        let is_below = marked >> reached != 0;
        beside | (is_below as u64) << last
    }

    /// With the parts found: some instance is shared; none is, with the last
    /// entry of the pattern that was needed to see it; or it took too many steps.
    pub fn share<const ROOM: usize>(
        &self,
        term: &Term,
        occurrences: &Occurrences,
        pattern: &Term,
        watched: Watched,
    ) -> Shared {
        let mut quick = Quick::<ROOM>::new(term, occurrences, pattern);
        for (i, j, end) in &self.list[..self.count] {
            let (i, j) = (*i as usize, *j as usize);
            let repeated = occurrences.repeated >> i << j;
            let (mut free, mut pattern_free) = (term.variables >> i << j, pattern.variables);
            if ROOM > ORDINARY {
                free &= !(term.nonce_variables() >> i << j);
                pattern_free &= !pattern.nonce_variables();
            }
            // A variable that stands at one place only takes what it meets; one for
            // a nonce still says what the other side is.
            let counts = watched.repeated & !(free & !repeated)
                | repeated & !(pattern_free & !watched.repeated);
            for k in Bits(counts & span(j, *end as usize)) {
                match quick.equal(i + k - j, k) {
                    Ok(()) => {}
                    Err(Stopped::Unequal) => return Shared::Never(pattern.end(k) - 1),
                    Err(Stopped::OutOfSteps) => return Shared::Open,
                }
            }
        }
        match quick.is_finite() {
            true => Shared::Some,
            false => Shared::Never(pattern.length() - 1),
        }
    }
}

/// An answer, or none.
pub enum Shared {
    Some,
    Never(usize),
    Open,
}

/// All meetings of variables, or the pattern's entry of the first clash.
pub fn side_by_side(
    term: &Term,
    at: usize,
    pattern: &Term,
    meetings: &mut Meetings,
) -> Result<(), usize> {
    meetings.clear();
    let (mut i, mut j) = (at, 0);
    loop {
        let run = equal_run(term, i, pattern, j);
        (i, j) = (i + run, j + run);
        if j >= pattern.length() {
            return Ok(());
        }
        if is_variable(pattern.symbol(j)) {
            meetings.meet(term, i, pattern, j);
            (i, j) = (term.end(i), j + 1);
        } else if is_variable(term.symbol(i)) {
            meetings.meet(term, i, pattern, j);
            (i, j) = (i + 1, pattern.end(j));
        } else {
            return Err(j);
        }
    }
}

/// The subterm at `at` as the pattern with its variables replaced: the entries
/// at or below a mark, or the pattern's entry of the first clash.
pub fn instance<const ROOM: usize>(
    pattern: &Term,
    watched: Watched,
    term: &Term,
    at: usize,
) -> Result<u64, usize> {
    let leaves = !term.nested;
    let mut replaced = Replaced::<ROOM>::NONE;
    let (mut i, mut j) = (at, 0);
    loop {
        let free = (pattern.variables >> j) & (leaves >> i);
        let end = j + even_run(term, i, pattern, j, free);
        let here = span(j, (end + 1).min(pattern.length()));
        if ROOM > ORDINARY {
            let wrong = pattern.nonce_variables() & !(term.nonces >> i << j) & here;
            if wrong != 0 {
                return Err(wrong.trailing_zeros() as usize);
            }
        }
        for k in Bits((watched.repeated | watched.marked) & here) {
            let is_marked = watched.marked >> k & 1 == 1;
            replaced.put(pattern, k, term, i + k - j, is_marked)?;
        }
        i += end - j;
        if end >= pattern.length() {
            return Ok(replaced.marked);
        }
        if pattern.variables >> end & 1 == 0 {
            return Err(end);
        }
        (i, j) = (term.end(i), end + 1);
        if j >= pattern.length() {
            return Ok(replaced.marked);
        }
    }
}

/// What the variables of a pattern are replaced by.
struct Replaced<const ROOM: usize> {
    starts: [u8; ROOM],
    /// The entries at or below a mark.
    marked: u64,
}

impl<const ROOM: usize> Replaced<ROOM> {
    const NONE: Replaced<ROOM> = Replaced {
        starts: [u8::MAX; ROOM],
        marked: 0,
    };

    /// The variable at `j` by the subterm at `i`, or `j` if it was another.
    #[inline(always)]
    fn put(
        &mut self,
        pattern: &Term,
        j: usize,
        term: &Term,
        i: usize,
        is_marked: bool,
    ) -> Result<(), usize> {
        let start = &mut self.starts[variable_number(pattern.symbol(j)) & (ROOM - 1)];
        if *start == u8::MAX {
            *start = i as u8;
        } else if !term.is_same(*start as usize, i) {
            return Err(j);
        }
        if is_marked {
            self.marked |= span(i, term.end(i));
        }
        Ok(())
    }
}

/// The subterm at `at` is this term without variables, or the entry of the
/// first difference.
#[inline(always)]
pub fn same_term(term: &Term, at: usize, ground: &Term) -> Result<(), usize> {
    let run = equal_run(term, at, ground, 0);
    if run < ground.length() {
        return Err(run);
    }
    Ok(())
}

/// A term without variables as an instance of the subterm at `at`, or the
/// entry of the first clash.
#[inline]
pub fn instance_without_variables<const ROOM: usize>(
    term: &Term,
    at: usize,
    ground: &Term,
) -> Result<(), usize> {
    let mut starts = [u8::MAX; OF_A_RULE];
    let (mut i, mut j) = (at, 0);
    loop {
        let run = equal_run(term, i, ground, j);
        (i, j) = (i + run, j + run);
        if j >= ground.length() {
            return Ok(());
        }
        let symbol = term.symbol(i);
        if !is_variable(symbol) {
            return Err(j);
        }
        let is_nonce = ground.nonces >> j & 1 == 1;
        if ROOM > ORDINARY && is_for_nonce(variable_number(symbol)) && !is_nonce {
            return Err(j);
        }
        let start = &mut starts[of_a_rule(symbol)];
        if *start == u8::MAX {
            *start = j as u8;
        } else if ground.subterm(*start as usize) != ground.subterm(j) {
            return Err(ground.length());
        }
        (i, j) = (i + 1, ground.end(j));
    }
}
