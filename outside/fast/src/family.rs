//! Prepared terms of one kind, sorted, so that equal beginnings are neighbours:
//! where one clashes, the next ones with the same beginning clash too.

use crate::alphabet::{Symbol, FIRST_VARIABLE, PAIR};
use crate::numbers::{MOST_BLOCKS, SLOTS};
use crate::term::Term;
use crate::walk::Watched;

/// How many symbols there are of all with something below.
const ROOTS: usize = (FIRST_VARIABLE - PAIR) as usize;
const _: () = assert!(ROOTS.is_power_of_two());

pub struct Family {
    /// The place behind the last member's; the first has place 1, and place 0
    /// stands for none.
    end: usize,
    members: [u8; MOST_BLOCKS],
    /// Entries that a member has in common with the one before.
    common: [u8; MOST_BLOCKS],
    watched: [Watched; MOST_BLOCKS],
    /// The entries of the longest member.
    pub longest: usize,
    /// For a root, the first member.
    firsts: [u8; ROOTS],
    /// For such a first member, the one after the last with that root.
    ends: [u8; MOST_BLOCKS],
}

impl Family {
    const EMPTY: Family = Family {
        end: 1,
        members: [0; MOST_BLOCKS],
        common: [0; MOST_BLOCKS],
        watched: [Watched::NONE; MOST_BLOCKS],
        longest: 0,
        firsts: [0; ROOTS],
        ends: [0; MOST_BLOCKS],
    };

    /// The terms of these blocks, two slots a block, that are no atoms.
    pub fn of(terms: &[Term; SLOTS], blocks: std::ops::Range<usize>) -> Family {
        Family::only(terms, blocks, |term| term.length() > 1)
    }

    /// The terms of these blocks that are wanted; none is an atom.
    pub fn only(
        terms: &[Term; SLOTS],
        blocks: std::ops::Range<usize>,
        is_wanted: impl Fn(&Term) -> bool,
    ) -> Family {
        let mut family = Family::EMPTY;
        for block in blocks {
            if is_wanted(&terms[2 * block]) {
                family.insert(terms, 2 * block);
            }
        }
        for place in 1..family.end {
            family.prepare(terms, place);
        }
        family
    }

    fn insert(&mut self, terms: &[Term; SLOTS], slot: usize) {
        let mut place = self.end;
        while place > 1 && comes_before(&terms[slot], &terms[self.slot(place - 1)]) {
            self.members[place] = self.members[place - 1];
            place -= 1;
        }
        self.members[place] = slot as u8;
        self.end += 1;
    }

    fn prepare(&mut self, terms: &[Term; SLOTS], place: usize) {
        let term = &terms[self.slot(place)];
        let root = root_of(term.symbol(0));
        if place > 1 {
            let before = &terms[self.slot(place - 1)];
            self.common[place] = beginning(before, term) as u8;
        }
        self.longest = self.longest.max(term.length());
        self.watched[place] = Watched::of(term);
        if self.common[place] == 0 {
            self.firsts[root] = place as u8;
        }
        self.ends[self.firsts[root] as usize] = place as u8 + 1;
    }

    /// The members with this root.
    #[inline(always)]
    pub fn with_root(&self, symbol: Symbol) -> std::ops::Range<usize> {
        let first = self.firsts[root_of(symbol)] as usize;
        first..self.ends[first & (MOST_BLOCKS - 1)] as usize
    }

    /// Some member with this root passes the test, which tells the member's
    /// entry of a clash; members equal up to there are left out.
    #[inline(always)]
    pub fn any(&self, root: Symbol, mut test: impl FnMut(usize) -> Result<(), usize>) -> bool {
        let members = self.with_root(root);
        let mut member = members.start;
        while member < members.end {
            match test(member) {
                Ok(()) => return true,
                Err(clash) => member = self.after_clash(member, members.end, clash),
            }
        }
        false
    }

    #[inline(always)]
    pub fn slot(&self, place: usize) -> usize {
        self.members[place & (MOST_BLOCKS - 1)] as usize & (SLOTS - 1)
    }

    #[inline(always)]
    pub fn watched(&self, place: usize) -> Watched {
        self.watched[place & (MOST_BLOCKS - 1)]
    }

    /// The next member that has not the same entries up to `clash`.
    #[inline(always)]
    fn after_clash(&self, place: usize, end: usize, clash: usize) -> usize {
        let mut next = place + 1;
        while next < end && self.common[next & (MOST_BLOCKS - 1)] as usize > clash {
            next += 1;
        }
        next
    }
}

/// Symbol by symbol. Variables come first, as they answer soonest.
fn comes_before(one: &Term, other: &Term) -> bool {
    let rank = |symbol: &Symbol| symbol.wrapping_sub(FIRST_VARIABLE);
    let ranks = one.subterm(0).iter().map(rank);
    ranks.lt(other.subterm(0).iter().map(rank))
}

/// A place for the pair, the hash and each key of a signature or an encryption.
#[inline(always)]
fn root_of(symbol: Symbol) -> usize {
    (symbol - PAIR) as usize & (ROOTS - 1)
}

/// How many entries are the same from the first on.
fn beginning(one: &Term, other: &Term) -> usize {
    (0..one.length())
        .take_while(|i| one.symbol(*i) == other.symbol(*i))
        .count()
}
