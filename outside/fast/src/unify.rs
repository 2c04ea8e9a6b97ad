//! Repeated variables: classes of nodes that must be equal, then the test that
//! nothing contains itself. Each step but a bounded few unites two classes.
//!
//! Nodes: entries of the term from 0, of the pattern from 64, variables from
//! 128. The head of a class is a variable only if all its nodes are; it is a
//! nonce or a variable for one if any of them is.

use crate::alphabet::{FIRST_VARIABLE, PAIR};
use crate::numbers::{ALL_VARIABLES, ORDINARY, PLACES};
use crate::term::{is_for_nonce, span, variable_bit, variable_number, Bits, Term};
use crate::walk::Meetings;

const FIRST_OF_VARIABLES: usize = 2 * PLACES;
const NODES: usize = FIRST_OF_VARIABLES + ALL_VARIABLES;
/// Room for nodes.
const NODE_ROOM: usize = 4 * PLACES;
const ITSELF: [u8; NODE_ROOM] = itself();

const fn itself() -> [u8; NODE_ROOM] {
    let mut nodes = [0; NODE_ROOM];
    let mut i = 0;
    while i < NODES {
        nodes[i] = i as u8;
        i += 1;
    }
    nodes
}

/// Room for the work; nothing is kept from one use to the next.
pub struct Room {
    heads: [u8; NODE_ROOM],
    /// Nodes to be united; each pair united adds one at most, so there is room.
    waiting: [(u8, u8); NODE_ROOM],
}

impl Room {
    pub const EMPTY: Room = Room {
        heads: ITSELF,
        waiting: [(0, 0); NODE_ROOM],
    };
}

struct Classes<'a, const ROOM: usize> {
    sides: [&'a Term; 2],
    room: &'a mut Room,
    waiting: usize,
}

/// Some finite replacement makes both sides of every meeting equal.
pub fn have_solution<const ROOM: usize>(
    term: &Term,
    pattern: &Term,
    meetings: &Meetings,
    room: &mut Room,
) -> bool {
    room.heads = ITSELF;
    let mut classes = Classes::<ROOM> {
        sides: [term, pattern],
        room,
        waiting: 0,
    };
    for (i, j) in &meetings.list[..meetings.count] {
        if !classes.unite_all(*i as usize, *j as usize + PLACES) {
            return false;
        }
    }
    classes.are_finite(meetings.seen)
}

impl<const ROOM: usize> Classes<'_, ROOM> {
    /// Unites two nodes and, from there on down, what must be equal then.
    fn unite_all(&mut self, one: usize, other: usize) -> bool {
        self.wait(one, other);
        while self.waiting > 0 {
            self.waiting -= 1;
            let (one, other) = self.room.waiting[self.waiting & (NODE_ROOM - 1)];
            if !self.unite(one as usize, other as usize) {
                return false;
            }
        }
        true
    }

    #[inline(always)]
    fn wait(&mut self, one: usize, other: usize) {
        self.room.waiting[self.waiting & (NODE_ROOM - 1)] = (one as u8, other as u8);
        self.waiting += 1;
    }

    #[inline(always)]
    fn unite(&mut self, one: usize, other: usize) -> bool {
        let (one, other) = (self.head_of_entry(one), self.head_of_entry(other));
        if one == other {
            return true;
        }
        if one >= FIRST_OF_VARIABLES && self.takes(one, other) {
            self.room.heads[one] = other as u8;
            return true;
        }
        if other >= FIRST_OF_VARIABLES && self.takes(other, one) {
            self.room.heads[other] = one as u8;
            return true;
        }
        if ROOM > ORDINARY && one.max(other) >= FIRST_OF_VARIABLES {
            return false;
        }
        let symbol = self.side(one).symbol(one);
        if symbol != self.side(other).symbol(other) {
            return false;
        }
        self.room.heads[one] = other as u8;
        self.wait_for_children(one, other, symbol);
        true
    }

    /// The variable may be what the other head is.
    #[inline(always)]
    fn takes(&self, variable: usize, other: usize) -> bool {
        if ROOM == ORDINARY || !is_for_nonce(variable - FIRST_OF_VARIABLES) {
            return true;
        }
        match other.checked_sub(FIRST_OF_VARIABLES) {
            Some(number) => is_for_nonce(number),
            None => self.side(other).nonces >> (other & (PLACES - 1)) & 1 == 1,
        }
    }

    #[inline(always)]
    fn wait_for_children(&mut self, one: usize, other: usize, symbol: u16) {
        if symbol == PAIR {
            self.wait(self.second_child(one), self.second_child(other));
        }
        if symbol >= PAIR {
            self.wait(one + 1, other + 1);
        }
    }

    #[inline(always)]
    fn second_child(&self, node: usize) -> usize {
        self.side(node).end(node + 1) + (node & PLACES)
    }

    #[inline(always)]
    fn side(&self, node: usize) -> &Term {
        self.sides[(node / PLACES) & 1]
    }

    /// The head of the class of an entry, or of the variable that it is.
    #[inline(always)]
    fn head_of_entry(&mut self, node: usize) -> usize {
        let symbol = self.side(node).symbol(node);
        if symbol >= FIRST_VARIABLE {
            self.head(FIRST_OF_VARIABLES + variable_number(symbol))
        } else {
            self.head(node)
        }
    }

    #[inline(always)]
    fn head(&mut self, mut node: usize) -> usize {
        let heads = &mut self.room.heads;
        loop {
            let next = heads[node & (NODE_ROOM - 1)] as usize;
            if next == node {
                return node;
            }
            // Halves the way for the next time.
            heads[node & (NODE_ROOM - 1)] = heads[next];
            node = heads[next] as usize;
        }
    }

    /// No variable contains itself. Goes down from each variable that was met;
    /// what is bound further down is below one of these.
    fn are_finite(&mut self, met: u64) -> bool {
        let mut below = [0u64; ROOM];
        let mut path = [0u8; ROOM];
        let (mut on_path, mut finite) = (0u64, 0u64);
        for start in Bits(met) {
            let (mut depth, mut next) = (0, 1u64 << start & !finite);
            while next != 0 || depth > 0 {
                if next & on_path != 0 {
                    return false;
                }
                if next != 0 {
                    let number = next.trailing_zeros() as usize;
                    below[number] = self.below_variable(number);
                    path[depth] = number as u8;
                    on_path |= 1 << number;
                    depth += 1;
                } else {
                    depth -= 1;
                    on_path &= !(1 << path[depth]);
                    finite |= 1 << path[depth];
                }
                let top = path[depth.max(1) - 1] as usize;
                next = if depth > 0 { below[top] & !finite } else { 0 };
            }
        }
        true
    }

    /// The variables below the head of a variable's class.
    fn below_variable(&mut self, number: usize) -> u64 {
        let head = self.head(FIRST_OF_VARIABLES + number);
        if head >= FIRST_OF_VARIABLES {
            return 0;
        }
        let (side, at) = (self.side(head), head & (PLACES - 1));
        Bits(side.variables & span(at, side.end(at)))
            .fold(0, |found, i| found | variable_bit(side.symbol(i)))
    }
}
