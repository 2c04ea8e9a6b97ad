//! Repeated variables, as far as it goes with few steps: variables are bound to
//! each other or to subterms, and nothing may be bound to what contains it.
//! Where the steps are used up, `unify` decides.
//!
//! Nodes: entries of the term from 0, of the pattern from 64, variables from
//! 128.

use crate::alphabet::{Symbol, FIRST_VARIABLE, PAIR};
use crate::numbers::{ORDINARY, PLACES, VARIABLES};
use crate::term::{is_for_nonce, span, variable_number, Bits, Occurrences, Term};

const PATTERN: u8 = PLACES as u8;
const FIRST_OF_VARIABLES: u8 = 2 * PATTERN;
const FREE: u8 = u8::MAX;
const STEPS: usize = 4;
const MOST_WAITING: usize = 16;
/// Seldom are more variables bound to what has something below it.
const FEW: usize = 8;

pub struct Quick<'a, const ROOM: usize> {
    sides: [&'a Term; 2],
    /// The node that a variable is bound to.
    bound: [u8; ROOM],
    /// The variables that are bound to what has something below it.
    nested: u64,
    occurrences: &'a Occurrences,
    /// How many more pairs of nodes may be taken apart.
    steps: usize,
}

/// Why it did not go on.
#[derive(Debug, PartialEq)]
pub enum Stopped {
    /// No replacement makes all equal.
    Unequal,
    OutOfSteps,
}

impl<'a, const ROOM: usize> Quick<'a, ROOM> {
    pub fn new(term: &'a Term, occurrences: &'a Occurrences, pattern: &'a Term) -> Self {
        Quick {
            sides: [term, pattern],
            bound: [FREE; ROOM],
            nested: 0,
            occurrences,
            steps: STEPS,
        }
    }

    /// The subterm at `i` and the pattern's at `j` are to be equal.
    #[inline(always)]
    pub fn equal(&mut self, i: usize, j: usize) -> Result<(), Stopped> {
        let (one, other) = (self.resolved(i as u8), self.resolved(j as u8 + PATTERN));
        if one == other {
            return Ok(());
        }
        if other >= FIRST_OF_VARIABLES {
            return self.bind(other, one);
        }
        if one >= FIRST_OF_VARIABLES {
            return self.bind(one, other);
        }
        match self.symbol(one) {
            symbol if symbol != self.symbol(other) => Err(Stopped::Unequal),
            symbol if symbol < PAIR => Ok(()),
            _ => self.equal_nodes(one, other),
        }
    }

    /// Two entries that are no variables, and what is below them.
    fn equal_nodes(&mut self, one: u8, other: u8) -> Result<(), Stopped> {
        let mut waiting = [(one, other); MOST_WAITING];
        let mut count = 1;
        while count > 0 {
            count -= 1;
            let (one, other) = waiting[count];
            let (one, other) = (self.resolved(one), self.resolved(other));
            if one == other {
                continue;
            }
            if one >= FIRST_OF_VARIABLES {
                self.bind(one, other)?;
                continue;
            }
            if other >= FIRST_OF_VARIABLES {
                self.bind(other, one)?;
                continue;
            }
            let symbol = self.symbol(one);
            if symbol != self.symbol(other) {
                return Err(Stopped::Unequal);
            }
            if self.steps == 0 || count + 2 > MOST_WAITING {
                return Err(Stopped::OutOfSteps);
            }
            self.steps -= 1;
            if symbol == PAIR {
                waiting[count] = (self.second(one), self.second(other));
                count += 1;
            }
            if symbol >= PAIR {
                waiting[count] = (one + 1, other + 1);
                count += 1;
            }
        }
        Ok(())
    }

    fn side(&self, node: u8) -> &'a Term {
        self.sides[((node / PATTERN) & 1) as usize]
    }

    #[inline(always)]
    fn symbol(&self, node: u8) -> Symbol {
        self.side(node).symbol(node as usize)
    }

    fn second(&self, node: u8) -> u8 {
        self.side(node).end(node as usize + 1) as u8 + (node & PATTERN)
    }

    /// The entry or the free variable that a node stands for.
    #[inline(always)]
    fn resolved(&self, mut node: u8) -> u8 {
        loop {
            let number = if node >= FIRST_OF_VARIABLES {
                node - FIRST_OF_VARIABLES
            } else {
                let symbol = self.symbol(node);
                if symbol < FIRST_VARIABLE {
                    return node;
                }
                variable_number(symbol) as u8
            };
            match self.bound[number as usize & (ROOM - 1)] {
                FREE => return FIRST_OF_VARIABLES + number,
                next => node = next,
            }
        }
    }

    /// Binds a free variable to a node that is none or another one.
    #[inline(always)]
    fn bind(&mut self, variable: u8, node: u8) -> Result<(), Stopped> {
        let number = (variable - FIRST_OF_VARIABLES) as usize & (ROOM - 1);
        if ROOM > ORDINARY && is_for_nonce(number) {
            return self.bind_nonce(variable, node);
        }
        if node < FIRST_OF_VARIABLES && self.symbol(node) >= PAIR {
            if self.stands_in(number, node) {
                return Err(Stopped::Unequal);
            }
            self.nested |= 1 << number;
        }
        self.bound[number] = node;
        Ok(())
    }

    /// The same for a variable for one nonce: another one is bound to it.
    fn bind_nonce(&mut self, variable: u8, node: u8) -> Result<(), Stopped> {
        if node >= FIRST_OF_VARIABLES {
            self.bound[(node - FIRST_OF_VARIABLES) as usize] = variable;
            return Ok(());
        }
        if self.side(node).nonces >> (node % PATTERN) & 1 == 0 {
            return Err(Stopped::Unequal);
        }
        self.bound[(variable - FIRST_OF_VARIABLES) as usize] = node;
        Ok(())
    }

    /// The rule's variable stands below this entry of the rule.
    #[inline(always)]
    fn stands_in(&self, number: usize, node: u8) -> bool {
        let at = node as usize;
        number < VARIABLES
            && at < PLACES
            && self.occurrences.places[number] & span(at, self.sides[0].end(at)) != 0
    }

    /// Nothing is bound to what contains it.
    pub fn is_finite(&self) -> bool {
        match self.nested.count_ones() as usize {
            0 => true,
            1..=FEW => self.is_finite_with::<FEW>(),
            _ => self.is_finite_with::<ROOM>(),
        }
    }

    /// With room for so many nested variables: takes away, again and again, those
    /// that are bound to something without any of those left.
    fn is_finite_with<const MOST: usize>(&self) -> bool {
        let mut below = [0u64; MOST];
        for (row, number) in Bits(self.nested).enumerate() {
            below[row & (MOST - 1)] = self.below(self.bound[number]);
        }
        let mut left = self.nested;
        loop {
            let stay = Bits(self.nested)
                .zip(&below)
                .filter(|(number, below)| left >> number & 1 == 1 && *below & left != 0)
                .fold(0, |stay, (number, _)| stay | 1 << number);
            if stay == left {
                return left == 0;
            }
            left = stay;
        }
    }

    /// The variables below an entry, each as the last one that it is bound to.
    fn below(&self, node: u8) -> u64 {
        let (side, at) = (self.side(node), node as usize & (PLACES - 1));
        let (mut seen, mut below) = (0u64, 0);
        for i in Bits(side.variables & span(at, side.end(at))) {
            let number = variable_number(side.symbol(i));
            if seen >> number & 1 == 0 {
                seen |= 1 << number;
                below |= 1 << self.last_variable(number);
            }
        }
        below
    }

    fn last_variable(&self, mut number: usize) -> usize {
        while (FIRST_OF_VARIABLES..FREE).contains(&self.bound[number & (ROOM - 1)]) {
            number = (self.bound[number & (ROOM - 1)] - FIRST_OF_VARIABLES) as usize;
        }
        number
    }
}
