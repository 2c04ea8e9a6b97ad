//! A term as its entries: symbols in order, where each subterm ends, and sets
//! of entries as bits.

use crate::alphabet::*;
use crate::numbers::{ORDINARY, PLACES, VALUE_BITS, VARIABLES};

/// Symbols that are compared at once.
pub const STRIDE: usize = 4;
/// So that as many symbols can be read from any entry on.
const PADDED: usize = PLACES + STRIDE - 1;

#[derive(Clone, Copy)]
pub struct Term {
    symbols: [Symbol; PADDED],
    ends: [u8; PLACES],
    length: u16,
    pub variables: u64,
    /// All with something below: pairs, encryptions, hashes and signatures.
    pub nested: u64,
    /// All but those below a hash.
    pub places: u64,
    /// Of these places, the encryptions and the secret atoms.
    pub encryptions: u64,
    pub secret_atoms: u64,
    /// The variables for one nonce and, in files that have some, the nonces.
    pub nonces: u64,
}

/// The entries from `from` up to but not including `to`.
pub fn span(from: usize, to: usize) -> u64 {
    (1 << to) - (1 << from)
}

/// The numbers of the bits that are set, rising.
pub struct Bits(pub u64);

impl Iterator for Bits {
    type Item = usize;

    #[inline(always)]
    fn next(&mut self) -> Option<usize> {
        if self.0 == 0 {
            return None;
        }
        let lowest = self.0.trailing_zeros() as usize;
        self.0 &= self.0 - 1;
        Some(lowest)
    }
}

const fn leaf_ends() -> [u8; PLACES] {
    let mut ends = [0; PLACES];
    let mut i = 0;
    while i < PLACES {
        ends[i] = i as u8 + 1;
        i += 1;
    }
    ends
}

/// What each entry is and where it is allowed, a byte for each, in eights.
struct Marks([u64; PLACES / 8]);

impl Term {
    pub const EMPTY: Term = Term {
        symbols: [0; PADDED],
        ends: leaf_ends(),
        length: 0,
        variables: 0,
        nested: 0,
        places: u64::MAX,
        encryptions: 0,
        secret_atoms: 0,
        nonces: 0,
    };

    /// Reads the first `length` entries, none of which has a bit set that none
    /// may have: are all allowed at this place? Symbols behind them are never
    /// looked at.
    pub fn read(
        &mut self,
        room: &[u32; PLACES],
        length: usize,
        alphabet: &Alphabet,
        place: u32,
    ) -> bool {
        if length == 0 {
            return true;
        }
        for (symbol, entry) in self.symbols.iter_mut().zip(room) {
            *symbol = symbol_of(*entry);
        }
        let mut marks = Marks([0; PLACES / 8]);
        for (eight, symbols) in marks.0.iter_mut().zip(self.symbols.chunks_exact(8)) {
            for (i, symbol) in symbols.iter().enumerate() {
                *eight |= (alphabet.marks(*symbol) as u64) << (8 * i);
            }
        }
        let used = span(0, length);
        self.length = length as u16;
        self.variables = used & marks.entries_with(VARIABLE);
        self.encryptions = used & marks.entries_with(ENCRYPTION);
        self.secret_atoms = used & marks.entries_with(SECRET_ATOM);
        let pairs = used & marks.entries_with(IS_PAIR);
        self.nested = pairs | self.encryptions;
        match marks.has_some(MOVED) {
            true => self.move_symbols(used & marks.entries_with(MOVED), pairs),
            false => self.find_ends(pairs),
        }
        used & !marks.entries_with(place) == 0
    }

    /// These are variables for one nonce, hashes and signatures.
    #[cold]
    fn move_symbols(&mut self, entries: u64, pairs: u64) {
        self.nonces = entries & self.variables;
        self.nested |= entries & !self.variables;
        for i in Bits(entries) {
            self.symbols[i] = moved(self.symbols[i]);
        }
        self.find_ends(pairs);
        if self.is_whole() {
            self.leave_out_below_hashes(entries);
        }
    }

    /// Nothing below a hash, which is one of these entries, is a place.
    fn leave_out_below_hashes(&mut self, entries: u64) {
        for i in Bits(entries) {
            if self.symbol(i) == HASH {
                self.places &= !self.below(i);
            }
        }
        self.encryptions &= self.places;
        self.secret_atoms &= self.places;
    }

    /// Adds the nonces, in a file with variables for one.
    pub fn find_nonces(&mut self, alphabet: &Alphabet) {
        let atoms = !(self.variables | self.nested) & span(0, self.length());
        self.nonces = Bits(atoms)
            .filter(|i| alphabet.is_nonce(value_of(self.symbol(*i))))
            .fold(self.nonces, |nonces, i| nonces | 1 << i);
    }

    /// The number of entries.
    #[inline(always)]
    pub fn length(&self) -> usize {
        self.length as usize
    }

    #[inline(always)]
    pub fn nonce_variables(&self) -> u64 {
        self.variables & self.nonces
    }

    /// The entries are exactly one term.
    pub fn is_whole(&self) -> bool {
        self.length() > 0 && self.end(0) == self.length()
    }

    /// Where all but leaves end, from the last to the first. `later` holds the
    /// starts of the finished terms behind the one that follows, and the end: a
    /// leaf puts one more before them, a pair takes one away.
    fn find_ends(&mut self, pairs: u64) {
        let mut later = 0u64;
        let mut reached = 1u64 << self.length();
        for from_last in Bits(self.nested.reverse_bits()) {
            let i = PLACES - 1 - from_last;
            let bit = 1u64 << i;
            // All entries from here to the one reached are leaves.
            later |= (reached << 1).wrapping_sub(bit << 2);
            later &= later.wrapping_sub(pairs >> i & 1);
            self.ends[i] = later.trailing_zeros() as u8;
            reached = bit;
        }
    }

    /// Its variables become a pattern's, and an end is put behind it.
    pub fn make_pattern(&mut self) {
        for i in Bits(self.variables) {
            self.symbols[i] += PATTERN_VARIABLE;
        }
        self.put_end();
    }

    /// A symbol that no term has, right after the last one.
    pub fn put_end(&mut self) {
        self.symbols[self.length()] = Symbol::MAX;
    }

    #[inline(always)]
    pub fn symbol(&self, i: usize) -> Symbol {
        self.symbols[i & (PLACES - 1)]
    }

    /// Four symbols from `i` on.
    #[inline(always)]
    pub fn four(&self, i: usize) -> u64 {
        let i = i & (PLACES - 1);
        let four: &[Symbol; STRIDE] = self.symbols[i..i + STRIDE].try_into().expect("four");
        let [a, b, c, d] = four.map(u64::from);
        a | b << 16 | c << 32 | d << 48
    }

    /// Where the subterm that starts at `i` ends.
    #[inline(always)]
    pub fn end(&self, i: usize) -> usize {
        self.ends[i & (PLACES - 1)] as usize
    }

    /// The entries strictly below `i`.
    pub fn below(&self, i: usize) -> u64 {
        span(i + 1, self.end(i))
    }

    pub fn size(&self, i: usize) -> usize {
        self.end(i) - i
    }

    /// The symbols of the subterm at `i`; equal symbols are equal terms.
    #[inline(always)]
    pub fn subterm(&self, i: usize) -> &[Symbol] {
        &self.symbols[i..self.end(i)]
    }

    /// These two subterms are the same.
    #[inline(always)]
    pub fn is_same(&self, one: usize, other: usize) -> bool {
        self.symbol(one) == self.symbol(other)
            && (self.size(one) == 1 || self.subterm(one) == self.subterm(other))
    }

    /// A pattern with a marked variable.
    pub fn has_mark(&self) -> bool {
        Bits(self.variables).any(|i| is_marked(self.symbol(i)))
    }

    /// Of these places, those at, above or below one of the entries.
    pub fn on_one_way(&self, places: u64, entries: u64) -> u64 {
        let below = Bits(entries).fold(0, |below, i| below | span(i, self.end(i)));
        Bits(places & !below)
            .filter(|i| entries & span(*i, self.end(*i)) != 0)
            .fold(places & below, |found, i| found | 1 << i)
    }

    /// The entries with a variable that stands at more than one.
    pub fn repeated(&self) -> u64 {
        let bit = |i: usize| variable_bit(self.symbol(i));
        let (mut once, mut again) = (0, 0);
        for i in Bits(self.variables) {
            again |= once & bit(i);
            once |= bit(i);
        }
        Bits(self.variables)
            .filter(|i| again & bit(*i) != 0)
            .fold(0, |repeated, i| repeated | 1 << i)
    }

    /// Where the variables of a rule's subterm at `i` stand.
    pub fn occurrences(&self, i: usize) -> Occurrences {
        let mut occurrences = Occurrences {
            places: [0; OF_A_RULE],
            repeated: 0,
        };
        for at in Bits(self.variables & span(i, self.end(i))) {
            let here = &mut occurrences.places[of_a_rule(self.symbol(at))];
            if *here != 0 {
                occurrences.repeated |= *here | 1 << at;
            }
            *here |= 1 << at;
        }
        occurrences
    }
}

pub struct Occurrences {
    /// The entries of each variable.
    pub places: [u64; OF_A_RULE],
    /// The entries with a variable that stands there more than once.
    pub repeated: u64,
}

/// A rule's variables, then the plain and the marked ones of a pattern; then
/// those for one nonce in the same order.
#[inline(always)]
pub fn variable_number(symbol: Symbol) -> usize {
    let sort = (symbol - FIRST_VARIABLE) >> VALUE_BITS;
    VARIABLES * sort as usize + value_of(symbol)
}

#[inline(always)]
pub fn variable_bit(symbol: Symbol) -> u64 {
    1 << variable_number(symbol)
}

/// The variable of this number is for one nonce.
#[inline(always)]
pub fn is_for_nonce(number: usize) -> bool {
    number >= ORDINARY
}

/// Room for a rule's variables, the ordinary ones and those for one nonce.
pub const OF_A_RULE: usize = 3 * VARIABLES;

/// The number of a rule's variable among them.
#[inline(always)]
pub fn of_a_rule(symbol: Symbol) -> usize {
    const ONE_SORT: usize = VARIABLES - 1;
    let number = variable_number(symbol);
    number & ONE_SORT | (number & ORDINARY) >> 1
}

/// A marked variable of a pattern.
#[inline(always)]
pub fn is_marked(symbol: Symbol) -> bool {
    let first = FIRST_PATTERN_MARK >> VALUE_BITS;
    let sort = symbol >> VALUE_BITS;
    sort == first || sort == first + (TO_NONCE >> VALUE_BITS)
}

impl Marks {
    /// Bit `mark` of some byte is set.
    #[inline(always)]
    fn has_some(&self, mark: u32) -> bool {
        let any = self.0.iter().fold(0, |any, eight| any | eight);
        any & 0x0101_0101_0101_0101 << mark != 0
    }

    /// Bit `mark` of each byte, gathered.
    #[inline(always)]
    fn entries_with(&self, mark: u32) -> u64 {
        let mut found = 0;
        for (i, eight) in self.0.iter().enumerate() {
            let bits = eight >> mark & 0x0101_0101_0101_0101;
            found |= (bits.wrapping_mul(0x0102_0408_1020_4080) >> 56) << (8 * i);
        }
        found
    }
}
