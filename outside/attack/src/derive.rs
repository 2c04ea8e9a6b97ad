//! Whether the intruder derives a message from messages, and by which moves.
//!
//! Every message that a derivation without detours meets is a part of what the
//! intruder has, a part of the goal, or a key. Each of these gets the number
//! of moves of its shortest derivation, or none.

use crate::{Derivation, Move};
use literal::atom::Atom;
use literal::numbers::{tag, FIRST_FOREIGN};
use literal::Term;
use std::collections::HashMap;

/// The moves that derive the goal from the known and the foreign atoms and
/// what the intruder has besides; none if it is not derivable.
pub fn derive(atoms: &[Atom], has: &[Term], goal: &Term) -> Option<Derivation> {
    let listed: Vec<Term> = (0..atoms.len() as u16).map(Term::Atom).collect();
    let mut table = Table {
        atoms,
        listed: &listed,
        rows: Vec::new(),
        numbers: HashMap::new(),
    };
    has.iter().for_each(|message| table.has(message));
    let goal = table.add(goal);
    while table.improve() {}
    table.rows[goal].best.as_ref()?;
    let mut moves = Vec::new();
    table.tell(goal, &mut moves);
    Some(Derivation { moves })
}

/// What tells a message from others: its root's tag and number, and the rows
/// of its parts.
type Shape = (u8, u16, Option<usize>, Option<usize>);

/// A message, the rows of its parts, and those of the key that makes it and of
/// the key that opens it.
struct Row<'a> {
    message: &'a Term,
    left: Option<usize>,
    right: Option<usize>,
    makes: Option<usize>,
    opens: Option<usize>,
    best: Option<Best>,
}

/// The cheapest last move so far by its kind and the row that it names, the
/// rows that it is from, and how many moves there are with it, counted anew
/// for each use.
struct Best {
    last: Last,
    named: usize,
    from: Vec<usize>,
    moves: u64,
}

/// A kind of move, by the message that it names.
type Last = fn(Term) -> Move;

struct Table<'a> {
    atoms: &'a [Atom],
    /// The listed atoms as messages.
    listed: &'a [Term],
    rows: Vec<Row<'a>>,
    numbers: HashMap<Shape, usize>,
}

impl<'a> Table<'a> {
    fn has(&mut self, message: &'a Term) {
        let row = self.add(message);
        self.begin(row);
    }

    /// The row of the message, with rows for its parts and keys.
    fn add(&mut self, message: &'a Term) -> usize {
        let mut parts = message.parts().map(|part| self.add(part));
        let (left, right) = (parts.next(), parts.next());
        drop(parts);
        let (tag, number) = root(message);
        let shape = (tag, number, left, right);
        if let Some(row) = self.numbers.get(&shape) {
            return *row;
        }
        let (makes, opens) = self.keys(message);
        let row = self.rows.len();
        self.numbers.insert(shape, row);
        self.rows.push(Row {
            message,
            left,
            right,
            makes,
            opens,
            best: None,
        });
        if tag == tag::ATOM && self.is_known(number) {
            self.begin(row);
        }
        row
    }

    fn keys(&mut self, message: &Term) -> (Option<usize>, Option<usize>) {
        match message {
            Term::Encryption(_, key) => {
                let partner = self.atoms.get(*key as usize).map(|atom| atom.partner);
                let opens = partner.and_then(|number| self.add_listed(number));
                (self.add_listed(*key), opens)
            }
            Term::Signature(_, key) => (self.add_listed(*key), None),
            _ => (None, None),
        }
    }

    fn add_listed(&mut self, number: u16) -> Option<usize> {
        let atom = self.listed.get(number as usize)?;
        Some(self.add(atom))
    }

    fn is_known(&self, number: u16) -> bool {
        let atom = self.atoms.get(number as usize);
        number >= FIRST_FOREIGN || atom.is_some_and(|atom| atom.known == 1)
    }

    /// The intruder has the message of this row.
    fn begin(&mut self, row: usize) {
        self.offer(row, row, Move::Has, &[]);
    }

    /// Takes the move on a row's message as the way to another row, if it is the
    /// first or cheaper; whether it was taken.
    fn offer(&mut self, row: usize, named: usize, last: Last, from: &[usize]) -> bool {
        let cost = |row: &usize| self.rows[*row].best.as_ref().map(|best| best.moves);
        let add = |sum: u64, cost: Option<u64>| Some(sum.saturating_add(cost?));
        let Some(moves) = from.iter().map(cost).try_fold(1, add) else {
            return false;
        };
        let best = self.rows[row].best.as_ref();
        let is_better = best.is_none_or(|best| moves < best.moves);
        if is_better {
            self.rows[row].best = Some(Best {
                last,
                named,
                from: from.to_vec(),
                moves,
            });
        }
        is_better
    }

    /// Offers every move, parts before what is made of them and what is taken
    /// apart before its parts; whether one was taken.
    fn improve(&mut self) -> bool {
        let rows = 0..self.rows.len();
        let made = rows.clone().filter(|row| self.made(*row)).count();
        let taken_apart = rows.rev().filter(|row| self.taken_apart(*row)).count();
        made + taken_apart > 0
    }

    fn made(&mut self, row: usize) -> bool {
        let Row {
            message,
            left,
            right,
            makes,
            ..
        } = self.rows[row];
        match (message, left, right.or(makes)) {
            (Term::Pair(..), Some(a), Some(b)) => self.offer(row, row, Move::Pairs, &[a, b]),
            (Term::Encryption(..), Some(a), Some(key)) => {
                self.offer(row, row, Move::Encrypts, &[a, key])
            }
            (Term::Signature(..), Some(a), Some(key)) => {
                self.offer(row, row, Move::Signs, &[a, key])
            }
            (Term::Hash(_), Some(a), _) => self.offer(row, row, Move::Hashes, &[a]),
            _ => false,
        }
    }

    fn taken_apart(&mut self, row: usize) -> bool {
        let Row {
            message,
            left,
            right,
            opens,
            ..
        } = self.rows[row];
        match (message, left, right.or(opens)) {
            (Term::Pair(..), Some(a), Some(b)) => {
                let split = self.offer(a, row, Move::Left, &[row]);
                self.offer(b, row, Move::Right, &[row]) || split
            }
            (Term::Encryption(..), Some(a), Some(key)) => {
                self.offer(a, row, Move::Decrypts, &[row, key])
            }
            (Term::Signature(..), Some(a), _) => self.offer(a, row, Move::Reads, &[row]),
            _ => false,
        }
    }

    /// Adds the moves that give this row's message, each once.
    fn tell(&self, row: usize, moves: &mut Vec<Move>) {
        let Row { message, best, .. } = &self.rows[row];
        let Some(best) = best else { return };
        if moves.iter().any(|told| told.derived() == *message) {
            return;
        }
        for earlier in &best.from {
            self.tell(*earlier, moves);
        }
        let named = self.rows[best.named].message;
        moves.push((best.last)(named.clone()));
    }
}

/// The tag and the number at the message's root.
fn root(message: &Term) -> (u8, u16) {
    match message {
        Term::Atom(number) => (tag::ATOM, *number),
        Term::Encryption(_, key) => (tag::ENCRYPTION, *key),
        Term::Signature(_, key) => (tag::SIGNATURE, *key),
        Term::Hash(_) => (tag::HASH, 0),
        _ => (tag::PAIR, 0),
    }
}
