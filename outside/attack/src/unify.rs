//! Making two terms equal by binding variables, and what is asked of terms
//! with bound variables.

use crate::store::{Id, Node, Store};
use literal::atom::is_nonce;

impl Store<'_> {
    /// Binds variables so that the two terms are equal, as few as needed; false
    /// if nothing makes them equal, some variables may be bound then.
    pub fn unify(&mut self, one: Id, other: Id) -> bool {
        let (one, other) = (self.resolve(one), self.resolve(other));
        if one == other {
            return true;
        }
        if !self.works() {
            return false;
        }
        match (self.node_at(one), self.node_at(other)) {
            (Node::Variable(first), Node::Variable(second)) => self.join(first, second, one, other),
            (Node::Variable(variable), _) => self.put(variable, other),
            (_, Node::Variable(variable)) => self.put(variable, one),
            (Node::Pair(a, b), Node::Pair(c, d)) => self.unify(a, c) && self.unify(b, d),
            (first, second) => match (below(first), below(second)) {
                (Some(a), Some(b)) => same_root(first, second) && self.unify(a, b),
                _ => first == second,
            },
        }
    }

    /// Of two variables the later one goes, but one for nonces stays.
    fn join(&mut self, first: usize, second: usize, one: Id, other: Id) -> bool {
        let first_stays = match (self.is_for_nonces(first), self.is_for_nonces(second)) {
            (true, false) => true,
            (false, true) => false,
            _ => first < second,
        };
        match first_stays {
            true => self.bind(second, one),
            false => self.bind(first, other),
        }
        true
    }

    /// Binds the variable to a term that is none, if it may stand there.
    fn put(&mut self, variable: usize, id: Id) -> bool {
        let may_stand = match self.node_at(id) {
            Node::Atom(number) => !self.is_for_nonces(variable) || is_nonce(self.atoms, number),
            _ => !self.is_for_nonces(variable) && !self.holds(id, variable),
        };
        if may_stand {
            self.bind(variable, id);
        }
        may_stand
    }

    /// Whether the variable stands in the term.
    fn holds(&self, id: Id, variable: usize) -> bool {
        let id = self.resolve(id);
        if !self.works() {
            return false;
        }
        match self.node_at(id) {
            Node::Variable(other) => other == variable,
            Node::Pair(left, right) => self.holds(left, variable) || self.holds(right, variable),
            node => below(node).is_some_and(|message| self.holds(message, variable)),
        }
    }

    /// Whether the two terms are equal, symbol for symbol.
    pub fn same(&self, one: Id, other: Id) -> bool {
        let (one, other) = (self.resolve(one), self.resolve(other));
        if one == other {
            return true;
        }
        if !self.works() {
            return false;
        }
        match (self.node_at(one), self.node_at(other)) {
            (Node::Pair(a, b), Node::Pair(c, d)) => self.same(a, c) && self.same(b, d),
            (first, second) => match (below(first), below(second)) {
                (Some(a), Some(b)) => same_root(first, second) && self.same(a, b),
                _ => first == second,
            },
        }
    }

    /// Whether the term has more symbols than this, variables replaced.
    pub fn is_larger(&self, id: Id, symbols: usize) -> bool {
        self.symbols_left(id, symbols).is_none()
    }

    /// What is left of so many symbols after those of the term.
    fn symbols_left(&self, id: Id, symbols: usize) -> Option<usize> {
        let left = symbols.checked_sub(1)?;
        self.works_through(1);
        match self.node_at(self.resolve(id)) {
            Node::Pair(first, second) => {
                let left = self.symbols_left(first, left)?;
                self.symbols_left(second, left)
            }
            node => match below(node) {
                Some(message) => self.symbols_left(message, left),
                None => Some(left),
            },
        }
    }
}

/// The message of an encryption, a hash or a signature.
pub fn below(node: Node) -> Option<Id> {
    match node {
        Node::Encryption(message, _) | Node::Signature(message, _) => Some(message),
        Node::Hash(message) => Some(message),
        _ => None,
    }
}

/// Whether two roots are of one form and have the same key.
pub fn same_root(one: Node, other: Node) -> bool {
    match (one, other) {
        (Node::Encryption(_, key), Node::Encryption(_, other)) => key == other,
        (Node::Signature(_, key), Node::Signature(_, other)) => key == other,
        (Node::Hash(_), Node::Hash(_)) => true,
        _ => false,
    }
}
