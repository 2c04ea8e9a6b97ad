//! What is derivable from what can be got out.

use crate::access::{Access, Closed};
use crate::store::{Id, Level, Node, Store, NEVER};
use crate::unify::{below, same_root};

impl Access {
    /// Those that are equal to this term.
    pub fn same_closed<'b>(&'b self, store: &'b Store, id: Id) -> impl Iterator<Item = &'b Closed> {
        let root = store.node_at(id);
        self.looks_through(store);
        self.closed.iter().filter(move |closed| {
            same_root(root, store.node_at(closed.id)) && store.same(closed.id, id)
        })
    }

    /// Those with the same root as this one that can be got out at the level
    /// and not be made.
    pub fn closed_like(&self, store: &Store, root: Node, level: Level) -> Vec<Closed> {
        let wanted = |closed: &&Closed| {
            closed.from <= level
                && level < closed.until
                && same_root(root, store.node_at(closed.id))
        };
        self.looks_through(store);
        self.closed.iter().filter(wanted).copied().collect()
    }

    /// Looking through the closed ones is work, though less for each.
    fn looks_through(&self, store: &Store) {
        store.works_through(self.closed.len() / 4);
    }

    /// The variables that can be got out at the level and need not be derivable
    /// without that: any message may stand for them. The others stand for a
    /// message that was derivable before they could be got out, so they give
    /// nothing that is not got without them.
    pub fn takers(&self, store: &Store, level: Level) -> Vec<(Id, Level)> {
        let takes = |(id, from): &&(Id, Level)| match store.node_at(store.resolve(*id)) {
            Node::Variable(variable) => *from <= level && *from <= store.level(variable),
            _ => false,
        };
        store.works_through(self.open.len() / 4);
        self.open.iter().filter(takes).copied().collect()
    }

    /// Whether this variable can be got out.
    pub fn is_open(&self, store: &Store, id: Id) -> bool {
        self.got(store, id) != NEVER
    }

    /// The level from which on this variable can be got out.
    fn got(&self, store: &Store, id: Id) -> Level {
        store.works_through(self.open.len() / 4);
        let same = |(open, _): &&(Id, Level)| store.resolve(*open) == id;
        let from = self.open.iter().filter(same).map(|(_, from)| *from);
        from.min().unwrap_or(NEVER)
    }

    /// The level from which on the term is derivable, whatever its variables
    /// are bound to.
    pub fn derivable(&self, store: &Store, id: Id) -> Level {
        if !store.works() {
            return NEVER;
        }
        let id = store.resolve(id);
        match store.node_at(id) {
            Node::Atom(number) => self.atom(number),
            Node::Variable(variable) => self.got(store, id).min(store.level(variable)),
            Node::Pair(left, right) => match self.derivable(store, left) {
                NEVER => NEVER,
                level => level.max(self.derivable(store, right)),
            },
            node => {
                let got = self.same_closed(store, id).map(|closed| closed.from).min();
                got.unwrap_or(NEVER).min(self.made(store, node))
            }
        }
    }

    /// The level from which on the intruder makes it from message and key.
    pub fn made(&self, store: &Store, node: Node) -> Level {
        match (key_for(node).map_or(0, |key| self.atom(key)), below(node)) {
            (NEVER, _) | (_, None) => NEVER,
            (level, Some(message)) => level.max(self.derivable(store, message)),
        }
    }
}

/// The key that the intruder needs to make an encryption or a signature.
pub fn key_for(node: Node) -> Option<u16> {
    match node {
        Node::Encryption(_, key) | Node::Signature(_, key) => Some(key),
        _ => None,
    }
}
