//! What can be got out of the messages that the intruder has, with the
//! variables bound as they are.
//!
//! Keys are atoms, and an atom is never made. So what can be got out does not
//! depend on what is still to be bound: no variable that stands for a derivable
//! message gives a key that is not derivable without it.

use crate::store::{Id, Level, Node, Store, NEVER};

/// An encryption, a hash or a signature that can be got out.
#[derive(Clone, Copy)]
pub struct Closed {
    pub id: Id,
    /// From this level on.
    pub from: Level,
    /// From this level on the intruder can make it as well.
    pub until: Level,
}

/// An encryption that is not opened: the key that would, and the message.
#[derive(Clone, Copy)]
struct Locked {
    opens: u16,
    message: Id,
}

#[derive(Clone)]
pub struct Access {
    /// How many messages of steps were taken apart.
    pub level: Level,
    /// For each atom the level from which on it is derivable.
    atoms: Vec<Level>,
    pub closed: Vec<Closed>,
    /// Variables that can be got out, and from which level on.
    pub open: Vec<(Id, Level)>,
    locked: Vec<Locked>,
}

impl Access {
    /// What the intruder has before the first step.
    pub fn new(store: &Store) -> Access {
        let level = |number: usize| match store.is_known(number as u16) {
            true => 0,
            false => NEVER,
        };
        Access {
            level: 0,
            atoms: (0..store.atoms.len()).map(level).collect(),
            closed: Vec::new(),
            open: Vec::new(),
            locked: Vec::new(),
        }
    }

    /// The same once more: work for each thing in it.
    pub fn copied(&self, store: &Store) -> Access {
        store.works_through(self.atoms.len() / 8 + self.closed.len() + self.locked.len() + 32);
        self.clone()
    }

    /// Takes one more message apart.
    pub fn extend(&mut self, store: &Store, message: Id) {
        self.level += 1;
        let (closed, mut reached) = (self.closed.len(), vec![message]);
        let mut has_new_atom = false;
        while let Some(id) = reached.pop() {
            has_new_atom |= self.reach(store, store.resolve(id), &mut reached);
        }
        self.retire(store, if has_new_atom { 0 } else { closed });
    }

    /// Takes one term apart, its parts are next; whether it is a new atom.
    fn reach(&mut self, store: &Store, id: Id, reached: &mut Vec<Id>) -> bool {
        if !store.works() {
            return false;
        }
        let node = store.node_at(id);
        match node {
            Node::Atom(number) => return self.reach_atom(number, reached),
            Node::Variable(_) if self.is_open(store, id) => {}
            Node::Variable(_) => self.open.push((id, self.level)),
            Node::Pair(left, right) => reached.extend([right, left]),
            _ if self.same_closed(store, id).next().is_some() => {}
            _ => {
                self.closed.push(Closed {
                    id,
                    from: self.level,
                    until: NEVER,
                });
                self.open_up(store, node, reached);
            }
        }
        false
    }

    fn reach_atom(&mut self, number: u16, reached: &mut Vec<Id>) -> bool {
        let is_new = self.atom(number) == NEVER;
        if is_new {
            self.atoms[number as usize] = self.level;
            let opened = self.locked.iter().filter(|locked| locked.opens == number);
            reached.extend(opened.map(|locked| locked.message));
        }
        is_new
    }

    fn open_up(&mut self, store: &Store, node: Node, reached: &mut Vec<Id>) {
        match node {
            Node::Signature(message, _) => reached.push(message),
            Node::Encryption(message, key) => {
                let opens = store.inverse(key);
                match self.atom(opens) {
                    NEVER => self.locked.push(Locked { opens, message }),
                    _ => reached.push(message),
                }
            }
            _ => {}
        }
    }

    /// Finds those that the intruder can make by now, from this one on. Those
    /// that it never had to get out are forgotten.
    fn retire(&mut self, store: &Store, first: usize) {
        for i in first..self.closed.len() {
            let Closed { id, until, .. } = self.closed[i];
            if until == NEVER && self.made(store, store.node_at(id)) <= self.level {
                self.closed[i].until = self.level;
            }
        }
        self.closed.retain(|closed| closed.from < closed.until);
    }

    pub fn atom(&self, number: u16) -> Level {
        self.atoms.get(number as usize).copied().unwrap_or(0)
    }
}
