//! Whether messages are derivable, without the moves; quicker than `derive`.

use crate::message::inverse;
use crate::store::{Id, Node};
use literal::atom::Atom;
use literal::Term;
use std::collections::HashMap;

/// Messages and their parts, each once.
pub struct Messages<'a> {
    atoms: &'a [Atom],
    nodes: Vec<Node>,
    numbers: HashMap<Node, Id>,
}

impl<'a> Messages<'a> {
    pub fn new(atoms: &'a [Atom]) -> Messages<'a> {
        Messages {
            atoms,
            nodes: Vec::new(),
            numbers: HashMap::new(),
        }
    }

    pub fn add(&mut self, message: &Term) -> Id {
        let mut parts = message.parts().map(|part| self.add(part));
        let node = match (message, parts.next(), parts.next()) {
            (Term::Encryption(_, key), Some(message), _) => Node::Encryption(message, *key),
            (Term::Signature(_, key), Some(message), _) => Node::Signature(message, *key),
            (_, Some(left), Some(right)) => Node::Pair(left, right),
            (_, Some(message), None) => Node::Hash(message),
            (Term::Atom(number), ..) => Node::Atom(*number),
            (variable, ..) => unreachable!("{variable:?} in a message"),
        };
        drop(parts);
        let next = self.nodes.len();
        let id = *self.numbers.entry(node).or_insert(next);
        if id == next {
            self.nodes.push(node);
        }
        id
    }
}

/// What the intruder has and gets out of it.
pub struct Got<'a> {
    messages: &'a Messages<'a>,
    got: Vec<bool>,
    /// Of the listed atoms those that it has.
    atoms: Vec<bool>,
    /// What is not opened: the key that would, and the message.
    locked: Vec<(u16, Id)>,
}

impl<'a> Got<'a> {
    pub fn new(messages: &'a Messages<'a>) -> Got<'a> {
        Got {
            messages,
            got: vec![false; messages.nodes.len()],
            atoms: messages.atoms.iter().map(|atom| atom.known == 1).collect(),
            locked: Vec::new(),
        }
    }

    pub fn add(&mut self, message: Id) {
        let mut reached = vec![message];
        while let Some(id) = reached.pop() {
            if !std::mem::replace(&mut self.got[id], true) {
                self.take_apart(id, &mut reached);
            }
        }
    }

    fn take_apart(&mut self, id: Id, reached: &mut Vec<Id>) {
        match self.messages.nodes[id] {
            Node::Atom(number) if !self.has(number) => {
                self.atoms[number as usize] = true;
                let opened = self.locked.iter().filter(|(opens, _)| *opens == number);
                reached.extend(opened.map(|(_, message)| *message));
            }
            Node::Pair(left, right) => reached.extend([left, right]),
            Node::Signature(message, _) => reached.push(message),
            Node::Encryption(message, key) => match inverse(self.messages.atoms, key) {
                Some(Term::Atom(opens)) if !self.has(opens) => self.locked.push((opens, message)),
                _ => reached.push(message),
            },
            _ => {}
        }
    }

    /// Foreign atoms too.
    fn has(&self, atom: u16) -> bool {
        self.atoms.get(atom as usize).copied().unwrap_or(true)
    }

    pub fn derives(&self, id: Id) -> bool {
        let made = || match self.messages.nodes[id] {
            Node::Atom(number) => self.has(number),
            Node::Pair(left, right) => self.derives(left) && self.derives(right),
            Node::Encryption(message, key) | Node::Signature(message, key) => {
                self.has(key) && self.derives(message)
            }
            Node::Hash(message) => self.derives(message),
            Node::Variable(_) => false,
        };
        self.got[id] || made()
    }
}
