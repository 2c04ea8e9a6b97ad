//! Terms with variables as numbers, what the variables are bound to, and how
//! much work was done with them.

use crate::message::inverse;
use literal::atom::Atom;
use literal::numbers::FIRST_FOREIGN;
use literal::Term;
use std::cell::Cell;

/// The number of a term's root among the nodes.
pub type Id = usize;

/// How many messages of steps the intruder has.
pub type Level = usize;

/// The level that is never reached; of a variable: nothing asks that its
/// message is derivable.
pub const NEVER: Level = usize::MAX;

#[derive(Clone, Copy, Debug, PartialEq, Eq, Hash)]
pub enum Node {
    Atom(u16),
    Variable(usize),
    Pair(Id, Id),
    /// The message and the key.
    Encryption(Id, u16),
    Hash(Id),
    Signature(Id, u16),
}

struct Variable {
    is_nonce: bool,
    bound: Option<Id>,
    /// Its message has to be derivable from so many messages of steps.
    level: Level,
}

/// What a variable got, or in the trail what it had before.
#[derive(Clone, Copy, Debug, PartialEq, Eq)]
pub enum Change {
    Bound(usize, Id),
    Level(usize, Level),
}

pub struct Store<'a> {
    pub atoms: &'a [Atom],
    nodes: Vec<Node>,
    variables: Vec<Variable>,
    trail: Vec<Change>,
    work: Cell<u64>,
    most_work: u64,
}

impl<'a> Store<'a> {
    pub fn new(atoms: &'a [Atom], most_work: u64) -> Store<'a> {
        Store {
            atoms,
            nodes: Vec::new(),
            variables: Vec::new(),
            trail: Vec::new(),
            work: Cell::new(0),
            most_work,
        }
    }

    /// One more piece of work; whether it is still allowed.
    pub fn works(&self) -> bool {
        self.works_through(1);
        !self.is_spent()
    }

    /// So many pieces more.
    pub fn works_through(&self, pieces: usize) {
        self.work.set(self.work.get() + pieces as u64);
    }

    /// From now on so many pieces at most.
    pub fn allow_only(&mut self, pieces: u64) {
        self.most_work = self.most_work.min(self.work.get() + pieces);
    }

    /// Whether the work allowed for a search was done.
    pub fn is_spent(&self) -> bool {
        self.work.get() > self.most_work
    }

    /// The term as nodes; `named` has the variables that it shares with others.
    pub fn add(&mut self, term: &Term, named: &mut Vec<(Term, Id)>) -> Id {
        let parts: Vec<Id> = term.parts().map(|part| self.add(part, named)).collect();
        let node = match (term, &parts[..]) {
            (Term::Atom(number), _) => Node::Atom(*number),
            (Term::Encryption(_, key), [message]) => Node::Encryption(*message, *key),
            (Term::Signature(_, key), [message]) => Node::Signature(*message, *key),
            (_, [left, right]) => Node::Pair(*left, *right),
            (_, [message]) => Node::Hash(*message),
            _ => return self.variable(term, named),
        };
        self.node(node)
    }

    fn variable(&mut self, term: &Term, named: &mut Vec<(Term, Id)>) -> Id {
        if let Some((_, id)) = named.iter().find(|(name, _)| name == term) {
            return *id;
        }
        let id = self.node(Node::Variable(self.variables.len()));
        self.variables.push(Variable {
            is_nonce: term.is_nonce_variable(),
            bound: None,
            level: NEVER,
        });
        named.push((term.clone(), id));
        id
    }

    fn node(&mut self, node: Node) -> Id {
        self.nodes.push(node);
        self.nodes.len() - 1
    }

    pub fn count_variables(&self) -> usize {
        self.variables.len()
    }

    /// What the term is, bound variables left out.
    pub fn resolve(&self, id: Id) -> Id {
        let mut at = id;
        while let Node::Variable(variable) = self.nodes[at] {
            match self.variables[variable].bound {
                Some(next) => at = next,
                None => return at,
            }
        }
        at
    }

    /// The node behind a resolved number.
    pub fn node_at(&self, id: Id) -> Node {
        self.nodes[id]
    }

    pub fn level(&self, variable: usize) -> Level {
        self.variables[variable].level
    }

    pub fn is_for_nonces(&self, variable: usize) -> bool {
        self.variables[variable].is_nonce
    }

    pub fn is_known(&self, number: u16) -> bool {
        let atom = self.atoms.get(number as usize);
        number >= FIRST_FOREIGN || atom.is_some_and(|atom| atom.known == 1)
    }

    /// The number of the key that opens what is encrypted under this one.
    pub fn inverse(&self, key: u16) -> u16 {
        match inverse(self.atoms, key) {
            Some(Term::Atom(number)) => number,
            _ => key,
        }
    }

    pub fn bind(&mut self, variable: usize, id: Id) {
        self.apply(Change::Bound(variable, id));
    }

    /// The variable's message has to be derivable at this level.
    pub fn lower(&mut self, variable: usize, level: Level) {
        if level < self.variables[variable].level {
            self.apply(Change::Level(variable, level));
        }
    }

    /// Changes a variable and keeps in the trail what it had before.
    fn apply(&mut self, change: Change) {
        match change {
            Change::Bound(variable, id) => {
                self.trail.push(change);
                self.variables[variable].bound = Some(id);
            }
            Change::Level(variable, level) => {
                let before = self.variables[variable].level;
                self.trail.push(Change::Level(variable, before));
                self.variables[variable].level = level;
            }
        }
    }

    pub fn apply_all(&mut self, changes: &[Change]) {
        changes.iter().for_each(|change| self.apply(*change));
    }

    /// How many changes there are so far.
    pub fn mark(&self) -> usize {
        self.trail.len()
    }

    /// Takes back the changes after the mark, the last one first.
    pub fn undo(&mut self, mark: usize) {
        for change in self.trail.drain(mark..).rev() {
            match change {
                Change::Bound(variable, _) => self.variables[variable].bound = None,
                Change::Level(variable, before) => self.variables[variable].level = before,
            }
        }
    }

    /// The changes after the mark, with what the variables have now.
    pub fn changes(&self, mark: usize) -> Vec<Change> {
        let now = |change: &Change| match change {
            Change::Bound(..) => *change,
            Change::Level(variable, _) => Change::Level(*variable, self.level(*variable)),
        };
        self.trail[mark..].iter().map(now).collect()
    }

    /// The variables bound after the mark.
    pub fn bound_since(&self, mark: usize) -> impl Iterator<Item = (usize, Id)> + '_ {
        self.trail[mark..].iter().filter_map(|change| match change {
            Change::Bound(variable, id) => Some((*variable, *id)),
            Change::Level(..) => None,
        })
    }
}
