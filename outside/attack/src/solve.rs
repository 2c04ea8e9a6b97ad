//! Every way to bind variables so that a term becomes derivable, after
//! J. Millen and V. Shmatikov, CCS 2001: a variable that has to be derivable is
//! left as it is, anything else is got out of what the intruder has or made.

use crate::access::Access;
use crate::derivable::key_for;
use crate::store::{Change, Id, Level, Node, Store, NEVER};
use crate::unify::below;

/// Runs with a message of more symbols are left out.
pub const MOST_SYMBOLS: usize = 500;
/// An agenda copied and gone through is so much work.
const WORK_FOR_A_WAY: usize = 16;

/// A term that has to be derivable from so many messages of steps.
#[derive(Clone, Copy, Debug)]
pub struct Goal {
    pub id: Id,
    pub level: Level,
}

/// What to bind, and the level from which on the goal is derivable then.
#[derive(Clone, Debug, Default, PartialEq, Eq)]
pub struct Solution {
    pub changes: Vec<Change>,
    pub used: Level,
}

/// Goals that are not settled yet; those with several ways wait.
#[derive(Clone, Default)]
struct Agenda {
    next: Vec<Goal>,
    waiting: Vec<Goal>,
    used: Level,
}

pub struct Solver<'a> {
    pub store: Store<'a>,
    /// What the intruder has from steps, and what can be got out of the first
    /// of these messages, which hold no variables.
    pub messages: Vec<Id>,
    pub base: Access,
    /// No variable from this one on stands in these messages.
    pub fresh: usize,
    /// Whether something was left out because a message is too large.
    pub too_large: bool,
}

impl Agenda {
    /// The halves of a pair, or the message.
    fn add_parts(&mut self, node: Node, level: Level) {
        match node {
            Node::Pair(left, right) => {
                let half = |id| Goal { id, level };
                self.next.extend([half(right), half(left)]);
            }
            _ => self.next.extend(below(node).map(|id| Goal { id, level })),
        }
    }
}

/// The ways found so far, with the changes after the mark.
struct Found {
    mark: usize,
    solutions: Vec<Solution>,
}

impl<'a> Solver<'a> {
    pub fn new(store: Store<'a>) -> Solver<'a> {
        Solver {
            base: Access::new(&store),
            store,
            messages: Vec::new(),
            fresh: 0,
            too_large: false,
        }
    }

    /// The solutions; every instance that makes the goal derivable is an
    /// instance of one of these.
    pub fn solutions(&mut self, access: &Access, goal: Goal) -> Vec<Solution> {
        let mut found = Found {
            mark: self.store.mark(),
            solutions: Vec::new(),
        };
        let agenda = Agenda {
            next: vec![goal],
            ..Agenda::default()
        };
        self.go_on(access, agenda, &mut found);
        self.store.undo(found.mark);
        found.solutions
    }

    fn go_on(&mut self, access: &Access, mut agenda: Agenda, found: &mut Found) {
        self.store.works_through(WORK_FOR_A_WAY);
        while let Some(goal) = agenda.next.pop() {
            if !self.settle(access, goal, &mut agenda) {
                return;
            }
        }
        match agenda.waiting.pop() {
            Some(goal) => self.try_all(access, &agenda, goal, found),
            None => found.add(&self.store, agenda.used),
        }
    }

    /// Settles the goal, or lets it wait; false if it cannot be reached.
    fn settle(&mut self, access: &Access, goal: Goal, agenda: &mut Agenda) -> bool {
        let id = self.store.resolve(goal.id);
        let level = access.derivable(&self.store, id);
        if level <= goal.level {
            agenda.used = agenda.used.max(level);
            return true;
        }
        let has_takers = || !access.takers(&self.store, goal.level).is_empty();
        match self.store.node_at(id) {
            Node::Variable(variable) => {
                // Its message may be made of all that there is at the level.
                agenda.used = agenda.used.max(goal.level);
                self.store.lower(variable, goal.level);
            }
            node @ Node::Pair(..) if !has_takers() => agenda.add_parts(node, goal.level),
            Node::Atom(_) if !has_takers() => return false,
            _ => agenda.waiting.push(goal),
        }
        !self.store.is_spent()
    }

    /// Every way to reach a goal that is no variable.
    fn try_all(&mut self, access: &Access, agenda: &Agenda, goal: Goal, found: &mut Found) {
        let level = access.derivable(&self.store, goal.id);
        if level <= goal.level {
            let used = agenda.used.max(level);
            let agenda = Agenda {
                used,
                ..agenda.clone()
            };
            return self.go_on(access, agenda, found);
        }
        self.try_to_make(access, agenda, goal, found);
        let root = self.store.node_at(self.store.resolve(goal.id));
        let closed = access.closed_like(&self.store, root, goal.level);
        let got = closed.iter().map(|closed| (closed.id, closed.from));
        let takers = access.takers(&self.store, goal.level);
        for (id, from) in got.chain(takers) {
            let mark = self.store.mark();
            self.try_to_get(access, agenda, goal, (id, from), found);
            self.store.undo(mark);
        }
    }

    /// From its parts and the key.
    fn try_to_make(&mut self, access: &Access, agenda: &Agenda, goal: Goal, found: &mut Found) {
        let root = self.store.node_at(self.store.resolve(goal.id));
        let key = key_for(root).map_or(0, |key| access.atom(key));
        if matches!(root, Node::Atom(_)) || key > goal.level {
            return;
        }
        let mut agenda = agenda.clone();
        agenda.used = agenda.used.max(key);
        agenda.add_parts(root, goal.level);
        let mark = self.store.mark();
        self.go_on(access, agenda, found);
        self.store.undo(mark);
    }

    /// As a term that can be got out from a level on, made equal to the goal.
    fn try_to_get(
        &mut self,
        access: &Access,
        agenda: &Agenda,
        goal: Goal,
        (id, from): (Id, Level),
        found: &mut Found,
    ) {
        let mark = self.store.mark();
        if !self.store.unify(id, goal.id) {
            return;
        }
        let mut agenda = agenda.clone();
        agenda.used = agenda.used.max(from);
        agenda.next.extend(self.woken(mark));
        let is_touched = |(variable, _)| variable < self.fresh;
        let is_touched = self.store.bound_since(mark).any(is_touched);
        match is_touched {
            true if self.has_grown() => self.too_large = true,
            true => self.go_on(&self.access(), agenda, found),
            false => self.go_on(access, agenda, found),
        }
    }

    /// What has to be derivable for variables that were bound after the mark.
    fn woken(&self, mark: usize) -> Vec<Goal> {
        let goals = self.store.bound_since(mark).map(|(variable, id)| Goal {
            id,
            level: self.store.level(variable),
        });
        goals.filter(|goal| goal.level != NEVER).collect()
    }

    /// Whether a message is too large with the variables bound as now.
    fn has_grown(&self) -> bool {
        let mut messages = self.messages[self.base.level..].iter();
        messages.any(|message| self.store.is_larger(*message, MOST_SYMBOLS))
    }

    /// What can be got out of the messages, with the variables bound as now.
    pub fn access(&self) -> Access {
        let mut access = self.base.copied(&self.store);
        for message in &self.messages[self.base.level..] {
            access.extend(&self.store, *message);
        }
        access
    }
}

impl Found {
    fn add(&mut self, store: &Store, used: Level) {
        let changes = store.changes(self.mark);
        store.works_through(self.solutions.len());
        if !self.solutions.iter().any(|there| there.changes == changes) {
            self.solutions.push(Solution { changes, used });
        }
    }
}
