//! The search: runs with one step of a rule with variables more each time.
//!
//! Steps of rules without variables are taken as soon as their premise is
//! derivable; that never harms. Left out are steps whose conclusion is
//! derivable without them, and of two steps that may change places all but the
//! order by rules: both lead where a run that is searched leads.

use crate::access::Access;
use crate::rules::{Place, Rules, GROUND};
use crate::solve::{Solver, MOST_SYMBOLS};
use crate::store::{Id, Level, Store};
use crate::{Attack, Bound, Outcome};
use literal::read::Certificate;
use std::ops::ControlFlow;

/// Runs with more steps of rules with variables are not begun.
const MOST_STEPS: usize = 6;
/// Pieces of work, most of them a pair of symbols compared.
const MOST_WORK: u64 = 30_000_000;

pub fn search(certificate: &Certificate) -> Outcome {
    let mut search = Search::new(certificate);
    loop {
        let is_through = search.searches_all();
        if let Some(attack) = search.found.take() {
            return Outcome::Found(attack);
        }
        if !is_through || !search.reached || search.rules.steps() == MOST_STEPS {
            return Outcome::NotFound(search.bound(is_through));
        }
        search.rules.add_step(&mut search.solver.store, certificate);
    }
}

/// How a run goes on: with so many steps of rules with variables, after what.
#[derive(Clone, Copy)]
pub struct Rest {
    pub left: usize,
    pub last: Option<Last>,
}

/// The step before: its rule, and how many messages there were without it.
#[derive(Clone, Copy)]
pub struct Last {
    pub rule: usize,
    pub level: Level,
}

pub struct Search<'a> {
    pub certificate: &'a Certificate,
    pub solver: Solver<'a>,
    pub rules: Rules,
    pub secrets: Vec<Id>,
    /// Which of the rules without variables were taken.
    pub fired: Vec<bool>,
    pub path: Vec<Place>,
    /// Whether a run with all its steps was met.
    reached: bool,
    /// The shortest attack so far, and how many there were.
    pub found: Option<Attack>,
    pub attacks: usize,
}

impl<'a> Search<'a> {
    fn new(certificate: &'a Certificate) -> Search<'a> {
        let mut store = Store::new(&certificate.atoms, MOST_WORK);
        let secrets = certificate.secrets.iter();
        let secrets = secrets.map(|secret| store.add(&secret.term, &mut Vec::new()));
        let secrets = secrets.collect();
        let rules = Rules::new(&mut store, certificate);
        let mut search = Search {
            certificate,
            fired: vec![false; rules.list(GROUND).len()],
            solver: Solver::new(store),
            rules,
            secrets,
            path: Vec::new(),
            reached: false,
            found: None,
            attacks: 0,
        };
        let mut base = search.solver.base.clone();
        search.saturate(&mut base);
        search.solver.base = base;
        search
    }

    /// Searches the runs with exactly the steps that the rules are copied for;
    /// whether to the end.
    fn searches_all(&mut self) -> bool {
        self.reached = false;
        let rest = Rest {
            left: self.rules.steps(),
            last: None,
        };
        let flow = self.visit(self.solver.base.clone(), rest);
        flow.is_continue() && !self.solver.store.is_spent()
    }

    /// What was searched, when the runs with these steps were the last.
    fn bound(&self, is_through: bool) -> Bound {
        let steps = self.rules.steps();
        Bound {
            steps: match is_through {
                true => Some(steps),
                false => steps.checked_sub(1),
            },
            whole: is_through && !self.reached,
            begun: !is_through,
            left_out_above: self.solver.too_large.then_some(MOST_SYMBOLS),
        }
    }

    /// The runs that go on from here.
    pub fn visit(&mut self, mut access: Access, rest: Rest) -> ControlFlow<()> {
        if self.solver.store.is_spent() {
            return ControlFlow::Break(());
        }
        let (steps, messages) = (self.path.len(), self.solver.messages.len());
        let fired = self.saturate(&mut access);
        let flow = self.look_around(&access, rest);
        self.path.truncate(steps);
        self.solver.messages.truncate(messages);
        fired.iter().for_each(|number| self.fired[*number] = false);
        flow
    }

    /// Takes every rule without variables whose premise is derivable as things
    /// are, until there is no more, and tells which.
    fn saturate(&mut self, access: &mut Access) -> Vec<usize> {
        let (mut fired, mut before) = (Vec::new(), usize::MAX);
        while fired.len() != before {
            before = fired.len();
            let numbers = 0..self.fired.len();
            fired.extend(numbers.filter(|number| self.fires(access, *number)));
        }
        fired
    }

    /// Takes this rule without variables, if that was not done and its premise
    /// is derivable; whether it was.
    fn fires(&mut self, access: &mut Access, number: usize) -> bool {
        let (store, list) = (&self.solver.store, GROUND);
        let place = Place { list, number };
        let copy = self.rules.at(place);
        let derivable = |id: Id| access.derivable(store, id) <= access.level;
        if self.fired[number] || !copy.premise.is_none_or(derivable) {
            return false;
        }
        self.fired[number] = true;
        if !derivable(copy.conclusion) {
            access.extend(store, copy.conclusion);
            self.solver.messages.push(copy.conclusion);
            self.path.push(place);
        }
        true
    }

    fn look_around(&mut self, access: &Access, rest: Rest) -> ControlFlow<()> {
        let taken = self.rules.steps() - rest.left;
        self.solver.fresh = self.rules.variables_up_to(taken);
        if rest.left == 0 {
            self.reached = true;
            self.look_for_secrets(access)?;
        }
        self.branch(access, GROUND, rest)?;
        match rest.left.checked_sub(1) {
            Some(left) => self.branch(access, taken + 1, Rest { left, ..rest }),
            None => ControlFlow::Continue(()),
        }
    }
}
