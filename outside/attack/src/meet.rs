//! What happens when a secret is derivable: the run becomes an attack.

use crate::access::Access;
use crate::rules::Copy;
use crate::run::{self, Taken};
use crate::search::Search;
use crate::solve::{Goal, Solution, MOST_SYMBOLS};
use crate::store::Id;
use crate::Attack;
use std::ops::ControlFlow;

/// How much work and how many runs are spent on a shorter one than the first.
const WORK_FOR_SHORTER: u64 = 2_000_000;
const MOST_ATTACKS: usize = 20;
/// Making an attack of a run is so much work for each two of its steps.
const WORK_FOR_TWO_STEPS: usize = 256;

impl Search<'_> {
    /// Every way to derive a secret from what the intruder has.
    pub fn look_for_secrets(&mut self, access: &Access) -> ControlFlow<()> {
        for secret in 0..self.secrets.len() {
            let goal = Goal {
                id: self.secrets[secret],
                level: access.level,
            };
            let solutions = self.solver.solutions(access, goal);
            let mut ways = solutions.iter();
            ways.try_for_each(|solution| self.meet(solution, secret))?;
        }
        ControlFlow::Continue(())
    }

    /// A run that derives the secret: the shortest one is kept, and the search
    /// goes on for a while, unless there can be no shorter one.
    fn meet(&mut self, solution: &Solution, secret: usize) -> ControlFlow<()> {
        let Some(attack) = self.attack(solution, secret) else {
            return ControlFlow::Continue(());
        };
        self.attacks += 1;
        let store = &mut self.solver.store;
        store.allow_only(WORK_FOR_SHORTER);
        store.works_through(WORK_FOR_TWO_STEPS * self.path.len().pow(2));
        let is_shortest = attack.steps.len() <= self.rules.steps();
        let best = self.found.take().into_iter().chain([attack]);
        self.found = best.min_by_key(run::length);
        match is_shortest || self.attacks == MOST_ATTACKS {
            true => ControlFlow::Break(()),
            false => ControlFlow::Continue(()),
        }
    }

    /// The run up to here with the solution's bindings, shortened; none if a
    /// message is too large.
    fn attack(&mut self, solution: &Solution, secret: usize) -> Option<Attack> {
        let mark = self.solver.store.mark();
        self.solver.store.apply_all(&solution.changes);
        let taken = self.taken();
        self.solver.store.undo(mark);
        let attack = run::attack(self.certificate, taken?, secret);
        let is_checked = cfg!(any(test, debug_assertions));
        assert!(!is_checked || attack.is_some(), "a solution is none");
        attack
    }

    /// The steps with messages for all variables; none if one is too large.
    fn taken(&mut self) -> Option<Vec<Taken>> {
        let store = &self.solver.store;
        let copies = self.path.iter().map(|place| self.rules.at(*place));
        let copies: Vec<&Copy> = copies.collect();
        let terms = |copy: &&Copy| copy.premise.into_iter().chain([copy.conclusion]);
        let mut terms = copies.iter().flat_map(terms);
        if terms.any(|id| store.is_larger(id, MOST_SYMBOLS)) {
            self.solver.too_large = true;
            return None;
        }
        let mut foreign = Vec::new();
        let mut message = |id: Id| run::message(store, id, &mut foreign);
        let step = |copy: &&Copy| {
            let variables = copy.variables.iter();
            Taken {
                rule: copy.rule,
                replacement: variables.map(|(v, id)| (v.clone(), message(*id))).collect(),
            }
        };
        Some(copies.iter().map(step).collect())
    }
}
