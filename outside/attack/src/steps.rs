//! One more step of a run: which rule, with which bindings.

use crate::access::Access;
use crate::rules::{Place, GROUND};
use crate::search::{Last, Rest, Search};
use crate::solve::{Goal, Solution, MOST_SYMBOLS};
use crate::store::Change;
use std::ops::ControlFlow;

impl Search<'_> {
    /// Every rule of the list as the next step.
    pub fn branch(&mut self, access: &Access, list: usize, rest: Rest) -> ControlFlow<()> {
        for number in 0..self.rules.list(list).len() {
            if list != GROUND || !self.fired[number] {
                self.try_rule(access, Place { list, number }, rest)?;
            }
        }
        ControlFlow::Continue(())
    }

    /// The rule as the next step, by each solution of its premise.
    fn try_rule(&mut self, access: &Access, place: Place, rest: Rest) -> ControlFlow<()> {
        let copy = self.rules.at(place);
        let (rule, level) = (copy.rule, access.level);
        let solutions = match copy.premise {
            Some(id) => self.solver.solutions(access, Goal { id, level }),
            None => vec![Solution::default()],
        };
        let could_be_before = |solution: &&Solution| {
            let last = rest.last.as_ref();
            last.is_some_and(|last| rule < last.rule && solution.used <= last.level)
        };
        for solution in solutions.iter().filter(|one| !could_be_before(one)) {
            let (mark, fresh) = (self.solver.store.mark(), self.solver.fresh);
            self.take(access, place, solution, rest.left)?;
            self.solver.store.undo(mark);
            self.solver.fresh = fresh;
        }
        ControlFlow::Continue(())
    }

    /// One more step, unless it gives nothing new.
    fn take(
        &mut self,
        access: &Access,
        place: Place,
        solution: &Solution,
        left: usize,
    ) -> ControlFlow<()> {
        let access = self.applied(access, solution);
        let (store, copy) = (&self.solver.store, self.rules.at(place));
        if access.derivable(store, copy.conclusion) <= access.level {
            return ControlFlow::Continue(());
        }
        if store.is_larger(copy.conclusion, MOST_SYMBOLS) {
            self.solver.too_large = true;
            return ControlFlow::Continue(());
        }
        let (rule, level) = (copy.rule, access.level);
        let last = Some(Last { rule, level });
        self.go_on(access, place, Rest { left, last })
    }

    /// Binds what the solution says, and what can be got out then.
    fn applied(&mut self, access: &Access, solution: &Solution) -> Access {
        self.solver.store.apply_all(&solution.changes);
        let fresh = self.solver.fresh;
        let is_touched = |change: &Change| matches!(change, Change::Bound(v, _) if *v < fresh);
        match solution.changes.iter().any(is_touched) {
            true => self.solver.access(),
            false => access.copied(&self.solver.store),
        }
    }

    /// Adds the step's conclusion; a rule without variables is taken once.
    fn go_on(&mut self, mut access: Access, place: Place, rest: Rest) -> ControlFlow<()> {
        let conclusion = self.rules.at(place).conclusion;
        access.extend(&self.solver.store, conclusion);
        self.solver.messages.push(conclusion);
        self.path.push(place);
        self.set_fired(place, true);
        let flow = self.visit(access, rest);
        self.set_fired(place, false);
        self.path.pop();
        self.solver.messages.pop();
        flow
    }

    fn set_fired(&mut self, place: Place, is_fired: bool) {
        if place.list == GROUND {
            self.fired[place.number] = is_fired;
        }
    }
}
