//! The rules as the search takes them: each step has variables of its own.

use crate::message::{renumbered, variables};
use crate::store::{Id, Store};
use literal::read::{Certificate, Rule};
use literal::Term;

/// A rule with variables of its own.
pub struct Copy {
    pub rule: usize,
    pub premise: Option<Id>,
    pub conclusion: Id,
    /// The rule's variables in order of first occurrence, premise first.
    pub variables: Vec<(Term, Id)>,
}

/// A copy: its list, and its place in it.
#[derive(Clone, Copy)]
pub struct Place {
    pub list: usize,
    pub number: usize,
}

/// The list of the rules without variables.
pub const GROUND: usize = 0;

/// First the rules without variables; then those with variables, once more for
/// each step that a run may have. Of rules that are alike the first alone.
pub struct Rules {
    lists: Vec<Vec<Copy>>,
    /// How many variables there are with this list and those before it.
    variables: Vec<usize>,
}

impl Rules {
    pub fn new(store: &mut Store, certificate: &Certificate) -> Rules {
        let mut rules = Rules {
            lists: Vec::new(),
            variables: Vec::new(),
        };
        rules.add(store, certificate, |rule| variables(rule).is_empty());
        rules
    }

    /// One step more.
    pub fn add_step(&mut self, store: &mut Store, certificate: &Certificate) {
        self.add(store, certificate, |rule| !variables(rule).is_empty());
    }

    fn add(
        &mut self,
        store: &mut Store,
        certificate: &Certificate,
        wanted: impl Fn(&Rule) -> bool,
    ) {
        let rules = different(&certificate.rules);
        let copies = rules.filter(|(_, rule)| wanted(rule));
        let copies = copies.map(|(number, rule)| copy(store, number, rule));
        self.lists.push(copies.collect());
        self.variables.push(store.count_variables());
    }

    /// How many steps of rules with variables a run may have.
    pub fn steps(&self) -> usize {
        self.lists.len() - 1
    }

    pub fn list(&self, list: usize) -> &[Copy] {
        &self.lists[list]
    }

    pub fn at(&self, place: Place) -> &Copy {
        &self.lists[place.list][place.number]
    }

    /// How many variables there are with this list and those before it.
    pub fn variables_up_to(&self, list: usize) -> usize {
        self.variables[list]
    }
}

fn copy(store: &mut Store, number: usize, rule: &Rule) -> Copy {
    let mut variables = Vec::new();
    let premise = rule.premise.as_ref();
    Copy {
        rule: number,
        premise: premise.map(|term| store.add(term, &mut variables)),
        conclusion: store.add(&rule.conclusion, &mut variables),
        variables,
    }
}

/// The rules with their places, of those that are alike the first alone.
fn different(rules: &[Rule]) -> impl Iterator<Item = (usize, &Rule)> {
    let all: Vec<_> = rules.iter().map(renumbered).collect();
    let is_first = move |place: usize| !all[..place].contains(&all[place]);
    rules
        .iter()
        .enumerate()
        .filter(move |(place, _)| is_first(*place))
}
