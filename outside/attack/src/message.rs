//! Messages and terms: a rule's variables, instances, and how they are shown.

use literal::atom::Atom;
use literal::read::Rule;
use literal::term::subterms;
use literal::Term;

/// The variables of a rule, each once, in order of first occurrence.
pub fn variables(rule: &Rule) -> Vec<Term> {
    let mut found = rule.premise.as_ref().map_or(Vec::new(), variables_of);
    found.extend(variables_of(&rule.conclusion));
    without_repeats(found)
}

/// Every occurrence of a variable.
fn variables_of(term: &Term) -> Vec<Term> {
    let places = subterms(term).into_iter();
    let variables = places.filter(|place| place.subterm.is_variable());
    variables.map(|place| place.subterm.clone()).collect()
}

/// The first of equal terms stays.
fn without_repeats(terms: Vec<Term>) -> Vec<Term> {
    let mut once = Vec::new();
    for term in terms {
        if !once.contains(&term) {
            once.push(term);
        }
    }
    once
}

/// The term with each of these variables replaced.
pub fn instance(term: &Term, replacement: &[(Term, Term)]) -> Term {
    match replacement.iter().find(|(variable, _)| variable == term) {
        Some((_, message)) => message.clone(),
        None => term.with_parts(|part| instance(part, replacement)),
    }
}

/// Premise and conclusion with the variables numbered in order of first
/// occurrence: rules that are alike but for their numbers become equal.
pub fn renumbered(rule: &Rule) -> (Option<Term>, Term) {
    let name = |(number, variable): (u8, Term)| match variable.is_nonce_variable() {
        true => (variable, Term::PlainNonce(number)),
        false => (variable, Term::Plain(number)),
    };
    let names: Vec<(Term, Term)> = (0..).zip(variables(rule)).map(name).collect();
    let premise = rule.premise.as_ref().map(|term| instance(term, &names));
    (premise, instance(&rule.conclusion, &names))
}

/// The key that opens what is encrypted under this one.
pub fn inverse(atoms: &[Atom], key: u16) -> Option<Term> {
    let entry = atoms.get(key as usize).filter(|atom| atom.is_key())?;
    Some(Term::Atom(entry.partner))
}

/// The term in a line, atoms by their numbers.
pub fn shown(term: &Term) -> String {
    match term {
        Term::Atom(number) => number.to_string(),
        Term::Pair(left, right) => format!("({}, {})", shown(left), shown(right)),
        Term::Encryption(message, key) => format!("{{{}}}{key}", shown(message)),
        Term::Hash(message) => format!("h({})", shown(message)),
        Term::Signature(message, key) => format!("sig({}){key}", shown(message)),
        Term::Plain(number) => format!("?{number}"),
        Term::Marked(number) => format!("*{number}"),
        Term::PlainNonce(number) => format!("?n!{number}"),
        Term::MarkedNonce(number) => format!("*n!{number}"),
    }
}
