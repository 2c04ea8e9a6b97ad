//! Number 12: why the premise does not cover the place.

use crate::hats::Asked;
use crate::mismatch::mismatch;
use crate::report::{all_of, short, Report, MOST_TOLD};
use crate::scene::Scene;
use literal::hats::{closings, Exception};
use literal::read::Listed;
use literal::shares;
use literal::term::{at_or_above, marks, places, subterms, Place, Term};

/// Where the same subterm stands in the premise, and what closes it there.
pub fn not_in_premise(report: &mut Report, scene: Scene, asked: &Asked) {
    report.title("Why the premise does not cover it");
    let Some(premise) = &asked.rule.premise else {
        report.item("the rule has no premise");
        return;
    };
    let mut same = subterms(premise);
    same.retain(|place| place.subterm == asked.place.subterm);
    if same.is_empty() {
        absent(report, scene, asked, premise);
    }
    let seen: Vec<usize> = places(premise).iter().map(|place| place.entry).collect();
    for place in &same {
        let spot = scene.in_premise(asked.rule, place);
        match seen.contains(&place.entry) {
            true => closed(report, scene, asked, premise, place),
            false => report.item(format!(
                "{spot} stands below a hash, which shows nothing of it"
            )),
        }
    }
}

/// The encryptions that close this place, with the patterns they share with.
fn closed(report: &mut Report, scene: Scene, asked: &Asked, premise: &Term, place: &Place) {
    let spot = scene.in_premise(asked.rule, place);
    report.item(format!("{spot} is no open place:"));
    let all = places(premise);
    for closing in closings(scene.certificate, premise) {
        if !closing.closes(place) {
            continue;
        }
        let Some(upper) = all.iter().find(|upper| upper.path == closing.path) else {
            continue;
        };
        let words = scene.in_premise(asked.rule, upper);
        report.detail(format!("{words} closes it: {}", shared_good(scene, upper)));
        near_bads(report, scene, asked, upper, place);
        opening_pattern(report, scene, asked, upper, place);
    }
}

/// For a variable in a field that no good pattern marks: the bad pattern that would
/// open it.
fn opening_pattern(report: &mut Report, scene: Scene, asked: &Asked, upper: &Place, place: &Place) {
    let way = &place.path[upper.path.len()..];
    let atoms = &scene.certificate.atoms;
    let mut goods = scene.certificate.goods.iter();
    let marks_it = |good: &Listed| {
        shares(atoms, &good.term, upper.subterm)
            && marks(&good.term).iter().any(|mark| at_or_above(mark, way))
    };
    if !place.subterm.is_variable() || goods.any(marks_it) {
        return;
    }
    let bad = scene
        .source
        .with_mark(asked.rule.block, upper.subterm, place.subterm);
    report.detail(format!(
        "hint: it closes all below it, marked or not; if this field is for everybody, `bad {bad}` opens it"
    ));
}

/// The first good pattern that the encryption shares an instance with.
fn shared_good(scene: Scene, upper: &Place) -> String {
    let atoms = &scene.certificate.atoms;
    let shared = |good: &&Listed| shares(atoms, &good.term, upper.subterm);
    let goods: Vec<&Listed> = scene.certificate.goods.iter().filter(shared).collect();
    let Some(first) = goods.first() else {
        return "no good pattern shares an instance with it".to_string();
    };
    let more = match goods.len() - 1 {
        0 => String::new(),
        more => format!(", and {more} more do"),
    };
    let example = scene.example(&first.term, upper.subterm);
    let words = scene.listed("good", first);
    format!("it shares an instance with {words}{more}: {example}")
}

/// The bad patterns that come near to opening the place: they match and mark other
/// places, or would open it and only share an instance.
fn near_bads(report: &mut Report, scene: Scene, asked: &Asked, upper: &Place, place: &Place) {
    let atoms = &scene.certificate.atoms;
    let why = |bad: &Listed| {
        let exposes = Exception::of(&upper.path, bad).exposes(place);
        match mismatch(atoms, &bad.term, upper.subterm) {
            None => Some("matches, but has no mark at or above the place".to_string()),
            Some(found) if exposes && shares(atoms, &bad.term, upper.subterm) => {
                let why = scene.parting(bad, asked.rule.block, upper.subterm, &found);
                Some(format!("would open it if it matched; but {why}"))
            }
            Some(_) => None,
        }
    };
    let near = scene.certificate.bads.iter();
    let near = near.filter_map(|bad| Some((bad, why(bad)?)));
    for (bad, why) in near.take(MOST_TOLD) {
        report.detail(format!("  {} {why}", scene.listed("bad", bad)));
    }
}

/// The premise does not hold the subterm at all.
fn absent(report: &mut Report, scene: Scene, asked: &Asked, premise: &Term) {
    let wanted = scene.source.term(asked.rule.block, asked.place.subterm);
    let as_key = match is_key_in(premise, asked.place.subterm) {
        true => " but as a key, and keys are no places",
        false => "",
    };
    report.item(format!(
        "{} does not stand in the premise{as_key}",
        short(wanted)
    ));
    if asked.place.subterm.is_variable() {
        other_variables(report, scene, asked, premise);
    }
}

/// The premise's own variables, and which of them may have been meant.
fn other_variables(report: &mut Report, scene: Scene, asked: &Asked, premise: &Term) {
    let name = |term: &Term| scene.source.term(asked.rule.block, term);
    let there = variables(premise);
    let used = variables(&asked.rule.conclusion);
    let names = |terms: &[&Term]| all_of(&terms.iter().map(|term| name(term)).collect::<Vec<_>>());
    if there.is_empty() {
        report.detail("the premise has no variable");
        return;
    }
    report.detail(format!("the premise's variables: {}", names(&there)));
    let unused: Vec<&Term> = there
        .iter()
        .filter(|v| !used.contains(v))
        .copied()
        .collect();
    if !unused.is_empty() {
        let unused = names(&unused);
        report.detail(format!(
            "hint: the conclusion does not use {unused}: mistyped?"
        ));
    }
    let wanted = name(asked.place.subterm);
    if let Some(other) = there.iter().find(|term| bare(&name(term)) == bare(&wanted)) {
        let other = name(other);
        report.detail(format!(
            "hint: {other} and {wanted} are two variables, of two sorts"
        ));
    }
}

/// Whether the atom is the key of an encryption or of a signature.
fn is_key_in(term: &Term, atom: &Term) -> bool {
    subterms(term).iter().any(|place| match place.subterm {
        Term::Encryption(_, key) | Term::Signature(_, key) => Term::Atom(*key) == *atom,
        _ => false,
    })
}

/// The variables of a term, each once, by first occurrence.
pub fn variables(term: &Term) -> Vec<&Term> {
    let mut found: Vec<&Term> = Vec::new();
    for place in subterms(term) {
        if place.subterm.is_variable() && !found.contains(&place.subterm) {
            found.push(place.subterm);
        }
    }
    found
}

/// A variable's name without its sign.
fn bare(name: &str) -> &str {
    let name = name.trim_start_matches(['?', '*']);
    name.strip_prefix("n!").unwrap_or(name)
}
