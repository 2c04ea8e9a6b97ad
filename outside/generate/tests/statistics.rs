//! The shares of verdicts among generated files, and what is in them.

mod common;

use common::answer;
use literal::hats::{first_open_secret, first_uncovered, has_sure_hat, is_risky};
use literal::hats::{open_places, stands_at, sure_hats};
use literal::read::{read, Certificate, Listed, Rule};
use literal::term::{places, strictly_above, subterms, Place};
use literal::{Term, Verdict};
use std::collections::{BTreeMap, BTreeSet};

const FILES: u64 = 40_000;
/// The numbers of refusals; 13 and 14 are of other calls.
const NUMBERS: [usize; 13] = [1, 2, 3, 4, 5, 6, 7, 8, 9, 10, 11, 12, 15];

fn all_rules_pass(certificate: &Certificate) -> bool {
    answer(certificate).is_none()
}

fn number(file: &[u8]) -> u8 {
    match literal::verdict(file) {
        Verdict::Accepted(_) => 0,
        Verdict::Refused(refusal) => refusal.number,
    }
}

/// By number, 0 for accepted.
type Counts = [u64; 16];

fn shares_of(make: impl Fn(u64) -> Vec<u8>, seeds: std::ops::Range<u64>) -> Counts {
    let mut counts = [0; 16];
    for seed in seeds {
        counts[number(&make(seed)) as usize] += 1;
    }
    counts
}

fn show(title: &str, counts: &Counts) {
    let all: u64 = counts.iter().sum();
    let percent = |number: usize| 100.0 * counts[number] as f64 / all as f64;
    println!("{title}, {all} files:");
    println!("  accepted: {} ({:.2} %)", counts[0], percent(0));
    for number in NUMBERS {
        let count = counts[number];
        println!("  refused {number}: {count} ({:.2} %)", percent(number));
    }
}

#[test]
fn shares_of_verdicts() {
    let mixed = shares_of(generate::file, 0..FILES);
    show("file", &mixed);
    show(
        "certificate",
        &shares_of(generate::certificate, 0..FILES / 4),
    );
    show("damaged", &shares_of(generate::damaged, 0..FILES / 4));
    assert!(mixed[0] * 4 >= FILES, "accepted");
    assert!(mixed[12] * 4 >= FILES, "refused with 12");
    assert!(mixed[15] * 20 >= FILES, "refused with 15");
    for number in NUMBERS {
        assert!(mixed[number] > 0, "number {number}");
    }
}

#[test]
fn a_case_comes_from_its_seed_alone() {
    let first: Vec<Vec<u8>> = (0..500).map(generate::file).collect();
    for seed in (0..500).rev() {
        assert_eq!(generate::file(seed), first[seed as usize]);
        let pair = generate::pair(seed);
        let again = generate::pair(seed);
        assert_eq!((pair.pattern, pair.term), (again.pattern, again.term));
    }
    assert!(first
        .windows(2)
        .all(|two| two[0] != two[1] || two[0].is_empty()));
}

#[test]
fn blocks_and_places_vary() {
    let mut spots: BTreeMap<u8, BTreeSet<(u8, u8)>> = BTreeMap::new();
    for seed in 0..FILES / 4 {
        if let Verdict::Refused(r) = literal::verdict(&generate::file(seed)) {
            spots
                .entry(r.number)
                .or_default()
                .insert((r.block, r.place));
        }
    }
    for (number, seen) in &spots {
        println!("refused {number}: {} block and place pairs", seen.len());
    }
    for number in &NUMBERS[1..] {
        assert!(spots[&(*number as u8)].len() >= 3, "number {number}");
    }
}

/// Rules behind one that has the same premise or the same conclusion, but not both.
#[test]
fn rules_repeat_a_part() {
    let (mut premises, mut conclusions) = (0, 0);
    for seed in 0..FILES / 4 {
        let Ok(certificate) = read(&generate::certificate(seed)) else {
            continue;
        };
        for two in certificate.rules.windows(2) {
            let premise = two[0].premise == two[1].premise && two[0].premise.is_some();
            let conclusion = two[0].conclusion == two[1].conclusion;
            premises += u64::from(premise && !conclusion);
            conclusions += u64::from(conclusion && !premise);
        }
    }
    println!("the premise of the rule before: {premises}, its conclusion: {conclusions}");
    assert!(premises >= FILES / 50 && conclusions >= FILES / 200);
}

/// What accepted certificates rest on.
#[derive(Default, Debug)]
struct Reasons {
    accepted: u64,
    no_risky_place: u64,
    by_hat: u64,
    by_premise_only: u64,
    bad_needed: u64,
    hat_and_premise: u64,
}

fn accepted_reasons(certificate: &Certificate, reasons: &mut Reasons) {
    let (mut risky, mut hat, mut premise) = (false, false, false);
    for rule in &certificate.rules {
        let hats = sure_hats(certificate, &rule.conclusion);
        for place in places(&rule.conclusion) {
            if is_risky(certificate, &place) {
                risky = true;
                hat |= has_sure_hat(&hats, &place);
                premise |= !has_sure_hat(&hats, &place);
            }
        }
    }
    reasons.accepted += 1;
    reasons.no_risky_place += u64::from(!risky);
    reasons.by_hat += u64::from(hat);
    reasons.by_premise_only += u64::from(premise);
    reasons.hat_and_premise += u64::from(premise && hat);
}

fn without_bads(certificate: &Certificate) -> Certificate {
    let mut without = certificate.clone();
    without.bads.clear();
    without
}

#[test]
fn accepted_certificates_are_not_trivial() {
    let mut reasons = Reasons::default();
    let mut refused_for_bads = 0;
    for seed in 0..FILES / 4 {
        let file = generate::file(seed);
        let Ok(certificate) = read(&file) else {
            continue;
        };
        let without = without_bads(&certificate);
        match number(&file) {
            0 => {
                accepted_reasons(&certificate, &mut reasons);
                reasons.bad_needed += u64::from(!all_rules_pass(&without));
            }
            12 => refused_for_bads += u64::from(all_rules_pass(&without)),
            _ => {}
        }
    }
    println!("{reasons:?}, refused only because of bads: {refused_for_bads}");
    assert!(reasons.no_risky_place * 4 < reasons.accepted);
    assert!(reasons.by_hat * 4 > reasons.accepted);
    assert!(reasons.by_premise_only * 4 > reasons.accepted);
    assert!(reasons.bad_needed * 100 > reasons.accepted);
    assert!(refused_for_bads > 100);
}

/// How many files have a rule that shows it, among those whose rules are judged.
#[derive(Default, Debug)]
struct Depths {
    read: u64,
    /// An encryption within an encryption.
    nested: u64,
    /// A risky place below two or more encryptions, covered by a sure hat.
    nested_hat: u64,
    /// A risky place with no sure hat, covered by an open place below two or more.
    nested_open: u64,
    /// The first open secret of a rule below an encryption.
    open_secret_below: u64,
    /// An open secret in a rule whose places are all covered.
    open_secret_covered: u64,
    /// Two or more bad patterns, and a verdict that all but one do not give.
    several_bads_needed: u64,
    /// A premise or a conclusion of 63 entries.
    longest: u64,
}

/// How many encryptions stand strictly above each subterm, in entry order.
fn encryptions_above(term: &Term) -> Vec<usize> {
    let all = subterms(term);
    let above = |place: &Place| {
        let upper = all.iter().filter(|p| p.subterm.is_encryption());
        upper
            .filter(|p| strictly_above(&p.path, &place.path))
            .count()
    };
    all.iter().map(above).collect()
}

#[derive(Default)]
struct Shown {
    nested: bool,
    hat: bool,
    open: bool,
    open_secret_below: bool,
    open_secret_covered: bool,
    longest: bool,
}

impl Shown {
    fn add(&mut self, certificate: &Certificate, rule: &Rule) {
        let above = rule.premise.as_ref().map_or(Vec::new(), encryptions_above);
        self.add_conclusion(certificate, rule, &above);
        if let Some(entry) = first_open_secret(certificate, rule) {
            self.open_secret_below |= above[entry] > 0;
            self.open_secret_covered |= first_uncovered(certificate, rule).is_none();
        }
        let sizes = [rule.premise_entries(), rule.conclusion.size()];
        self.longest |= sizes.contains(&63);
    }

    /// With how many encryptions stand above each entry of the premise.
    fn add_conclusion(&mut self, certificate: &Certificate, rule: &Rule, above: &[usize]) {
        let open = open_places(certificate, rule);
        let hats = sure_hats(certificate, &rule.conclusion);
        let depths = encryptions_above(&rule.conclusion);
        self.nested |= depths.iter().any(|depth| *depth >= 2);
        for place in &places(&rule.conclusion) {
            if !is_risky(certificate, place) {
                continue;
            }
            if has_sure_hat(&hats, place) {
                self.hat |= depths[place.entry] >= 2;
            } else if stands_at(&open, place.subterm) {
                let mut same = open.iter().filter(|o| o.subterm == place.subterm);
                self.open |= same.all(|shown| above[shown.entry] >= 2);
            }
        }
    }
}

/// Whether keeping one bad pattern only, whichever, gives another answer.
fn several_bads_needed(certificate: &Certificate) -> bool {
    let right = all_rules_pass(certificate);
    let with_one = |bad: &Listed| {
        let mut fewer = certificate.clone();
        fewer.bads = vec![bad.clone()];
        all_rules_pass(&fewer)
    };
    certificate.bads.len() >= 2 && certificate.bads.iter().any(|bad| with_one(bad) != right)
}

#[test]
fn files_reach_deep() {
    let mut depths = Depths::default();
    for seed in 0..FILES / 4 {
        let file = generate::file(seed);
        if ![0, 12, 15].contains(&number(&file)) {
            continue;
        }
        let certificate = read(&file).unwrap();
        let mut shown = Shown::default();
        for rule in &certificate.rules {
            shown.add(&certificate, rule);
        }
        depths.read += 1;
        depths.nested += u64::from(shown.nested);
        depths.nested_hat += u64::from(shown.hat);
        depths.nested_open += u64::from(shown.open);
        depths.open_secret_below += u64::from(shown.open_secret_below);
        depths.open_secret_covered += u64::from(shown.open_secret_covered);
        depths.several_bads_needed += u64::from(several_bads_needed(&certificate));
        depths.longest += u64::from(shown.longest);
    }
    println!("{depths:?}");
    let often = |count: u64, percent: u64| count * 100 > depths.read * percent;
    assert!(often(depths.nested, 30), "nested");
    assert!(often(depths.nested_hat, 10), "nested hat");
    assert!(often(depths.nested_open, 3), "nested open");
    assert!(often(depths.open_secret_below, 3), "open secret below");
    assert!(often(depths.open_secret_covered, 3), "covered");
    assert!(often(depths.several_bads_needed, 4), "several bads");
    assert!(often(depths.longest, 3), "longest");
}
