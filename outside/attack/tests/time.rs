//! How long a search takes on the largest files. Run by itself: `-- --ignored`.

mod common;

use attack::{search, Outcome};
use common::{certificate, number, paths};
use literal::block::kind;
use literal::numbers::kind::{BAD, GOOD};
use literal::numbers::BLOCK;
use literal::read::{read, Certificate};
use std::time::{Duration, Instant};

/// The files of `bench`, and each without its last pattern and without any.
fn all() -> Vec<(String, Vec<u8>)> {
    let files = paths("../bench/files", "cert").into_iter();
    let files = files.map(|path| {
        let file = command::files::bytes(&path).expect("a file");
        (command::files::name(&path), file)
    });
    files.flat_map(with_fewer_patterns).collect()
}

fn with_fewer_patterns((name, file): (String, Vec<u8>)) -> Vec<(String, Vec<u8>)> {
    let is_pattern = |block: &[u8]| matches!(kind(block), GOOD | BAD);
    let last = file.chunks(BLOCK).rposition(is_pattern);
    let without = |leaves_out: &dyn Fn(usize, &[u8]) -> bool| {
        let blocks = file.chunks(BLOCK).enumerate();
        let kept = blocks.filter(|(number, block)| !leaves_out(*number, block));
        kept.flat_map(|(_, block)| block.to_vec()).collect()
    };
    vec![
        (
            format!("{name} without a pattern"),
            without(&|number, _| Some(number) == last),
        ),
        (
            format!("{name} without patterns"),
            without(&|_, block| is_pattern(block)),
        ),
        (name, file.clone()),
    ]
}

/// Asserts that the search of this certificate takes less than a second, at least
/// once in three runs: a busy machine may stall one.
fn is_quick(name: &str, certificate: &Certificate) -> Outcome {
    let run = |_| {
        let start = Instant::now();
        let outcome = search(certificate);
        (outcome, start.elapsed())
    };
    let is_short = |took: &Duration| cfg!(debug_assertions) || *took < Duration::from_secs(1);
    let quick = (0..3).map(run).find(|(_, took)| is_short(took));
    let (outcome, took) = quick.unwrap_or_else(|| panic!("{name}: three times a second or more"));
    println!("{name}: {took:?}");
    outcome
}

fn with_nonces(count: usize, lines: &[String]) -> Certificate {
    let atoms = text::document::ATOMS;
    let nonces: Vec<String> = (0..count)
        .map(|i| format!("atom M{i} nonce unknown\n"))
        .collect();
    certificate(&format!("{atoms}{}{}", nonces.concat(), lines.concat()))
}

/// The words around the innermost one, so many times.
fn nested(count: usize, around: (&str, &str), inner: &str) -> String {
    format!(
        "{}{inner}{}",
        around.0.repeat(count),
        around.1.repeat(count)
    )
}

/// Sixty steps, each of which needs the one before and has long messages.
#[test]
#[ignore = "timed, so run by itself: -- --ignored"]
fn long_runs() {
    let rule = |i: usize| {
        format!(
            "rule {} -> {}\n",
            nested(15, ("{(T, ", ")}KI"), &format!("M{i}")),
            nested(15, ("(T, {", "}KI)"), &format!("M{}", i + 1))
        )
    };
    let mut lines = vec![
        "secret M60\n".to_string(),
        "secret M59\n".to_string(),
        "rule -> M0\n".to_string(),
    ];
    lines.extend((0..60).map(rule));
    let outcome = is_quick("long runs", &with_nonces(61, &lines));
    assert!(matches!(outcome, Outcome::Found(attack) if attack.steps.len() == 60));
}

/// Many ways to solve one premise.
#[test]
#[ignore = "timed, so run by itself: -- --ignored"]
fn many_solutions() {
    let mut lines = vec!["secret N\nsecret KAi\n".to_string()];
    lines.extend((0..40).map(|i| format!("rule -> {{M{i}}}KA\n")));
    let fields = |field: &dyn Fn(usize) -> String| (0..7).map(field).collect::<String>();
    let premise = fields(&|i| format!("({{?{i}}}KA, "));
    let conclusion = fields(&|i| format!("(?{i}, "));
    let end = format!("T{}", ")".repeat(7));
    lines.push(format!("rule {premise}{end} -> {{{conclusion}{end}}}KA\n"));
    is_quick("many solutions", &with_nonces(40, &lines));
}

/// Messages that grow, and are open to the intruder.
#[test]
#[ignore = "timed, so run by itself: -- --ignored"]
fn growing_messages() {
    let mut lines = vec!["secret N\nsecret KAi\nrule -> {N}KA\n".to_string()];
    let grown = |i: usize| nested(i % 7, ("(?x, ", ")"), "?x");
    lines.extend((1..50).map(|i| {
        format!(
            "rule {{(M{i}, ?x)}}KA -> ({{(M{}, {})}}KA, M{i})\n",
            (i * 7) % 50,
            grown(i)
        )
    }));
    lines.extend((0..5).map(|i| format!("rule {{?x}}KA -> ({{(M{i}, (?x, ?x))}}KA, h(?x))\n")));
    is_quick("growing messages", &with_nonces(50, &lines));
}

/// Each step gives the key to what the next one gives, and sixteen secrets need
/// them all: many long runs to shorten.
#[test]
#[ignore = "timed, so run by itself: -- --ignored"]
fn many_long_runs() {
    let keys = (0..46).map(|i| format!("atom K{} symmetric unknown\n", i + 1));
    let keys = ["atom K0 symmetric known\n".to_string()]
        .into_iter()
        .chain(keys);
    let secret = |i: usize| format!("secret {}\n", nested(i, ("h(", ")"), "K46"));
    let rule = |i: usize| {
        let long = |inner: &str| nested(20, ("{(T, ", ")}KI"), inner);
        let next = long(&format!("K{}", i + 1));
        format!("rule {} -> {{{next}}}K{i}\n", long("T"))
    };
    let lines = keys.chain((0..16).map(secret)).chain((0..46).map(rule));
    let outcome = is_quick(
        "many long runs",
        &with_nonces(0, &lines.collect::<Vec<_>>()),
    );
    assert!(matches!(outcome, Outcome::Found(attack) if attack.steps.len() == 46));
}

/// Messages with the same open variables again and again.
#[test]
#[ignore = "timed, so run by itself: -- --ignored"]
fn many_open_variables() {
    let tuple = |fields: Vec<String>| {
        let open: String = fields[1..]
            .iter()
            .map(|field| format!("({field}, "))
            .collect();
        format!("{open}{}{}", fields[0], ")".repeat(fields.len() - 1))
    };
    let eight = tuple((0..8).map(|i| format!("?{i}")).collect());
    let rule = |i: usize| {
        let mut fields = vec!["?x".to_string(); 28];
        fields[0] = format!("{{(M{i}, ?x)}}KA");
        format!("rule {{?x}}KAi -> {}\n", tuple(fields))
    };
    let mut lines = vec!["secret N\nsecret KAi\n".to_string()];
    lines.push(format!("rule {eight} -> {{{eight}}}KAi\n"));
    lines.extend((0..50).map(rule));
    is_quick("many open variables", &with_nonces(50, &lines));
}

#[test]
#[ignore = "timed, so run by itself: -- --ignored"]
fn largest_files() {
    let mut slowest = (Duration::ZERO, String::new());
    let (mut count, mut refused) = (0, 0);
    for (name, file) in all() {
        let Ok(certificate) = read(&file) else {
            continue;
        };
        let start = Instant::now();
        search(&certificate);
        slowest = slowest.max((start.elapsed(), name));
        count += 1;
        refused += usize::from(number(&file) == 12);
    }
    println!("{count} files, {refused} refused with 12, the slowest {slowest:?}");
    assert!(count >= 100 && refused >= 15);
    assert!(
        cfg!(debug_assertions) || slowest.0 < Duration::from_secs(1),
        "{slowest:?}"
    );
}
