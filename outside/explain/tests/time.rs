//! A certificate of 64 blocks is explained in under two seconds. Run by itself:
//! `-- --ignored`.

mod common;

use explain::source::Source;
use literal::block;
use literal::numbers::{kind, BLOCK};
use std::time::{Duration, Instant};

const MOST: Duration = Duration::from_secs(2);

/// The bench files, and each of them without its first or last pattern of a kind, so
/// that many rules are not covered.
fn files() -> Vec<(String, Vec<u8>)> {
    let paths = command::files::ending_in("cert", &common::folder("../bench/files")).unwrap();
    let mut found = Vec::new();
    for path in paths {
        let (name, file) = (
            command::files::name(&path),
            command::files::bytes(&path).unwrap(),
        );
        for left_out in patterns(&file) {
            let rest = without(&file, left_out);
            found.push((format!("{name} without {left_out}"), rest));
        }
        found.push((name, file));
    }
    found
}

/// The numbers of the first and the last pattern of each kind.
fn patterns(file: &[u8]) -> Vec<usize> {
    let kinds: Vec<u8> = file.chunks(BLOCK).map(block::kind).collect();
    let ends = |wanted: u8| {
        let first = kinds.iter().position(|kind| *kind == wanted);
        let last = kinds.iter().rposition(|kind| *kind == wanted);
        first.into_iter().chain(last)
    };
    let mut numbers: Vec<usize> = ends(kind::GOOD).chain(ends(kind::BAD)).collect();
    numbers.dedup();
    numbers
}

fn without(file: &[u8], block: usize) -> Vec<u8> {
    [&file[..BLOCK * block], &file[BLOCK * (block + 1)..]].concat()
}

#[test]
#[ignore = "timed, so run by itself: -- --ignored"]
fn no_file_takes_long() {
    let (mut longest, mut uncovered) = (Duration::ZERO, 0);
    for (name, file) in files() {
        let source = Source::of_bytes(&name, file);
        let (said, taken) = timed(&source);
        assert!(taken < MOST, "{name}: {taken:?}");
        uncovered += usize::from(said.contains("a risky place of the conclusion is not covered"));
        longest = longest.max(taken);
    }
    println!("{uncovered} explained with a 12, the longest took {longest:?}");
    assert!(uncovered > 20, "{uncovered}");
}

/// What is said, and how long it took: again, up to three times, if that was too long,
/// since a busy machine may stall a run.
fn timed(source: &Source) -> (String, Duration) {
    let run = |_| {
        let begun = Instant::now();
        let said = explain::why(source, "");
        (said, begun.elapsed())
    };
    let mut runs = (0..3).map(run);
    let first = runs.next().expect("three runs");
    match first.1 < MOST {
        true => first,
        false => runs.min_by_key(|(_, taken)| *taken).unwrap_or(first),
    }
}
