//! A wrong expectation and a wrong checker are noticed.

mod wrong_seals;
mod wrong_tallies;

use generate::random::Random;
use literal::{Refusal, Verdict};
use verdicts::compare::differences;
use verdicts::known::{self, Known};
use verdicts::{
    calls, cases, hashes, loaders, marked_bad, more_atoms, nonce_variables, open_secrets,
};
use verdicts::{failed, proved, seals, tally, Checker, Difference, Spot};

const FILES: u64 = 300;
const LISTS: u64 = 40;

/// The first words of the questions, each once.
fn first_words(found: &[Difference], words: usize) -> Vec<String> {
    let first = |difference: &Difference| {
        let all = difference.question.split([' ', ',']);
        all.take(words).collect::<Vec<_>>().join(" ")
    };
    let mut found: Vec<String> = found.iter().map(first).collect();
    found.sort();
    found.dedup();
    found
}

/// The questions that differ on generated files.
fn noticed(checker: &Checker) -> Vec<String> {
    let of_seed = |seed| {
        let file = generate::file(seed);
        let verdict = literal::verdict(&file);
        differences(checker, &file, &verdict, &mut Random::new(seed))
    };
    let found: Vec<Difference> = (0..FILES).flat_map(of_seed).collect();
    first_words(&found, 1)
}

/// The questions that differ on generated lists of calls.
fn noticed_in_lists(checker: &Checker) -> Vec<String> {
    let of_seed =
        |seed| calls::differences(checker, &generate::calls(seed), &mut Random::new(seed));
    let found: Vec<Difference> = (0..LISTS).flat_map(of_seed).collect();
    first_words(&found, 3)
}

#[test]
fn the_archive_agrees() {
    for checker in [proved::CHECKER, proved::WITH_NULL] {
        assert_eq!(noticed(&checker), [""; 0]);
        assert_eq!(noticed_in_lists(&checker), [""; 0]);
    }
}

fn case(name: &str) -> Known {
    let all = cases::all().unwrap();
    all.into_iter().find(|known| known.name == name).unwrap()
}

/// How many answers differ from what is written down.
fn differ(known: &Known) -> usize {
    known.differences(&proved::CHECKER).len()
}

#[test]
fn a_wrong_line_or_answer_is_noticed() {
    let right = case("case b");
    assert_eq!(differ(&right), 0);
    let mut wrong = right.clone();
    wrong.line = "refused 12 block=4 place=2".to_string();
    assert_eq!(differ(&wrong), 3);
    let mut wrong = right.clone();
    wrong.packed += 1;
    assert_eq!(differ(&wrong), 2);
    let mut wrong = right;
    wrong.packed = 0;
    assert_eq!(differ(&wrong), 2);
    let mut wrong = case("case a");
    wrong.line = wrong.line.replace("rules=1", "rules=2");
    assert_eq!(differ(&wrong), 3);
}

#[test]
fn a_wrong_verdict_is_noticed() {
    let file = case("case a").file;
    let wrong = Verdict::Refused(Refusal {
        number: 12,
        block: 4,
        place: 1,
    });
    let of_seed = |seed| differences(&proved::CHECKER, &file, &wrong, &mut Random::new(seed));
    let found: Vec<Difference> = (0..20).flat_map(of_seed).collect();
    assert_eq!(first_words(&found, 1), ["check", "line", "tally"]);
}

fn with(change: impl Fn(&mut Checker)) -> Vec<String> {
    let mut checker = proved::CHECKER;
    change(&mut checker);
    noticed(&checker)
}

fn line_and_a_byte(file: &[u8], buffer: &mut [u8]) -> u32 {
    let answer = (proved::CHECKER.line)(file, buffer);
    if let Some(byte) = buffer.get_mut(answer as usize) {
        *byte ^= 1;
    }
    answer
}

fn line_in_a_short_buffer(file: &[u8], buffer: &mut [u8]) -> u32 {
    let answer = (proved::CHECKER.line)(file, buffer);
    if answer >= 65_536 {
        buffer.iter_mut().for_each(|byte| *byte ^= 1);
    }
    answer
}

fn part_for_number_4(file: &[u8], spot: Spot, buffer: &mut [u8]) -> u32 {
    let number = if spot.number == 4 { 5 } else { spot.number };
    (proved::CHECKER.part)(file, Spot { number, ..spot }, buffer)
}

fn no_part_for_number_15(file: &[u8], spot: Spot, buffer: &mut [u8]) -> u32 {
    let number = if spot.number == 15 { 1 } else { spot.number };
    (proved::CHECKER.part)(file, Spot { number, ..spot }, buffer)
}

fn part_for_number_16(file: &[u8], spot: Spot, buffer: &mut [u8]) -> u32 {
    let number = if spot.number == 16 { 15 } else { spot.number };
    (proved::CHECKER.part)(file, Spot { number, ..spot }, buffer)
}

fn part_of_the_next_block(file: &[u8], spot: Spot, buffer: &mut [u8]) -> u32 {
    let block = spot.block.wrapping_add(1);
    (proved::CHECKER.part)(file, Spot { block, ..spot }, buffer)
}

fn seal_and_a_byte(block: &mut [u8]) -> u32 {
    let answer = (proved::CHECKER.seal)(block);
    if let Some(byte) = block.get_mut(507) {
        *byte ^= 1;
    }
    answer
}

#[test]
fn wrong_checkers_are_noticed() {
    assert_eq!(with(|c| c.check = |_| 0), ["check"]);
    assert_eq!(
        with(|c| c.check = |file| (proved::CHECKER.check)(file) & !255),
        ["check"]
    );
    assert_eq!(with(|c| c.line = line_and_a_byte), ["line"]);
    assert_eq!(with(|c| c.line = line_in_a_short_buffer), ["line"]);
    assert_eq!(with(|c| c.part = part_for_number_4), ["part"]);
    assert_eq!(with(|c| c.part = no_part_for_number_15), ["part"]);
    assert_eq!(with(|c| c.part = part_for_number_16), ["part"]);
    assert_eq!(with(|c| c.part = part_of_the_next_block), ["part"]);
    assert_eq!(with(|c| c.seal = seal_and_a_byte), ["sealing"]);
    assert_eq!(with(|c| c.seal = |_| 4), ["sealing"]);
}

/// What differs for the first of the blocks with a known check for which
/// something does.
fn noticed_in_blocks(checker: &Checker) -> Vec<String> {
    let front = seals::front().unwrap();
    let mut found = seals::all(&front).map(|last| last.differences(checker));
    let first = found.find(|found| !found.is_empty());
    first_words(&first.unwrap_or_default(), 1)
}

#[test]
fn wrong_sealings_are_noticed_in_blocks() {
    for (name, seal) in wrong_seals::SEALINGS {
        let checker = Checker {
            seal,
            ..proved::CHECKER
        };
        assert_eq!(noticed_in_blocks(&checker), ["sealing"], "{name}");
    }
}

#[test]
fn wrong_checks_are_noticed_in_blocks() {
    for (name, check) in wrong_seals::CHECKS {
        let checker = Checker {
            check,
            ..proved::CHECKER
        };
        assert_eq!(noticed_in_blocks(&checker), ["check"], "{name}");
    }
}

/// Each by the comparison of one check, by that of lists, and by the checks
/// written down by hand.
#[test]
fn wrong_tallies_are_noticed() {
    for (name, tally) in wrong_tallies::ALL {
        let checker = Checker {
            tally,
            ..proved::CHECKER
        };
        assert_eq!(noticed(&checker), ["tally"], "{name}");
        let lists = noticed_in_lists(&checker);
        assert!(lists.contains(&"list by literal".to_string()), "{name}");
        let by_hand = loaders::all().unwrap();
        let mut differ = by_hand.iter().filter_map(|c| c.difference(&checker));
        assert!(differ.next().is_some(), "{name}");
    }
}

/// What needs no reference: each question that the archive's own answers decide.
#[test]
fn lists_notice_wrong_tallies_by_themselves() {
    let found = |tally| {
        noticed_in_lists(&Checker {
            tally,
            ..proved::CHECKER
        })
    };
    let has = |found: Vec<String>, question: &str| found.iter().any(|f| f == question);
    let in_pairs = found(wrong_tallies::shared_by_two);
    assert!(has(in_pairs, "list by loader"));
    let full = found(wrong_tallies::full_count_refused);
    assert!(has(full, "list by the"));
    let kept = found(wrong_tallies::kept_inside);
    assert!(has(kept, "list from an"));
}

#[test]
fn other_than_sixteen_counts_are_noticed() {
    let with_tally = |tally| with(|c| c.tally = tally);
    assert_eq!(with_tally(wrong_tallies::of_the_first_sixteen), ["tally"]);
    assert_eq!(with_tally(wrong_tallies::clearing_others), ["tally"]);
    let unasked: fn(&[u8], u32, &mut [u32]) -> u32 = |file, loader, counts| {
        let answer = (proved::CHECKER.tally)(file, loader, counts);
        if answer == tally::NOT_SIXTEEN {
            return failed(1);
        }
        answer
    };
    assert_eq!(with_tally(unasked), ["tally"]);
}

/// A count beside the lent ones, on either side.
#[test]
fn counts_around_are_noticed() {
    let after: fn(&[u8], u32, &mut [u32]) -> u32 = |file, loader, counts| {
        let answer = (proved::CHECKER.tally)(file, loader, counts);
        // SAFETY: the lent counts have others after them.
        unsafe { *counts.as_mut_ptr().add(counts.len()) ^= 1 };
        answer
    };
    assert_eq!(with(|c| c.tally = after), ["tally"]);
    let before: fn(&[u8], u32, &mut [u32]) -> u32 = |file, loader, counts| {
        let answer = (proved::CHECKER.tally)(file, loader, counts);
        // SAFETY: the lent counts have others before them.
        unsafe { *counts.as_mut_ptr().sub(1) ^= 1 };
        answer
    };
    assert_eq!(with(|c| c.tally = before), ["tally"]);
}

/// A byte beside the lent ones.
#[test]
fn bytes_around_are_noticed() {
    let beside: fn(&[u8], &mut [u8]) -> u32 = |file, buffer| {
        let answer = (proved::CHECKER.line)(file, buffer);
        // SAFETY: the lent bytes have others after them.
        unsafe { *buffer.as_mut_ptr().add(buffer.len()) ^= 1 };
        answer
    };
    assert_eq!(with(|c| c.line = beside), ["line"]);
}

/// The answers that are written down by hand.
fn by_hand() -> Vec<Known> {
    let lists = [
        cases::all(),
        more_atoms::all(),
        marked_bad::all(),
        nonce_variables::all(),
        open_secrets::all(),
        hashes::all(),
    ];
    lists.into_iter().flat_map(Result::unwrap).collect()
}

#[test]
fn answers_written_down_are_the_lines_own_numbers() {
    for known in by_hand() {
        let again = Known::by_line(&known.name, known.file.clone(), &known.line).unwrap();
        assert_eq!(again.packed, known.packed, "{}", known.name);
    }
    assert!(known::spot_in("refused twelve block=1 place=0").is_none());
    assert!(known::spot_in("").is_none());
}

#[test]
fn literal_answers_as_written_down() {
    for known in by_hand() {
        let line = literal::line(&literal::verdict(&known.file));
        let expected = format!("{}\n", known.line);
        assert_eq!(String::from_utf8_lossy(&line), expected, "{}", known.name);
    }
}

/// The checks with a tally that are written down by hand.
#[test]
fn literal_counts_as_written_down() {
    for counted in loaders::all().unwrap() {
        let Ok(before) = <tally::Sixteen>::try_from(&counted.before[..]) else {
            assert_eq!(counted.answer, tally::NOT_SIXTEEN, "{}", counted.name);
            continue;
        };
        let before = tally::tally_of(&before);
        let (verdict, after) = literal::check(&counted.file, counted.loader, before);
        let found = (literal::packed(&verdict), tally::counts_of(&after).to_vec());
        let expected = (counted.answer, counted.after);
        assert_eq!(found, expected, "{}, {}", counted.name, counted.loader);
    }
}
