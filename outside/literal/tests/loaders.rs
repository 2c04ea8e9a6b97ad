//! Document 02, No. 5: a tally for each loader, by hand.

mod common;

use common::*;
use literal::loaders::check_by;
use literal::{check, line, packed, print_line, refused_part, verdict};
use literal::{LoaderCounts, Refusal, Tally, Term, Verdict};

const FULL: u32 = u32::MAX;
/// Numbers that are no loader's; some would be in fewer bits or with a sign.
const ABOVE: [u32; 10] = [8, 9, 15, 16, 255, 256, 263, 65_536, 1 << 31, u32::MAX];

const SIXTEEN: Verdict = refused(16, 0, 0);

const fn refused(number: u8, block: u8, place: u8) -> Verdict {
    Verdict::Refused(Refusal {
        number,
        block,
        place,
    })
}

const fn counts(accepted: u32, refused: u32) -> LoaderCounts {
    LoaderCounts { accepted, refused }
}

/// No count is like another.
const APART: Tally = [
    counts(10, 20),
    counts(11, 21),
    counts(12, 22),
    counts(13, 23),
    counts(14, 24),
    counts(15, 25),
    counts(16, 26),
    counts(17, 27),
];

fn usual(conclusion: Term) -> Vec<u8> {
    let mut file = Parts::usual();
    file.rules = vec![(None, conclusion)];
    file.bytes()
}

/// Case a, accepted.
fn right() -> Vec<u8> {
    usual(enc(N, 2))
}

/// Case b, refused with 12.
fn wrong() -> Vec<u8> {
    usual(enc(N, 4))
}

/// The tally with another pair for this loader.
fn with(mut tally: Tally, loader: usize, counts: LoaderCounts) -> Tally {
    tally[loader] = counts;
    tally
}

fn after(file: &[u8], loader: u32, tally: Tally) -> Tally {
    check(file, loader, tally).1
}

/// These calls, each with the tally that the last one returned.
fn after_all(calls: &[(u32, &[u8])], first: Tally) -> Tally {
    let next = |tally, (loader, file): &(u32, &[u8])| after(file, *loader, tally);
    calls.iter().fold(first, next)
}

#[test]
fn the_tally_is_eight_pairs() {
    assert_eq!(Tally::default(), [counts(0, 0); 8]);
}

#[test]
fn one_count_of_the_loader_is_raised() {
    for (loader, before) in APART.into_iter().enumerate() {
        let number = loader as u32;
        let raised = counts(before.accepted + 1, before.refused);
        assert_eq!(after(&right(), number, APART), with(APART, loader, raised));
        let raised = counts(before.accepted, before.refused + 1);
        assert_eq!(after(&wrong(), number, APART), with(APART, loader, raised));
        assert_eq!(after(&[], number, APART), with(APART, loader, raised));
    }
}

#[test]
fn loaders_by_their_counts() {
    let first = [counts(0, 0); 8];
    assert_eq!(after(&right(), 0, first)[0], counts(1, 0));
    assert_eq!(after(&wrong(), 0, first)[0], counts(0, 1));
    assert_eq!(after(&right(), 7, first)[7], counts(1, 0));
    assert_eq!(after(&wrong(), 7, first)[7], counts(0, 1));
    assert_eq!(after(&right(), 7, first)[..7], [counts(0, 0); 7]);
}

#[test]
fn a_full_count_stays() {
    let full = [counts(FULL, FULL); 8];
    assert_eq!(after(&right(), 3, full), full);
    assert_eq!(after(&wrong(), 3, full), full);
    let nearly = [counts(FULL - 1, FULL - 1); 8];
    let once = with(nearly, 3, counts(FULL, FULL - 1));
    assert_eq!(after(&right(), 3, nearly), once);
    assert_eq!(after(&right(), 3, once), once);
    let both = with(nearly, 3, counts(FULL, FULL));
    assert_eq!(after(&wrong(), 3, once), both);
}

/// Neither the other count nor the verdict depends on it.
#[test]
fn beside_a_full_count() {
    let first = with(APART, 2, counts(FULL, 5));
    assert_eq!(after(&wrong(), 2, first), with(APART, 2, counts(FULL, 6)));
    let first = with(APART, 2, counts(5, FULL));
    assert_eq!(after(&right(), 2, first), with(APART, 2, counts(6, FULL)));
    let (verdict, _) = check(&wrong(), 2, first);
    assert_eq!(verdict, refused(12, 4, 1));
}

#[test]
fn a_number_above_seven() {
    for loader in ABOVE {
        for file in [right(), wrong(), vec![0; 32_768]] {
            assert_eq!(check(&file, loader, APART), (SIXTEEN, APART), "{loader}");
            let full = [counts(FULL, FULL); 8];
            assert_eq!(check(&file, loader, full), (SIXTEEN, full), "{loader}");
        }
    }
    assert_eq!(check(&right(), 7, APART).0, verdict(&right()));
    assert_eq!(check(&wrong(), 7, APART).0, verdict(&wrong()));
}

#[test]
fn sixteen_before_the_length() {
    for length in [0, 1, 511, 513, 33_280] {
        let file = vec![0; length];
        assert_eq!(check(&file, 8, APART), (SIXTEEN, APART));
        assert_eq!(check(&file, 7, APART).0, refused(1, 0, 0));
    }
    assert_eq!(after(&[], 7, APART)[7], counts(17, 28));
}

#[test]
fn for_sixteen_the_file_is_not_looked_at() {
    let unasked = || -> Verdict { panic!("the file was judged") };
    for loader in ABOVE {
        assert_eq!(check_by(unasked, loader, APART), (SIXTEEN, APART));
    }
}

#[test]
fn sixteen_in_every_form() {
    assert_eq!(line(&SIXTEEN), b"refused 16 block=0 place=0\n");
    assert_eq!(packed(&SIXTEEN), 1_048_576);
    let mut buffer = [b'~'; 28];
    assert_eq!(print_line(&SIXTEEN, &mut buffer), Ok(27));
    assert_eq!(&buffer, b"refused 16 block=0 place=0\n~");
    let mut short = [b'~'; 26];
    assert_eq!(print_line(&SIXTEEN, &mut short), Err(14));
    assert_eq!(short, [b'~'; 26]);
}

/// Also where a verdict from elsewhere names a block that the file has.
#[test]
fn the_part_for_sixteen_is_empty() {
    for file in [right(), wrong(), vec![0; 32_768], vec![0; 511], vec![]] {
        for block in 0..=255 {
            assert!(refused_part(&file, &refused(16, block, 0)).is_empty());
            assert!(refused_part(&file, &refused(16, block, 9)).is_empty());
        }
    }
    assert_eq!(refused_part(&right(), &refused(15, 0, 0)).len(), 512);
}

/// Loader 3 hands in three files; what the others do between is nothing to it.
#[test]
fn own_calls_only() {
    let (right, wrong) = (right(), wrong());
    let mixed: [(u32, &[u8]); 9] = [
        (2, &wrong),
        (3, &right),
        (4, &right),
        (3, &wrong),
        (11, &wrong),
        (8, &right),
        (259, &right),
        (3, &right),
        (0, &[]),
    ];
    let alone: [(u32, &[u8]); 3] = [(3, &right), (3, &wrong), (3, &right)];
    let among = after_all(&mixed, APART);
    let expected = [
        counts(10, 21),
        counts(11, 21),
        counts(12, 23),
        counts(15, 24),
        counts(15, 24),
        counts(15, 25),
        counts(16, 26),
        counts(17, 27),
    ];
    assert_eq!(among, expected);
    let others = with([counts(FULL, 0); 8], 3, APART[3]);
    assert_eq!(after_all(&alone, others)[3], among[3]);
}

#[test]
fn a_verdict_depends_on_its_file_only() {
    let files = [right(), wrong(), vec![], vec![0; 512], usual(T)];
    for file in &files {
        for loader in 0..8 {
            for tally in [Tally::default(), APART, [counts(FULL, FULL); 8]] {
                assert_eq!(check(file, loader, tally).0, verdict(file));
            }
        }
    }
}

#[test]
fn a_restored_tally_restores_all_eight() {
    let (right, wrong) = (right(), wrong());
    let begin: [(u32, &[u8]); 3] = [(0, &right), (7, &wrong), (8, &right)];
    let rest: [(u32, &[u8]); 4] = [(7, &right), (1, &wrong), (16, &wrong), (0, &right)];
    let between: [(u32, &[u8]); 3] = [(7, &wrong), (0, &right), (3, &wrong)];
    let older = after_all(&begin, APART);
    let newer = after_all(&between, older);
    let end = after_all(&rest, older);
    let whole: Vec<_> = begin.iter().chain(&rest).copied().collect();
    assert_eq!(after_all(&whole, APART), end);
    assert_ne!(after_all(&rest, newer), end);
    assert_eq!(older[0], counts(11, 20));
    assert_eq!(end[0], counts(12, 20));
    assert_eq!(end[7], counts(18, 28));
    assert_eq!(end[1], counts(11, 22));
}
