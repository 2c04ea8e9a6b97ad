//! The document's certificates to try, and its other examples.

mod common;

use common::*;
use literal::{
    line, packed, print_line, refused_part, seal, shares, verdict, Counts, Refusal, Term, Verdict,
};

fn accepted(blocks: u32, secrets: u32, good: u32, bad: u32, rules: u32) -> Verdict {
    Verdict::Accepted(Counts {
        blocks,
        secrets,
        good,
        bad,
        rules,
    })
}

fn refused(number: u8, block: u8, place: u8) -> Verdict {
    Verdict::Refused(Refusal {
        number,
        block,
        place,
    })
}

/// Secrets N and 3, good {*s}2, and this rule.
fn usual(premise: Option<Term>, conclusion: Term) -> Vec<u8> {
    let mut file = Parts::usual();
    file.rules = vec![(premise, conclusion)];
    file.bytes()
}

fn rule_of_a() -> (Option<Term>, Term) {
    (None, enc(N, 2))
}

#[test]
fn case_a() {
    let file = usual(None, enc(N, 2));
    assert_eq!(verdict(&file), accepted(5, 2, 1, 0, 1));
    let expected = b"accepted blocks=5 secrets=2 good=1 bad=0 rules=1\n";
    assert_eq!(line(&verdict(&file)), expected);
    assert_eq!(packed(&verdict(&file)), 0);
    assert!(refused_part(&file, &verdict(&file)).is_empty());
}

/// Case a, every byte by hand.
#[test]
fn case_a_by_hand() {
    let mut file = vec![0; 5 * 512];
    let atoms = [
        [1, 1, 0, 0],
        [1, 1, 0, 0],
        [3, 1, 3, 0],
        [4, 0, 2, 0],
        [3, 1, 5, 0],
        [4, 1, 4, 0],
        [2, 0, 0, 0],
        [2, 1, 0, 0],
    ];
    file[..4].copy_from_slice(&[1, 8, 0, 0]);
    file[4..36].copy_from_slice(&atoms.concat());
    file[512..520].copy_from_slice(&[2, 1, 0, 0, 1, 0, 6, 0]);
    file[1024..1032].copy_from_slice(&[2, 1, 0, 0, 1, 0, 3, 0]);
    file[1536..1548].copy_from_slice(&[3, 2, 0, 0, 3, 0, 2, 0, 5, 0, 0, 0]);
    file[2048..2060].copy_from_slice(&[5, 0, 2, 0, 3, 0, 2, 0, 1, 0, 6, 0]);
    for block in file.chunks_mut(512) {
        let a: u32 = block[..508].iter().map(|b| *b as u32).sum();
        let b: u32 = (0..508).map(|i| (508 - i as u32) * block[i] as u32).sum();
        block[508..510].copy_from_slice(&((a % 65_521) as u16).to_le_bytes());
        block[510..512].copy_from_slice(&((b % 65_521) as u16).to_le_bytes());
    }
    assert_eq!(file, usual(None, enc(N, 2)));
    assert_eq!(verdict(&file), accepted(5, 2, 1, 0, 1));
}

#[test]
fn case_b() {
    let file = usual(None, enc(N, 4));
    assert_eq!(verdict(&file), refused(12, 4, 1));
    assert_eq!(line(&verdict(&file)), b"refused 12 block=4 place=1\n");
    assert_eq!(packed(&verdict(&file)), 12 * 65_536 + 4 * 256 + 1);
    assert_eq!(refused_part(&file, &verdict(&file)), &file[4 * 512..]);
}

#[test]
fn cases_c_and_d() {
    let c = usual(Some(enc(X, 2)), enc(X, 4));
    assert_eq!(verdict(&c), refused(12, 4, 3));
    let d = usual(Some(enc(X, 4)), X);
    assert_eq!(verdict(&d), accepted(5, 2, 1, 0, 1));
}

/// The cases f and g come out the same with either good pattern.
#[test]
fn cases_e_f_and_g() {
    let mut file = Parts::usual();
    file.goods = vec![enc(two(T, S), 2)];
    file.rules = vec![(Some(enc(two(I, X), 2)), enc(X, 4))];
    assert_eq!(verdict(&file.bytes()), accepted(5, 2, 1, 0, 1));
    let mut f = Parts::usual();
    f.bads = vec![enc(two(I, X), 2)];
    f.rules = file.rules.clone();
    assert_eq!(verdict(&f.bytes()), accepted(6, 2, 1, 1, 1));
    let mut g = f.clone();
    g.rules = vec![(Some(enc(two(T, X), 2)), enc(X, 2))];
    assert_eq!(verdict(&g.bytes()), refused(12, 5, 5));
    f.goods = file.goods.clone();
    g.goods = file.goods;
    assert_eq!(verdict(&f.bytes()), accepted(6, 2, 1, 1, 1));
    assert_eq!(verdict(&g.bytes()), refused(12, 5, 5));
}

#[test]
fn cases_h_i_and_j() {
    let mut file = Parts::usual();
    file.rules = vec![rule_of_a()];
    file.secrets = vec![N];
    assert_eq!(verdict(&file.bytes()), refused(11, 2, 0));
    file.secrets = vec![T, N, Term::Atom(3)];
    assert_eq!(verdict(&file.bytes()), refused(9, 1, 0));
    file.secrets = vec![two(N, T)];
    assert_eq!(verdict(&file.bytes()), refused(10, 1, 0));
}

#[test]
fn cases_k_and_l() {
    let k = usual(Some(N), Term::Atom(3));
    assert_eq!(verdict(&k), refused(15, 4, 0));
    assert_eq!(line(&verdict(&k)), b"refused 15 block=4 place=0\n");
    assert_eq!(packed(&verdict(&k)), 15 * 65_536 + 4 * 256);
    assert_eq!(refused_part(&k, &verdict(&k)), &k[4 * 512..]);
    assert!(!shares(&[], &two(X, X), &two(Y, two(T, Y))));
    assert!(shares(&[], &two(X, X), &two(Y, Y)));
}

#[test]
fn lengths() {
    for length in [0, 511, 513, 33_280] {
        let file = vec![0; length];
        assert_eq!(verdict(&file), refused(1, 0, 0));
        assert!(refused_part(&file, &verdict(&file)).is_empty());
        assert_eq!(line(&verdict(&file)), b"refused 1 block=0 place=0\n");
    }
    assert_eq!(verdict(&vec![0; 32_768]), refused(3, 0, 0));
    let mut file = Parts::usual();
    file.rules = vec![rule_of_a(); 60];
    assert_eq!(verdict(&file.bytes()), accepted(64, 2, 1, 0, 60));
    file.rules.push(rule_of_a());
    assert_eq!(verdict(&file.bytes()), refused(1, 0, 0));
}

#[test]
fn check_of_one_byte() {
    let mut block = [0; 512];
    block[0] = 1;
    assert_eq!(seal(&mut block), Ok(4));
    assert_eq!(block[508..], [1, 0, 252, 1]);
    assert_eq!(literal::block::check_of(&block), (1, 508));
}

#[test]
fn sealing_writes_four_bytes_only() {
    let mut block: Vec<u8> = (0..512).map(|i| (i * 7 % 251) as u8).collect();
    let before = block.clone();
    assert_eq!(seal(&mut block), Ok(4));
    assert_eq!(block[..508], before[..508]);
    let a: u64 = before[..508].iter().map(|b| *b as u64).sum();
    assert_eq!(block[508..510], ((a % 65_521) as u16).to_le_bytes());
    for length in [0, 1, 511, 513, 1024] {
        let mut bytes = vec![9; length];
        assert_eq!(seal(&mut bytes), Err(13));
        assert_eq!(bytes, vec![9; length]);
    }
}

#[test]
fn one_changed_or_two_exchanged_bytes_change_the_check() {
    let mut block: Vec<u8> = (0..512).map(|i| (i * i % 253) as u8).collect();
    let check = literal::block::check_of(&block);
    for i in 0..508 {
        for other in (0..=255).step_by(5) {
            let byte = std::mem::replace(&mut block[i], other);
            assert_eq!(literal::block::check_of(&block) == check, byte == other);
            block[i] = byte;
        }
        for j in (0..i).step_by(3) {
            block.swap(i, j);
            assert_eq!(
                literal::block::check_of(&block) == check,
                block[i] == block[j]
            );
            block.swap(i, j);
        }
    }
}

#[test]
fn print_line_and_its_refusal() {
    for verdict in [accepted(64, 12, 9, 0, 7), refused(12, 63, 125)] {
        let line = line(&verdict);
        for length in 0..line.len() {
            let mut buffer = vec![b'~'; length];
            assert_eq!(print_line(&verdict, &mut buffer), Err(14));
            assert_eq!(buffer, vec![b'~'; length]);
        }
        for length in [line.len(), line.len() + 1, 200] {
            let mut buffer = vec![b'~'; length];
            assert_eq!(print_line(&verdict, &mut buffer), Ok(line.len()));
            assert_eq!(buffer[..line.len()], line);
            assert!(buffer[line.len()..].iter().all(|b| *b == b'~'));
        }
    }
}

/// Reading 10, also for verdicts from elsewhere.
#[test]
fn refused_parts() {
    let file = usual(None, enc(N, 2));
    for block in 0..5 {
        let part = refused_part(&file, &refused(7, block, 3));
        let start = 512 * block as usize;
        assert_eq!(part, &file[start..start + 512]);
        assert!(refused_part(&file, &refused(1, block, 0)).is_empty());
        assert!(refused_part(&file, &refused(4, block, 0)).is_empty());
    }
    for block in 5..=255 {
        assert!(refused_part(&file, &refused(2, block, 0)).is_empty());
    }
    assert!(refused_part(&file[..2559], &refused(2, 4, 0)).is_empty());
    assert!(refused_part(&file, &accepted(1, 1, 1, 1, 1)).is_empty());
}

/// Keys are no places; a variable counts at every occurrence.
#[test]
fn natural_slips() {
    let key_only = usual(None, enc(T, 3));
    assert_eq!(verdict(&key_only), accepted(5, 2, 1, 0, 1));
    let twice = usual(None, two(enc(X, 2), X));
    assert_eq!(verdict(&twice), refused(12, 4, 3));
}

/// Two encryptions above: both must let through, and one hat is enough.
#[test]
fn encryptions_in_encryptions() {
    let closed_below_clear = usual(Some(enc(enc(X, 2), 4)), X);
    assert_eq!(verdict(&closed_below_clear), refused(12, 4, 3));
    let closed_above_clear = usual(Some(enc(enc(X, 4), 2)), X);
    assert_eq!(verdict(&closed_above_clear), refused(12, 4, 3));
    let whole = usual(Some(enc(enc(X, 2), 4)), enc(X, 2));
    assert_eq!(verdict(&whole), accepted(5, 2, 1, 0, 1));
    let hat_above = usual(None, enc(enc(N, 4), 2));
    assert_eq!(verdict(&hat_above), accepted(5, 2, 1, 0, 1));
}
