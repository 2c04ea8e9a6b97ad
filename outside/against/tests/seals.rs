//! Both checkers on blocks with a known check, and the sealing of `literal`.

use generate::seals::{self, Seal};
use text::document::{ATOMS, GOOD, SECRETS};

type Check = fn(&[u8]) -> u32;

const CHECKS: [(&str, Check); 2] = [("literal", by_literal), ("fast", fast::check)];

fn by_literal(file: &[u8]) -> u32 {
    literal::packed(&literal::verdict(file))
}

fn assert_told(seal: &Seal, front: &[u8]) {
    for (name, check) in CHECKS {
        assert_eq!(seal.mistaken(front, check), None, "{name}, {}", seal.name);
    }
}

#[test]
fn sealed_as_known() {
    let mut blocks = 0;
    for seal in seals::all() {
        for mut block in seal.unsealed() {
            assert_eq!(literal::seal(&mut block), Ok(4));
            assert_eq!(block, seal.sealed(), "{}", seal.name);
        }
        blocks += 1;
    }
    assert_eq!(blocks, 259_868);
}

/// In files of one block.
#[test]
fn right_and_wrong_checks_are_told() {
    for seal in seals::all() {
        assert_told(&seal, &[]);
    }
}

/// Behind the first four blocks of the document's certificates.
#[test]
fn right_and_wrong_checks_are_told_in_a_later_block() {
    let front = text::assemble(&[ATOMS, SECRETS, GOOD].concat()).expect("the text is right");
    assert_eq!(front.len(), 4 * 512);
    for seal in seals::by_hand() {
        assert_told(&seal, &front);
    }
}

/// Checks that never answer with 2, always do, or always do at the next block.
#[test]
fn wrong_answers_are_mistaken() {
    let checks: [Check; 3] = [|_| 0, |_| 131_072, |_| 131_072 + 256];
    for seal in seals::by_hand() {
        for check in checks {
            assert!(seal.mistaken(&[], check).is_some(), "{}", seal.name);
        }
    }
}
