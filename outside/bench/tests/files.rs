//! File 13a again, from what it is made of.

use bench::files::{self, Certificate};
use bench::proved;
use generate::sketch::Sketch;
use literal::numbers::{atom_kind, BLOCK, MOST_BYTES};
use literal::read::Atom;
use literal::Term;

const LAST: usize = MOST_BYTES - BLOCK;

/// An atom, then 62 secrets and a rule of one entry each.
fn of_one_entry_each() -> Vec<u8> {
    let atom = Atom {
        kind: atom_kind::NONCE,
        known: 0,
        partner: 0,
    };
    let sketch = Sketch {
        atoms: vec![atom],
        secrets: vec![Term::Atom(0); 62],
        rules: vec![(None, Term::Atom(0))],
        ..Sketch::default()
    };
    sketch.bytes()
}

/// The answer of all three.
fn answer(file: &[u8]) -> String {
    let answer = literal::packed(&literal::verdict(file));
    assert_eq!(answer, fast::check(file));
    assert_eq!(answer, proved::check(file));
    files::in_words(answer)
}

/// The file's last byte, which is one of its last check's, is raised by 1.
#[test]
fn checks_alone() {
    let path = files::own().join("13a-checks-alone.cert");
    let mut file = Certificate::read(&path).expect("the file").bytes;
    assert_eq!(answer(&file), "2 63 0");
    let mut right = of_one_entry_each();
    right[MOST_BYTES - 1] += 1;
    assert!(file == right);
    literal::seal(&mut file[LAST..]).expect("a block");
    assert_eq!(answer(&file), "12 63 0");
}
