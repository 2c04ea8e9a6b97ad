//! The families make files whose rules are judged; the mutations keep the layout.

use bench::proved;
use bench::search::families;
use bench::search::mutate::mutated;
use generate::random::Random;
use generate::sketch::Sketch;

/// The number that the file is refused with, the same from both.
fn number(sketch: &Sketch, name: &str) -> u32 {
    let file = sketch.bytes();
    let answer = proved::check(&file);
    assert_eq!(answer, fast::check(&file), "{name}");
    answer >> 16
}

/// Number 15 alone ends the judging of rules early, and one family is for it.
#[test]
fn rules_of_families_are_judged() {
    for family in families::written() {
        let random = &mut Random::new(1);
        for _ in 0..10 {
            let number = number(&(family.make)(random), &family.name);
            let judged = match family.name.as_str() {
                "open-secrets-last" => number == 15,
                "generated" => true,
                _ => number == 0 || number == 12,
            };
            assert!(judged, "{}: {number}", family.name);
        }
    }
}

#[test]
fn mutations_keep_the_layout() {
    for family in families::written() {
        let random = &mut Random::new(2);
        let mut sketch = (family.make)(random);
        for _ in 0..30 {
            let next = mutated(random, &sketch);
            let number = number(&next, &family.name);
            assert!(number == 0 || number > 8, "{}: {number}", family.name);
            sketch = next;
        }
    }
}
