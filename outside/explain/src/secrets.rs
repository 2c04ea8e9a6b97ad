//! The numbers 9, 10 and 11: secrets and the keys of good patterns.

use crate::report::{either, short, Finding, Report};
use crate::scene::Scene;
use crate::source::At;
use literal::numbers::ENTRIES;
use literal::read::Listed;
use literal::Term;

/// 9: a secret is a known atom.
pub fn known(report: &mut Report, scene: Scene, block: usize) {
    let Some(Listed {
        term: Term::Atom(number),
        ..
    }) = listed(&scene.certificate.secrets, block)
    else {
        return;
    };
    let name = scene.source.atom(*number);
    let finding = Finding {
        what: "a secret is a known atom".to_string(),
        at: At::Block(block),
        found: format!("{name}, which the intruder knows from the beginning"),
        expected: "a secret that the atom list does not call known".to_string(),
    };
    report.finding(scene.source, &finding);
    report.also(scene.source, atom_at(*number), &format!("{name} is known"));
}

/// 10: a secret is not weakly closed.
pub fn not_closed(report: &mut Report, scene: Scene, block: usize) {
    let Some(secret) = listed(&scene.certificate.secrets, block) else {
        return;
    };
    let (needed, why) = match &secret.term {
        Term::Pair(left, right) => (
            vec![(**left).clone(), (**right).clone()],
            "whoever has both halves makes the pair",
        ),
        Term::Encryption(message, key) => (
            vec![(**message).clone(), Term::Atom(*key)],
            "whoever has the message and the key makes it",
        ),
        Term::Signature(message, key) => (
            vec![(**message).clone(), Term::Atom(*key)],
            "whoever has the message and the key signs it",
        ),
        Term::Hash(message) => (
            vec![(**message).clone()],
            "whoever has the message makes the hash",
        ),
        _ => return,
    };
    let line = |term: &Term| format!("`secret {}`", short(scene.source.term(block, term)));
    let lines: Vec<String> = needed.iter().map(line).collect();
    let finding = Finding {
        what: "a secret is not weakly closed".to_string(),
        at: At::Block(block),
        found: format!("only the secret itself; {why}"),
        expected: format!("{} among the secrets", either(&lines)),
    };
    report.finding(scene.source, &finding);
}

/// 11: the inverse of a good pattern's root key is no listed secret.
pub fn key_not_kept(report: &mut Report, scene: Scene, block: usize) {
    let Some(Listed {
        term: Term::Encryption(_, key),
        ..
    }) = listed(&scene.certificate.goods, block)
    else {
        return;
    };
    let inverse = scene.certificate.atoms[*key as usize].partner;
    let is_known = scene.certificate.atoms[inverse as usize].known == 1;
    let (key, name) = (scene.source.atom(*key), scene.source.atom(inverse));
    let (expected, found) = match is_known {
        true => (
            "a key whose inverse the intruder does not have".to_string(),
            format!("{name}, which opens what is under {key} and is known: drop the pattern"),
        ),
        false => (
            format!("`secret {name}` among the secrets"),
            format!("no such secret; {name} opens what is encrypted under {key}"),
        ),
    };
    let finding = Finding {
        what: "the inverse of a good pattern's root key is no listed secret".to_string(),
        at: At::Block(block),
        found,
        expected,
    };
    report.finding(scene.source, &finding);
    report.also(scene.source, atom_at(inverse), &format!("the atom {name}"));
}

fn listed(list: &[Listed], block: usize) -> Option<&Listed> {
    list.iter().find(|listed| listed.block == block)
}

/// The entry of an atom.
pub fn atom_at(number: u16) -> At {
    let number = number as usize;
    At::Entry(number / ENTRIES, number % ENTRIES)
}
