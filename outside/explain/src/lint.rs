//! What is accepted but suspect.

use crate::premise::variables;
use crate::report::{all_of, Report};
use crate::scene::Scene;
use crate::secrets::atom_at;
use crate::source::At;
use literal::hats::shares_with_some;
use literal::numbers::{atom_kind, kind, BLOCK};
use literal::read::{Certificate, Listed, Rule};
use literal::shares;
use literal::term::{marks, places, subterms, Term};

/// So many atoms without use are named.
const MOST_NAMES: usize = 12;

/// A part of the file, and what is suspect about it.
pub struct Suspect {
    pub at: At,
    pub words: String,
}

/// All that is suspect, in the order of the issues below.
pub fn suspects(scene: Scene) -> Vec<Suspect> {
    let mut found = Vec::new();
    found.extend(
        scene
            .certificate
            .rules
            .iter()
            .filter_map(|rule| lone_variable(scene, rule)),
    );
    found.extend(keys_of_the_intruder(scene.certificate));
    found.extend(patterns_without_marks(scene));
    found.extend(patterns_without_use(scene));
    found.extend(bads_without_good(scene.certificate));
    found.extend(atoms_without_use(scene));
    found.extend(equal_blocks(scene));
    found
}

/// The suspects with their lines, and how many they are.
pub fn told(report: &mut Report, scene: Scene) {
    let suspects = suspects(scene);
    for suspect in &suspects {
        report.also(scene.source, suspect.at, &suspect.words);
    }
    match suspects.len() {
        0 => report.line("nothing is suspect"),
        1 => report.line("1 thing is suspect"),
        count => report.line(format!("{count} things are suspect")),
    }
}

/// Variables that only the conclusion has: anything may stand there.
fn lone_variable(scene: Scene, rule: &Rule) -> Option<Suspect> {
    let there = rule.premise.as_ref().map_or(Vec::new(), variables);
    let mut lone = variables(&rule.conclusion);
    lone.retain(|variable| !there.contains(variable));
    let first = lone.first()?;
    let all = subterms(&rule.conclusion);
    let place = all.iter().find(|place| place.subterm == *first)?;
    let name = |term: &&Term| scene.source.term(rule.block, term);
    let names: Vec<String> = lone.iter().map(name).collect();
    Some(Suspect {
        at: At::Entry(rule.block, rule.premise_entries() + place.entry),
        words: format!(
            "only the conclusion has {}: the rule sends {} there",
            all_of(&names),
            what_is_sent(scene, &lone)
        ),
    })
}

/// What may stand for these variables.
fn what_is_sent(scene: Scene, variables: &[&Term]) -> &'static str {
    let all_nonces = variables
        .iter()
        .all(|variable| variable.is_nonce_variable());
    match (all_nonces, scene.secret_nonce()) {
        (false, _) => "any message, a secret too",
        (true, Some(_)) => "any nonce, a secret one too",
        (true, None) => "any nonce",
    }
}

/// The intruder has foreign nonces, but no key that the file does not list.
fn keys_of_the_intruder(certificate: &Certificate) -> Vec<Suspect> {
    let of_kind = |wanted: u8| {
        certificate
            .atoms
            .iter()
            .filter(move |atom| atom.kind == wanted)
    };
    let has_known = |wanted: u8| of_kind(wanted).any(|atom| atom.known == 1);
    let has = |wanted: u8| of_kind(wanted).next().is_some();
    let mut words = Vec::new();
    if !has(atom_kind::SYMMETRIC) {
        words.push("no symmetric key is listed or known: right only if no part takes one");
    } else if !has_known(atom_kind::SYMMETRIC) {
        words
            .push("no symmetric key is known: attacks with one of the intruder's own are not seen");
    }
    if has(atom_kind::PRIVATE) && !has_known(atom_kind::PRIVATE) {
        words.push("no private key is known: attacks with one of the intruder's own are not seen");
    }
    let suspect = |words: &str| Suspect {
        at: At::File,
        words: words.to_string(),
    };
    words.into_iter().map(suspect).collect()
}

/// A good pattern without a mark protects nothing.
fn patterns_without_marks(scene: Scene) -> Vec<Suspect> {
    let goods = scene.certificate.goods.iter();
    let without = goods.filter(|good| marks(&good.term).is_empty());
    let suspect = |good: &Listed| Suspect {
        at: At::Block(good.block),
        words: "a good pattern without a mark protects nothing, and closes premises".to_string(),
    };
    without.map(suspect).collect()
}

/// Patterns that share an instance with no encryption of any rule.
fn patterns_without_use(scene: Scene) -> Vec<Suspect> {
    let certificate = scene.certificate;
    let encryptions = encryptions(certificate);
    let is_used = |listed: &Listed| {
        let mut all = encryptions.iter();
        all.any(|encryption| shares(&certificate.atoms, &listed.term, encryption))
    };
    let patterns = certificate.goods.iter().chain(&certificate.bads);
    let suspect = |listed: &Listed| {
        Suspect {
        at: At::Block(listed.block),
        words: "no encryption at a place of any rule matches this pattern or shares an instance with it"
            .to_string(),
    }
    };
    patterns
        .filter(|listed| !is_used(listed))
        .map(suspect)
        .collect()
}

/// Bad patterns that take nothing out of a good one.
fn bads_without_good(certificate: &Certificate) -> Vec<Suspect> {
    let takes = |bad: &Listed| shares_with_some(&certificate.atoms, &bad.term, &certificate.goods);
    let suspect = |bad: &Listed| Suspect {
        at: At::Block(bad.block),
        words: "no good pattern shares an instance with this bad one: it takes nothing out"
            .to_string(),
    };
    let bads = certificate.bads.iter().filter(|bad| !takes(bad));
    bads.map(suspect).collect()
}

/// Every encryption at a place of a rule.
fn encryptions(certificate: &Certificate) -> Vec<&Term> {
    let terms = certificate.rules.iter().flat_map(terms_of);
    let all = terms.flat_map(places).map(|place| place.subterm);
    all.filter(|subterm| subterm.is_encryption()).collect()
}

fn terms_of(rule: &Rule) -> impl Iterator<Item = &Term> {
    rule.premise.iter().chain([&rule.conclusion])
}

/// Atoms that no term holds, but for the partner of a key that one does, and for
/// known keys: the intruder uses these.
fn atoms_without_use(scene: Scene) -> Option<Suspect> {
    let certificate = scene.certificate;
    let listed = certificate.secrets.iter();
    let listed = listed.chain(&certificate.goods).chain(&certificate.bads);
    let terms = listed.map(|listed| &listed.term);
    let mut used = vec![false; certificate.atoms.len()];
    for term in terms.chain(certificate.rules.iter().flat_map(terms_of)) {
        mark_used(certificate, term, &mut used);
    }
    let is_suspect = |number: &u16| {
        let atom = certificate.atoms[*number as usize];
        !used[*number as usize] && !(atom.is_key() && atom.known == 1)
    };
    let unused: Vec<u16> = (0..used.len() as u16).filter(is_suspect).collect();
    let first = unused.first()?;
    let told = unused.iter().take(MOST_NAMES);
    let names: Vec<String> = told.map(|atom| scene.source.atom(*atom)).collect();
    let more = match unused.len() - names.len() {
        0 => String::new(),
        more => format!(" and {more} more"),
    };
    Some(Suspect {
        at: atom_at(*first),
        words: format!("no term uses {}{more}", names.join(", ")),
    })
}

fn mark_used(certificate: &Certificate, term: &Term, used: &mut [bool]) {
    for place in subterms(term) {
        let number = match place.subterm {
            Term::Atom(number) | Term::Encryption(_, number) | Term::Signature(_, number) => {
                *number as usize
            }
            _ => continue,
        };
        used[number] = true;
        let atom = certificate.atoms[number];
        if atom.is_key() {
            used[atom.partner as usize] = true;
        }
    }
}

/// Blocks of terms that are equal to an earlier one, byte for byte.
fn equal_blocks(scene: Scene) -> Vec<Suspect> {
    let blocks: Vec<&[u8]> = scene.source.file.chunks(BLOCK).collect();
    let earlier = |number: usize| {
        let is_terms = literal::block::kind(blocks[number]) != kind::ATOMS;
        let mut before = blocks[..number].iter();
        before.position(|block| is_terms && *block == blocks[number])
    };
    let suspect = |number: usize| {
        let first = scene.source.line_of(earlier(number)?);
        Some(Suspect {
            at: At::Block(number),
            words: format!("this block is equal to an earlier one, {first}"),
        })
    };
    (0..blocks.len()).filter_map(suspect).collect()
}
