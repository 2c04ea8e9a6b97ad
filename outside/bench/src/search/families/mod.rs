//! Families of files that are meant to hurt, each with parameters by chance.

mod chains;
mod deep;
mod hashes;
mod hats;
mod joined;
mod links;
mod marked;
mod nonces;
mod open_secrets;
mod secrets;
mod wide;

use crate::search::shapes::fill;
use generate::random::Random;
use generate::sketch::Sketch;
use literal::numbers::MOST_BLOCKS;
use literal::read::Listed;
use literal::Term;

pub struct Family {
    pub name: String,
    pub make: Box<dyn Fn(&mut Random) -> Sketch>,
}

fn family(name: &str, make: impl Fn(&mut Random) -> Sketch + 'static) -> Family {
    Family {
        name: name.to_string(),
        make: Box::new(make),
    }
}

/// The families of this folder, and the generator's certificates.
pub fn written() -> Vec<Family> {
    let mut all = without_marks_in_bads();
    all.extend(with_marks_in_bads());
    all.extend(with_nonce_variables());
    all.extend(with_secrets_in_premises());
    all.extend(with_hashes());
    all.push(family("generated", generated));
    all
}

fn with_marks_in_bads() -> [Family; 5] {
    [
        family("marked-beside", marked::beside),
        family("marked-late", marked::late),
        family("marked-premises", marked::premises),
        family("marked-fields", marked::fields),
        family("marked-below", marked::below),
    ]
}

fn with_nonce_variables() -> [Family; 4] {
    [
        family("nonces-chains", nonces::chains),
        family("nonces-late-clash", nonces::late_clash),
        family("nonces-classes", nonces::classes),
        family("nonces-hats", nonces::hats),
    ]
}

fn with_secrets_in_premises() -> [Family; 3] {
    [
        family("open-secrets-closed", open_secrets::closed),
        family("open-secrets-behind", open_secrets::behind),
        family("open-secrets-last", open_secrets::last),
    ]
}

fn with_hashes() -> [Family; 8] {
    [
        family("hashes-hidden", hashes::hidden),
        family("hashes-beside", hashes::beside),
        family("hashes-signers", hashes::signers),
        family("hashes-compared", hashes::compared),
        family("hashes-cyclic", hashes::cyclic),
        family("hashes-fields", hashes::fields),
        family("hashes-secrets", hashes::secrets),
        family("hashes-marks", hashes::marks),
    ]
}

fn without_marks_in_bads() -> Vec<Family> {
    vec![
        family("chains-irrelevant", chains::irrelevant),
        family("chains-to-a-secret", chains::to_a_secret),
        family("chains-to-a-variable", chains::to_a_variable),
        family("chains-of-pairs", chains::of_pairs),
        family("chains-compared", chains::compared),
        family("chains-doubling", chains::doubling),
        family("links-renamed", links::renamed),
        family("links-cyclic", links::cyclic),
        family("links-late-clash", links::late_clash),
        family("links-compared", links::compared),
        family("links-rule-repeats", links::rule_repeats),
        family("links-two-steps", links::two_steps),
        family("links-rings", links::rings),
        family("links-bad-last", links::bad_last),
        family("hats-shared", hats::shared),
        family("hats-matched", hats::matched),
        family("hats-both", hats::both),
        family("hats-repeated", hats::repeated),
        family("secrets-everywhere", secrets::everywhere),
        family("secrets-prefixes", secrets::prefixes),
        family("secrets-closing", secrets::closing),
        family("secrets-variables", secrets::variables),
        family("wide-variables", wide::variables),
        family("wide-trees", wide::trees),
        family("wide-mixed", wide::mixed),
        family("deep-cycles", deep::cycles),
        family("deep-walks", deep::walks),
        family("joined-atoms", joined::atoms),
        family("joined-keys", joined::keys),
        family("joined-cyclic", joined::cyclic),
        family("joined-hats", joined::hats),
    ]
}

/// A certificate of the generator, its rules repeated up to the last block.
fn generated(random: &mut Random) -> Sketch {
    loop {
        let sketch = generate::certificate::sketch(random);
        let rules = sketch.rules.clone();
        if sketch.block_count() <= MOST_BLOCKS && !rules.is_empty() {
            return fill(sketch, |i| rules[i % rules.len()].clone());
        }
    }
}

/// A file as the only member of a family, if it can be read.
pub fn from_file(name: &str, file: &[u8]) -> Option<Family> {
    let certificate = literal::read::read(file).ok()?;
    let terms = |list: &[Listed]| -> Vec<Term> { list.iter().map(|l| l.term.clone()).collect() };
    let rules = certificate.rules.iter();
    let sketch = Sketch {
        atoms: certificate.atoms.clone(),
        secrets: terms(&certificate.secrets),
        goods: terms(&certificate.goods),
        bads: terms(&certificate.bads),
        rules: rules
            .map(|rule| (rule.premise.clone(), rule.conclusion.clone()))
            .collect(),
    };
    Some(family(name, move |_| sketch.clone()))
}
