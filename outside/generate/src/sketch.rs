//! A certificate before it becomes bytes.

use literal::block::sealed;
use literal::hats::{first_open_secret, first_uncovered};
use literal::numbers::{kind, ENTRIES};
use literal::read::{Atom, Certificate, Listed, Rule};
use literal::{encode, Term};

#[derive(Clone, Debug, Default)]
pub struct Sketch {
    pub atoms: Vec<Atom>,
    pub secrets: Vec<Term>,
    pub goods: Vec<Term>,
    pub bads: Vec<Term>,
    pub rules: Vec<(Option<Term>, Term)>,
}

impl Sketch {
    pub fn bytes(&self) -> Vec<u8> {
        self.blocks().concat()
    }

    pub fn block_count(&self) -> usize {
        let terms = self.secrets.len() + self.goods.len() + self.bads.len();
        self.atoms.chunks(ENTRIES).len() + terms + self.rules.len()
    }

    /// The first entry of a premise at which it shows a secret, with the secrets
    /// and patterns so far.
    pub fn first_open_secret(&self, premise: &Term) -> Option<usize> {
        let rule = rule(Some(premise), premise);
        first_open_secret(&self.certificate(), &rule)
    }

    /// Whether every risky place is covered, with the secrets and patterns so far.
    pub fn covers(&self, premise: Option<&Term>, conclusion: &Term) -> bool {
        let rule = rule(premise, conclusion);
        first_uncovered(&self.certificate(), &rule).is_none()
    }

    /// Atoms, secrets and patterns, as they are read.
    fn certificate(&self) -> Certificate {
        Certificate {
            atoms: self.atoms.clone(),
            secrets: listed(&self.secrets),
            goods: listed(&self.goods),
            bads: listed(&self.bads),
            ..Certificate::default()
        }
    }

    /// The sealed blocks.
    pub fn blocks(&self) -> Vec<Vec<u8>> {
        let mut blocks: Vec<Vec<u8>> = self.atoms.chunks(ENTRIES).map(atom_block).collect();
        let lists = [
            (kind::SECRET, &self.secrets),
            (kind::GOOD, &self.goods),
            (kind::BAD, &self.bads),
        ];
        for (kind, terms) in lists {
            for term in terms {
                blocks.push(sealed(kind, &encode(term), &[]));
            }
        }
        for (premise, conclusion) in &self.rules {
            let before = premise.as_ref().map(encode).unwrap_or_default();
            blocks.push(sealed(kind::RULE, &before, &encode(conclusion)));
        }
        blocks
    }
}

fn rule(premise: Option<&Term>, conclusion: &Term) -> Rule {
    Rule {
        block: 0,
        premise: premise.cloned(),
        conclusion: conclusion.clone(),
    }
}

/// The terms as listed ones; their blocks are not numbered.
fn listed(terms: &[Term]) -> Vec<Listed> {
    let of = |term: &Term| Listed {
        block: 0,
        term: term.clone(),
    };
    terms.iter().map(of).collect()
}

fn atom_block(atoms: &[Atom]) -> Vec<u8> {
    let mut entries = Vec::new();
    for atom in atoms {
        entries.extend([atom.kind, atom.known]);
        entries.extend(atom.partner.to_le_bytes());
    }
    sealed(kind::ATOMS, &entries, &[])
}
