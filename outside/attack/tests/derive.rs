//! Derivations of messages from messages.

mod common;

use attack::derive::derive;
use attack::message::shown;
use attack::Move;
use common::certificate;
use literal::Term;

const ATOMS: &str = "
atom A principal known
atom KA public known partner KAi
atom KAi private unknown partner KA
atom KI public known partner KIi
atom KIi private known partner KI
atom K symmetric unknown
atom N nonce unknown
atom T nonce known
";

/// The moves to the last of these messages from those before it, in a line.
fn moves(messages: &[&str]) -> Option<String> {
    let secrets: Vec<String> = messages
        .iter()
        .map(|term| format!("secret {term}\n"))
        .collect();
    let certificate = certificate(&format!("{ATOMS}{}rule -> A\n", secrets.concat()));
    let terms: Vec<Term> = certificate
        .secrets
        .into_iter()
        .map(|secret| secret.term)
        .collect();
    let (goal, has) = terms.split_last()?;
    let derivation = derive(&certificate.atoms, has, goal)?;
    let told: Vec<String> = derivation.moves.iter().map(told).collect();
    Some(told.join(", "))
}

fn told(step: &Move) -> String {
    let word = match step {
        Move::Has(_) => "has",
        Move::Pairs(_) => "pairs",
        Move::Encrypts(_) => "encrypts",
        Move::Hashes(_) => "hashes",
        Move::Signs(_) => "signs",
        Move::Left(_) => "left",
        Move::Right(_) => "right",
        Move::Decrypts(_) => "decrypts",
        Move::Reads(_) => "reads",
    };
    format!("{word} {}", shown(step.named()))
}

fn is(messages: &[&str], expected: &str) {
    assert_eq!(moves(messages).as_deref(), Some(expected), "{messages:?}");
}

#[test]
fn made() {
    is(&["A"], "has 0");
    is(&["(A, T)"], "has 0, has 7, pairs (0, 7)");
    is(&["(A, A)"], "has 0, pairs (0, 0)");
    is(&["{A}KA"], "has 0, has 1, encrypts {0}1");
    is(&["h(A)"], "has 0, hashes h(0)");
    is(&["sig(A)KIi"], "has 0, has 4, signs sig(0)4");
}

#[test]
fn taken_apart() {
    is(&["(N, A)", "N"], "has (6, 0), left (6, 0)");
    is(&["(A, N)", "N"], "has (0, 6), right (0, 6)");
    is(&["{N}KI", "N"], "has {6}3, has 4, decrypts {6}3");
    is(&["sig(N)KAi", "N"], "has sig(6)2, reads sig(6)2");
    is(&["{N}K", "K", "N"], "has {6}5, has 5, decrypts {6}5");
    is(&["{N}KIi", "N"], "has {6}4, has 3, decrypts {6}4");
}

/// What the intruder has is not made again, and a detour is not gone.
#[test]
fn short_ways() {
    is(&["{A}KA", "{A}KA"], "has {0}1");
    is(&["(N, {A}KA)", "{A}KA"], "has (6, {0}1), right (6, {0}1)");
    is(&["((N, T), A)", "N", "N"], "has 6");
    is(
        &["{(N, T)}KI", "({N}K, N)", "N"],
        "has ({6}5, 6), right ({6}5, 6)",
    );
}

#[test]
fn not_derivable() {
    for messages in [
        &["N"][..],
        &["h(N)", "N"],
        &["{N}KA", "N"],
        &["{N}K", "N"],
        &["{N}K", "{K}KA", "N"],
        &["sig(A)KAi"],
        &["sig(N)KIi", "sig(N)KAi"],
        &["h((N, A))", "h(N)"],
        &["{(N, A)}KA", "{N}KA"],
    ] {
        assert_eq!(moves(messages), None, "{messages:?}");
    }
}
