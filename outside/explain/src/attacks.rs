//! Number 12: is the protocol broken, or only the certificate too narrow?

use crate::report::{all_of, short, Report};
use crate::scene::Scene;
use attack::{Attack, Bound, Derivation, Move, Outcome, Step};
use literal::read::Rule;
use literal::Term;

/// The run that was found, or what was searched for one.
pub fn broken_or_narrow(report: &mut Report, scene: Scene, refused: &Rule) {
    report.title("Is the protocol broken, or only the certificate too narrow?");
    match attack::search(scene.certificate) {
        Outcome::Found(attack) => broken(report, scene, refused, &attack),
        Outcome::NotFound(bound) => not_found(report, &bound),
    }
}

fn not_found(report: &mut Report, bound: &Bound) {
    report.item(format!("No attack was found: {bound}."));
    report.item(
        "That is a search and no proof. If the protocol is right, the certificate is too narrow:",
    );
    report.item(
        "give the message that carries the secret a good pattern with a mark at its place, or take",
    );
    report.item("messages whose contents are for everybody out of a good pattern by a bad one.");
}

fn broken(report: &mut Report, scene: Scene, refused: &Rule, attack: &Attack) {
    let secret = &scene.certificate.secrets[attack.secret];
    let words = scene.listed("secret", secret);
    report.item(format!("Broken: after this run the intruder has {words}."));
    report.item("A second walk, which knows only the document's moves, agrees.");
    let mut had = Vec::new();
    for (number, step) in (1..).zip(&attack.steps) {
        had.push(told_step(report, scene, number, step, &had));
    }
    report.item(format!(
        "after that it derives {}:",
        scene.message(&secret.term)
    ));
    moves(report, scene, &attack.derivation, &had);
    report.item(
        "No patterns make these rules acceptable with these secrets and known atoms: the protocol",
    );
    report.item("has to change, or what is mistyped in the rules or the lists.");
    let is_refused = |step: &Step| scene.certificate.rules[step.rule].block == refused.block;
    if !attack.steps.iter().any(is_refused) {
        report.item("The refused rule takes no part in this run: what is wrong with it is a fault of its own.");
    }
}

/// One step; the answer is the message that it adds.
fn told_step(report: &mut Report, scene: Scene, number: usize, step: &Step, had: &[Term]) -> Term {
    let rule = &scene.certificate.rules[step.rule];
    report.item(format!("step {number}: {}", rule_words(scene, rule)));
    let replaced: Vec<String> = step
        .replacement
        .iter()
        .map(|(variable, message)| {
            let variable = scene.source.term(rule.block, variable);
            format!("{variable} = {}", scene.message(message))
        })
        .collect();
    if !replaced.is_empty() {
        report.detail(format!("with {}", all_of(&replaced)));
    }
    if let Some(premise) = &step.premise {
        moves(report, scene, premise, had);
    }
    let added = attack::message::instance(&rule.conclusion, &step.replacement);
    report.detail(format!("the rule answers {}", scene.message(&added)));
    added
}

fn rule_words(scene: Scene, rule: &Rule) -> String {
    let term = |term: &Term| short(scene.source.term(rule.block, term));
    let premise = rule
        .premise
        .as_ref()
        .map_or(String::new(), |p| term(p) + " ");
    let line = scene.source.line_of(rule.block);
    format!("rule {premise}-> {} ({line})", term(&rule.conclusion))
}

/// How a message is derived: first what the intruder knows, then move by move.
fn moves(report: &mut Report, scene: Scene, derivation: &Derivation, had: &[Term]) {
    let knows = |step: &&Move| matches!(step, Move::Has(m) if !had.contains(m));
    let known = derivation.moves.iter().filter(knows);
    let known: Vec<String> = known.map(|step| scene.message(step.derived())).collect();
    if !known.is_empty() {
        report.detail(format!("the intruder knows {}", all_of(&known)));
    }
    for step in derivation.moves.iter().filter(|step| !knows(step)) {
        report.detail(move_words(scene, step, had));
    }
}

fn move_words(scene: Scene, step: &Move, had: &[Term]) -> String {
    let named = scene.message(step.named());
    let given = scene.message(step.derived());
    match step {
        Move::Has(message) => {
            let number = had
                .iter()
                .position(|one| one == message)
                .unwrap_or_default();
            format!("it has {named} from step {}", number + 1)
        }
        Move::Pairs(_) => format!("it pairs {named}"),
        Move::Encrypts(_) => format!("it encrypts {named}"),
        Move::Hashes(_) => format!("it hashes {named}"),
        Move::Signs(_) => format!("it signs {named}"),
        Move::Left(_) => format!("it splits {named} and takes the left half, {given}"),
        Move::Right(_) => format!("it splits {named} and takes the right half, {given}"),
        Move::Decrypts(_) => format!("it decrypts {named} and gets {given}"),
        Move::Reads(_) => format!("it reads below the signature of {named} and gets {given}"),
    }
}
