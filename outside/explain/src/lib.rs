//! Refusals that a designer understands, and what is accepted but suspect. All of
//! it stands outside of what is proved: it judges by `literal`, holds that verdict
//! against the proved line, and explains it in the words of the designer's text.

mod attacks;
pub mod cover;
pub mod entries;
pub mod hats;
pub mod layout;
pub mod lint;
pub mod mismatch;
pub mod open_secret;
pub mod premise;
pub mod report;
pub mod scene;
pub mod secrets;
pub mod source;
pub mod taken;
mod unmarked;

use literal::read::read;
use literal::{Refusal, Verdict};
use report::Report;
use scene::Scene;
use source::Source;

/// Why the file is refused, behind the proved verdict line.
pub fn why(source: &Source, proved: &str) -> String {
    let mut report = Report::default();
    let verdict = literal::verdict(&source.file);
    origin(&mut report, source, proved, &verdict);
    match verdict {
        Verdict::Accepted(_) => {
            report.line("Nothing is to be explained. What is accepted but suspect: --lint.")
        }
        Verdict::Refused(refusal) => refused(&mut report, source, &refusal),
    }
    report.text()
}

/// What is suspect, behind the proved verdict line.
pub fn lint(source: &Source, proved: &str) -> String {
    let mut report = Report::default();
    let verdict = literal::verdict(&source.file);
    origin(&mut report, source, proved, &verdict);
    match read(&source.file) {
        Ok(certificate) => {
            let certificate = &certificate;
            lint::told(
                &mut report,
                Scene {
                    source,
                    certificate,
                },
            );
        }
        Err(_) => report.line("The file cannot be read as a certificate: --why tells the cause."),
    }
    report.text()
}

/// Where the words come from, and whether the two verdicts are the same.
fn origin(report: &mut Report, source: &Source, proved: &str, verdict: &Verdict) {
    let line = literal::line(verdict);
    let line = String::from_utf8_lossy(&line).trim_end().to_string();
    match line == proved {
        true => report
            .line("What follows is not proved; it is by `literal`, whose verdict is the same."),
        false => {
            report.line("What follows is not proved; it is by `literal`.");
            report.line("WARNING: THE TWO VERDICTS DIFFER. The proved line stands; this explains the other.");
            report.line(format!("proved:  {proved}"));
            report.line(format!("literal: {line}"));
        }
    }
    if let Some(form) = source.form() {
        report.line(form);
    }
    report.line("");
}

/// The explanation for each number.
fn refused(report: &mut Report, source: &Source, refusal: &Refusal) {
    let (block, place) = (refusal.block as usize, refusal.place as usize);
    let file = &source.file;
    let finding = match refusal.number {
        1 if source.is_empty_text() => layout::no_lines(),
        1 => layout::length(file),
        2 => layout::check(file, block),
        3 => layout::kind_order(file, block),
        4 => layout::missing(file),
        5 => layout::counts(file, block),
        6 => entries::atom(source, block, place),
        7 => entries::entry(source, block, place),
        8 => entries::whole(source, block, place),
        _ => return judged(report, source, refusal),
    };
    report.finding(source, &finding);
}

/// The numbers of a file that can be read.
fn judged(report: &mut Report, source: &Source, refusal: &Refusal) {
    let Ok(certificate) = read(&source.file) else {
        return;
    };
    let scene = Scene {
        source,
        certificate: &certificate,
    };
    let (block, place) = (refusal.block as usize, refusal.place as usize);
    match refusal.number {
        9 => secrets::known(report, scene, block),
        10 => secrets::not_closed(report, scene, block),
        11 => secrets::key_not_kept(report, scene, block),
        12 => cover::uncovered(report, scene, block, place),
        _ => open_secret::open_secret(report, scene, block, place),
    }
}
