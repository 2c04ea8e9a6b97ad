//! `fast` answers what `literal` answers.

use against::disagreement;
use command::files;
use std::path::{Path, PathBuf};

fn assert_same(name: &str, file: &[u8]) {
    if let Some(text) = disagreement(file) {
        panic!("{name}: {text}");
    }
}

/// The certificates of a folder, named from this crate's.
fn certificates(folder: &str) -> Vec<PathBuf> {
    let folder = Path::new(env!("CARGO_MANIFEST_DIR")).join(folder);
    files::ending_in("cert", &folder).expect("the folder has certificates")
}

fn bytes(path: &Path) -> Vec<u8> {
    files::bytes(path).expect("a file")
}

#[test]
fn corpus_and_bench_files() {
    let [corpus, bench] = ["../corpus", "../bench/files"].map(certificates);
    assert_eq!(corpus.len(), 25);
    assert!(bench.len() >= 10);
    for path in corpus.iter().chain(&bench) {
        assert_same(&files::name(path), &bytes(path));
    }
}

#[test]
fn generated_files() {
    for seed in 0..6_000 {
        assert_same(&format!("file {seed}"), &generate::file(seed));
        assert_same(&format!("damaged {seed}"), &generate::damaged(seed));
    }
}

#[test]
fn deep_files() {
    for seed in 0..4_000 {
        assert_same(&format!("deep {seed}"), &generate::deep(seed));
    }
}

/// One byte of a bench file changed, and the block sealed again. After the first
/// come files with marks in bad patterns, with nonce variables, with secrets in
/// premises, with a wrong check, and with hashes and signatures; the last have
/// two atom blocks.
#[test]
fn changed_bytes() {
    let all = certificates("../bench/files");
    for path in all[..16].iter().chain(&all[all.len() - 2..]) {
        let (name, file) = (files::name(path), bytes(path));
        let mut random = generate::random::Random::new(7);
        for _ in 0..100 {
            let mut changed = file.clone();
            let at = random.below(file.len());
            changed[at] = random.below(11) as u8;
            let start = at / 512 * 512;
            literal::seal(&mut changed[start..start + 512]).expect("a block");
            assert_same(&format!("{name}, byte {at}"), &changed);
        }
    }
}

/// Where the deep files end: all three answers must be frequent.
#[test]
fn deep_files_tell() {
    let answers: Vec<u32> = (0..4_000)
        .map(|seed| fast::check(&generate::deep(seed)))
        .collect();
    let share = |number| answers.iter().filter(|a| **a >> 16 == number).count();
    assert_eq!(share(0) + share(12) + share(15), answers.len());
    assert!(share(0) > 400 && share(12) > 400 && share(15) > 100);
}
