//! Pairs of terms of 63 entries, made as text, with known answers.

use crate::atoms::all_keys;
use crate::chains;
use crate::vectors::Vector;
use crate::words::text_of;
use literal::numbers::VARIABLES;

const YES: [bool; 4] = [true; 4];
const NO: [bool; 4] = [false; 4];
/// The first is a pattern of the second.
const MATCHES: [bool; 4] = [true, true, false, false];
/// Each is a pattern of the other.
const RENAMED: [bool; 4] = [true, true, true, false];
const SHARES: [bool; 4] = [true, false, false, false];

pub fn vectors() -> Result<Vec<Vector>, String> {
    let keys = all_keys();
    let pairs = [
        lists(),
        trees(),
        nests(),
        other_nests(),
        many_variables(),
        chains(),
    ]
    .concat();
    pairs
        .iter()
        .map(|(first, second, answers)| Vector::new(&keys, first, second, *answers))
        .collect()
}

type Pair = (String, String, [bool; 4]);

/// (a, (b, (c, d)))
fn list(items: &[String]) -> String {
    let (last, others) = items.split_last().expect("a list has items");
    others
        .iter()
        .rev()
        .fold(last.clone(), |rest, item| format!("({item}, {rest})"))
}

/// (((a, b), c), d)
fn left_list(items: &[String]) -> String {
    let (first, others) = items.split_first().expect("a list has items");
    others
        .iter()
        .fold(first.clone(), |rest, item| format!("({rest}, {item})"))
}

/// ((a, b), (c, d))
fn tree(items: &[String]) -> String {
    match items {
        [item] => item.clone(),
        _ => {
            let (left, right) = items.split_at(items.len() / 2);
            format!("({}, {})", tree(left), tree(right))
        }
    }
}

/// The term under so many keys, all KA but the innermost.
fn nest(term: &str, depth: usize, innermost: &str) -> String {
    (1..depth).fold(format!("{{{term}}}{innermost}"), |inner, _| {
        format!("{{{inner}}}KA")
    })
}

fn all(item: &str, count: usize) -> Vec<String> {
    vec![item.to_string(); count]
}

fn all_but_last(item: &str, last: &str, count: usize) -> Vec<String> {
    [all(item, count - 1), all(last, 1)].concat()
}

/// The plain variables, then the marked ones.
fn variables() -> Vec<String> {
    let plain = (0..VARIABLES).map(|n| format!("?{n}"));
    let marked = (0..VARIABLES).map(|n| format!("*{n}"));
    plain.chain(marked).collect()
}

fn lists() -> Vec<Pair> {
    let x = all("?x", 32);
    let mut pairs = Vec::new();
    for shape in [list, left_list] {
        let ground = shape(&all("A", 32));
        let other = shape(&all_but_last("A", "T", 32));
        let open = shape(&all_but_last("A", "?x", 32));
        let marked = shape(&all_but_last("?x", "*x", 32));
        pairs.push((shape(&x), ground.clone(), MATCHES));
        pairs.push((shape(&x), other.clone(), NO));
        pairs.push((ground.clone(), other.clone(), NO));
        pairs.push((ground.clone(), ground.clone(), YES));
        pairs.push((open.clone(), other.clone(), MATCHES));
        pairs.push((shape(&x), open, SHARES));
        pairs.push((marked.clone(), shape(&x), MATCHES));
        pairs.push((marked, other, MATCHES));
    }
    pairs.push((list(&x), left_list(&all("A", 32)), NO));
    pairs.push((list(&x), left_list(&x), NO));
    pairs.push((left_list(&all("A", 3)), list(&all("A", 3)), NO));
    pairs
}

fn eight_times(items: [&str; 4]) -> Vec<String> {
    items.repeat(8).into_iter().map(str::to_string).collect()
}

fn trees() -> Vec<Pair> {
    let x = all("?x", 32);
    let atoms = eight_times(["A", "I", "N", "T"]);
    let variables = eight_times(["?a", "?b", "*a", "*b"]);
    let three = eight_times(["?a", "?b", "*a", "?b"]);
    vec![
        (tree(&variables), tree(&atoms), MATCHES),
        (tree(&three), tree(&atoms), NO),
        (tree(&variables), tree(&x), MATCHES),
        (tree(&x), tree(&atoms), NO),
        (tree(&variables), tree(&variables), YES),
    ]
}

fn nests() -> Vec<Pair> {
    let deepest = nest("?x", 62, "KA");
    vec![
        (deepest.clone(), nest("A", 62, "KA"), MATCHES),
        (deepest.clone(), nest("A", 62, "KI"), NO),
        (deepest.clone(), nest("A", 61, "KA"), NO),
        (nest("?x", 61, "KA"), deepest.clone(), MATCHES),
        (nest("?x", 1, "KA"), deepest.clone(), MATCHES),
        (deepest.clone(), nest("*x", 62, "KA"), RENAMED),
        (deepest, "*x".to_string(), [true, false, true, false]),
        (
            format!("(?x, {})", nest("?x", 60, "KA")),
            "(?y, ?y)".to_string(),
            NO,
        ),
        (
            format!("(?x, {})", nest("?x", 60, "KA")),
            "(?0, ?1)".to_string(),
            [true, false, true, false],
        ),
    ]
}

/// The term in so many hashes, or signatures with KAi.
fn wrapped(term: &str, depth: usize, (open, close): (&str, &str)) -> String {
    format!("{}{term}{}", open.repeat(depth), close.repeat(depth))
}

/// Hashes and signatures, 62 deep.
fn other_nests() -> Vec<Pair> {
    let hash = ("h(", ")");
    let signed = ("sig(", ")KAi");
    let mut pairs = Vec::new();
    for around in [hash, signed] {
        let deepest = wrapped("?x", 62, around);
        let innermost = |term: &str| wrapped(term, 61, around);
        pairs.extend([
            (deepest.clone(), wrapped("A", 62, around), MATCHES),
            (deepest.clone(), wrapped("A", 61, around), NO),
            (wrapped("A", 62, around), wrapped("T", 62, around), NO),
            (wrapped("?x", 1, around), deepest.clone(), MATCHES),
            (deepest.clone(), wrapped("*x", 62, around), RENAMED),
            (deepest.clone(), wrapped("?n!x", 62, around), MATCHES),
            (wrapped("?n!x", 61, around), deepest.clone(), NO),
            (deepest.clone(), innermost("{?x}KAi"), NO),
            (
                innermost("{A}KAi"),
                innermost("{?x}KAi"),
                [true, false, true, false],
            ),
            (
                format!("(?x, {})", wrapped("?x", 60, around)),
                "(?y, ?y)".to_string(),
                NO,
            ),
        ]);
    }
    let (hashes, signatures) = (wrapped("?x", 62, hash), wrapped("?x", 62, signed));
    pairs.push((hashes, signatures.clone(), NO));
    pairs.push((signatures, wrapped("sig(?x)KI", 61, signed), NO));
    pairs
}

/// All variables on both sides, and as many again as fit.
fn many_variables() -> Vec<Pair> {
    let once = variables();
    let again = 32 - once.len();
    let twice = [&once[..], &once[..again]].concat();
    let turned = [&once[1..], &once[..1]].concat();
    let shifted = [&once[..], &turned[..again]].concat();
    let ends = |last: &str| [all("A", 1), once[1..].to_vec(), all(last, 1)].concat();
    vec![
        (list(&twice), list(&twice), YES),
        (list(&once), list(&turned), RENAMED),
        (list(&shifted), list(&twice), SHARES),
        (list(&twice), list(&all("A", 32)), MATCHES),
        (list(&twice), list(&all_but_last("A", "T", 32)), NO),
        (list(&all("?x", once.len() + 1)), list(&ends("A")), SHARES),
        (list(&all("?x", once.len() + 1)), list(&ends("I")), NO),
        (around("A").0, around("A").1, SHARES),
        (around("?0").0, around("?0").1, NO),
    ]
}

/// Twelve links, each the next one under a key, the last one this under a key.
fn around(last: &str) -> (String, String) {
    let links = &variables()[..12];
    let bodies: Vec<String> = links[1..]
        .iter()
        .map(String::as_str)
        .chain([last])
        .map(|next| format!("{{{next}}}KA"))
        .collect();
    (
        list(&[links, links].concat()),
        list(&[&bodies, links].concat()),
    )
}

/// The chains whose cost is measured.
fn chains() -> Vec<Pair> {
    chains::family()
        .iter()
        .map(|chain| {
            let answers = if chain.shares { SHARES } else { NO };
            (text_of(&chain.first), text_of(&chain.second), answers)
        })
        .collect()
}
