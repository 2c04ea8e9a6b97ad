//! Lines with a piece of them marked.

use text::{pointed, Span};

fn span(line: usize, column: usize, width: usize) -> Span {
    Span {
        line,
        column,
        width,
    }
}

#[test]
fn pieces_of_lines() {
    let text = "one\n\ttwo\tthree\nvierundzwanzig";
    assert_eq!(pointed(text, span(1, 1, 3)), "    1 | one\n      | ^^^");
    assert_eq!(
        pointed(text, span(2, 6, 5)),
        "    2 | \ttwo\tthree\n      | \t   \t^^^^^"
    );
    assert_eq!(
        pointed(text, span(3, 15, 1)),
        "    3 | vierundzwanzig\n      |               ^"
    );
    assert_eq!(
        pointed(text, span(3, 5, 0)),
        "    3 | vierundzwanzig\n      |     ^"
    );
}

/// A span need not lie inside the text.
#[test]
fn pieces_that_are_not_there() {
    assert_eq!(pointed("one", span(7, 3, 2)), "    7 | \n      | ^");
    assert_eq!(pointed("one", span(1, 9, 4)), "    1 | one\n      |    ^");
    assert_eq!(pointed("one", span(1, 2, 9)), "    1 | one\n      |  ^^");
    assert_eq!(pointed("one", span(0, 0, 0)), "    0 | one\n      | ^");
    assert_eq!(pointed("", span(1, 1, 1)), "    1 | \n      | ^");
}

#[test]
fn numbers_of_many_digits() {
    let text = "a\n".repeat(1_234_567);
    let drawn = pointed(&text, span(1_234_567, 1, 1));
    assert_eq!(drawn, "1234567 | a\n        | ^");
}

/// The marked part of a drawn line: what stands above the carets.
fn marked(drawn: &str) -> String {
    let (line, carets) = drawn.split_once('\n').unwrap();
    let from = carets.find('^').unwrap();
    line.chars().skip(from).take(carets.len() - from).collect()
}

#[test]
fn long_lines_are_cut() {
    let words: Vec<String> = (1_000..2_000).map(|number| number.to_string()).collect();
    let text = words.join(" ");
    for i in 0..1_000 {
        let drawn = pointed(&text, span(1, 5 * i + 1, 4));
        assert_eq!(marked(&drawn), words[i]);
        let line = drawn.lines().next().unwrap();
        assert_eq!(line.starts_with("    1 | .."), i > 12, "{drawn}");
        assert_eq!(line.ends_with(".."), i < 980, "{drawn}");
        assert!(line.len() <= 8 + 160 + 4, "{drawn}");
    }
    let whole = "x".repeat(200);
    assert_eq!(
        pointed(&whole, span(1, 1, 1)).lines().next(),
        Some(&*format!("    1 | {whole}"))
    );
    let wide = pointed(&text, span(1, 1, 5_000));
    assert_eq!(wide.matches('^').count(), 160);
}

/// What would move the cursor, or cannot be seen, is drawn as a sign.
#[test]
fn control_characters() {
    let drawn = pointed("a\rb\u{1b}[2Jc\u{202e}d", span(1, 3, 1));
    assert_eq!(
        drawn,
        "    1 | a\u{FFFD}b\u{FFFD}[2Jc\u{FFFD}d\n      |   ^"
    );
}
