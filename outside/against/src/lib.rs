//! `fast` held against `literal`.

/// What both answer, in words and with the file as text, if they disagree.
pub fn disagreement(file: &[u8]) -> Option<String> {
    let expected = literal::packed(&literal::verdict(file));
    let found = fast::check(file);
    (expected != found).then(|| {
        format!(
            "literal answers {}, fast answers {}, on this file of {} bytes:\n{}",
            in_words(expected),
            in_words(found),
            file.len(),
            text::print(file)
        )
    })
}

fn in_words(packed: u32) -> String {
    let [_, number, block, place] = packed.to_be_bytes();
    match packed {
        0 => "accepted".to_string(),
        _ => format!("number {number} block {block} place {place}"),
    }
}
