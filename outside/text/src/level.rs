//! Which requests of document 02 are in force, and the lines of the corpus that
//! go by them.

/// The requests 1 to this one; 0 is the base.
pub const LEVEL: u32 = 7;

/// The line that a text of the corpus expects now: of its `#: expect N LINE`
/// comments the one with the largest N up to the level.
pub fn expected_line(text: &str) -> Option<&str> {
    let comments = text
        .lines()
        .filter_map(|line| line.strip_prefix("#: expect ")?.split_once(' '));
    let levels = comments.filter_map(|(level, line)| Some((level.parse().ok()?, line)));
    let (_, line) = levels
        .filter(|(level, _): &(u32, &str)| *level <= LEVEL)
        .max_by_key(|(level, _)| *level)?;
    Some(line)
}
