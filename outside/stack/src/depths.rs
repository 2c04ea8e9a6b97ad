//! The table of recursive functions: a name, how many calls of it can be active
//! at once, and the reason.

use std::collections::BTreeMap;

pub type Depths = BTreeMap<String, u64>;

pub fn read(text: &str) -> Result<Depths, String> {
    let mut depths = Depths::new();
    for line in text.lines().filter(|line| !line.starts_with('#')) {
        let mut words = line.split_whitespace();
        let Some(name) = words.next() else { continue };
        let depth = words.next().and_then(|word| word.parse().ok());
        let depth = depth.ok_or(format!("no depth in `{line}`"))?;
        if words.next().is_none() {
            return Err(format!("no reason in `{line}`"));
        }
        depths.insert(name.to_string(), depth);
    }
    Ok(depths)
}
