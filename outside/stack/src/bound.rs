//! The sum over the calls. Functions that call each other form a group: of
//! each of them at most so many calls are active at once as the table says, and
//! the last one active may call out of the group.

use crate::depths::Depths;
use crate::frame::{Call, Frame};
use std::collections::{BTreeMap, BTreeSet};

/// What the C library's leaf functions may take, beside the return address.
const LIBRARY: u64 = 128;
const LIBRARY_FUNCTIONS: [&str; 4] = ["memset", "memcpy", "memmove", "memcmp"];

pub type Frames = BTreeMap<String, Frame>;

/// Bytes below a function's return address, and the way to the deepest.
#[derive(Clone, Debug)]
pub struct Bound {
    pub bytes: u64,
    pub path: Vec<String>,
}

pub struct Bounds<'a> {
    pub frames: &'a Frames,
    pub depths: &'a Depths,
    known: BTreeMap<String, Bound>,
}

impl<'a> Bounds<'a> {
    pub fn new(frames: &'a Frames, depths: &'a Depths) -> Bounds<'a> {
        Bounds {
            frames,
            depths,
            known: BTreeMap::new(),
        }
    }

    pub fn of(&mut self, name: &str) -> Result<Bound, String> {
        if let Some(bound) = self.known.get(name) {
            return Ok(bound.clone());
        }
        if LIBRARY_FUNCTIONS.contains(&name) {
            let path = vec![format!("{name}: {LIBRARY}")];
            return Ok(Bound {
                bytes: LIBRARY,
                path,
            });
        }
        if !self.frames.contains_key(name) {
            return Err(format!("{name} is not in the archive"));
        }
        let group = self.group(name);
        let bound = self.of_group(&group)?;
        self.known.insert(name.to_string(), bound.clone());
        Ok(bound)
    }

    fn calls(&self, name: &str) -> &[Call] {
        self.frames.get(name).map_or(&[], |frame| &frame.calls)
    }

    fn reached_from(&self, name: &str) -> BTreeSet<String> {
        let mut reached = BTreeSet::new();
        let mut waiting = vec![name.to_string()];
        while let Some(next) = waiting.pop() {
            for call in self.calls(&next) {
                if reached.insert(call.to.clone()) {
                    waiting.push(call.to.clone());
                }
            }
        }
        reached
    }

    /// The functions that call it and are called by it, and itself.
    fn group(&self, name: &str) -> BTreeSet<String> {
        let mut group: BTreeSet<String> = self
            .reached_from(name)
            .into_iter()
            .filter(|other| self.reached_from(other).contains(name))
            .collect();
        group.insert(name.to_string());
        group
    }

    fn of_group(&mut self, group: &BTreeSet<String>) -> Result<Bound, String> {
        let mut inside = 0;
        let mut path = Vec::new();
        let mut costs = BTreeMap::new();
        for name in group {
            let within = self
                .calls(name)
                .iter()
                .filter(|call| group.contains(&call.to));
            let Some(cost) = within.map(|call| call.depth).max() else {
                continue;
            };
            let depth = self.depths.get(name);
            let depth = depth.ok_or(format!("{name} is recursive: no depth in the table"))?;
            inside += depth * cost;
            costs.insert(name.clone(), cost);
            path.push(format!("{name}: {depth} x {cost}"));
        }
        let (last, bytes, rest) = self.last_of_group(group, &costs)?;
        match costs.contains_key(&last) {
            true => path.push(format!("{last}, the last: {bytes} instead")),
            false => path.push(format!("{last}: {bytes}")),
        }
        path.extend(rest.path);
        let saved = costs.get(&last).copied().unwrap_or(0);
        Ok(Bound {
            bytes: inside - saved + bytes + rest.bytes,
            path,
        })
    }

    /// The function that is active last, its own bytes, and what it calls.
    fn last_of_group(
        &mut self,
        group: &BTreeSet<String>,
        costs: &BTreeMap<String, u64>,
    ) -> Result<(String, u64, Bound), String> {
        let nothing = Bound {
            bytes: 0,
            path: Vec::new(),
        };
        let mut best = (String::new(), 0, nothing.clone());
        let mut most = None;
        for name in group {
            let frame = self.frames[name].clone();
            let mut ends = vec![(frame.own, nothing.clone())];
            for call in frame.calls.iter().filter(|call| !group.contains(&call.to)) {
                ends.push((call.depth, self.of(&call.to)?));
            }
            for (bytes, rest) in ends {
                let saved = costs.get(name).copied().unwrap_or(0) as i64;
                let more = (bytes + rest.bytes) as i64 - saved;
                if most.is_none_or(|most| more > most) {
                    most = Some(more);
                    best = (name.clone(), bytes, rest);
                }
            }
        }
        Ok(best)
    }
}
