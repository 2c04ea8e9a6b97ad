//! How deep the stack is at each instruction of a function, counted from the
//! return address: pushes, and what is taken off the stack pointer.

use crate::code::{Function, Instruction};
use std::collections::BTreeMap;

/// A function called, or jumped to at the end, and the bytes of the caller's
/// frame at that time with the return address, if one is pushed.
#[derive(Clone, Debug, PartialEq)]
pub struct Call {
    pub to: String,
    pub depth: u64,
}

#[derive(Clone, Debug, Default, PartialEq)]
pub struct Frame {
    /// The deepest byte that the function itself touches.
    pub own: u64,
    pub calls: Vec<Call>,
}

/// The frame of a function. `tables` says whether the targets of an indirect
/// jump are known to be in the function itself.
pub fn frame(name: &str, function: &Function, tables: bool) -> Result<Frame, String> {
    let depths = depths(name, function, tables)?;
    let mut frame = Frame::default();
    for (instruction, depth) in function.instructions.iter().zip(&depths) {
        let Some(depth) = *depth else { continue };
        let after = moved(instruction, depth).map_err(|what| format!("{name}: {what}"))?;
        let touched = depth + below(&instruction.operands);
        frame.own = frame.own.max(touched).max(after);
        frame.calls.extend(call(name, instruction, depth)?);
    }
    Ok(frame)
}

/// The depth before each instruction that can be reached.
fn depths(name: &str, function: &Function, tables: bool) -> Result<Vec<Option<u64>>, String> {
    let mut walk = Walk::of(name, function);
    walk.go(0, 0)?;
    let Some(depth) = walk.at_table else {
        return Ok(walk.depths);
    };
    if !tables {
        return Err(format!("{name}: an indirect jump"));
    }
    // What nothing else leads to is in the table.
    let list = &function.instructions;
    while let Some(i) = (0..list.len()).find(|i| walk.depths[*i].is_none() && !list[*i].fills()) {
        walk.go(i, depth)?;
    }
    Ok(walk.depths)
}

struct Walk<'a> {
    name: &'a str,
    list: &'a [Instruction],
    at: BTreeMap<u64, usize>,
    depths: Vec<Option<u64>>,
    /// The depth at indirect jumps, the same at all.
    at_table: Option<u64>,
}

impl<'a> Walk<'a> {
    fn of(name: &'a str, function: &'a Function) -> Walk<'a> {
        let list = &function.instructions;
        Walk {
            name,
            list,
            at: (0..list.len()).map(|i| (list[i].address, i)).collect(),
            depths: vec![None; list.len()],
            at_table: None,
        }
    }

    fn wrong<T>(&self, what: &str) -> Result<T, String> {
        Err(format!("{}: {what}", self.name))
    }

    /// Follows the function from this instruction on.
    fn go(&mut self, start: usize, depth: u64) -> Result<(), String> {
        let mut waiting = vec![(start, depth)];
        while let Some((i, depth)) = waiting.pop() {
            match self.depths.get(i) {
                None => return self.wrong("runs past its end"),
                Some(Some(other)) if *other == depth => continue,
                Some(Some(_)) => return self.wrong("two depths at one instruction"),
                Some(None) => self.depths[i] = Some(depth),
            }
            waiting.extend(self.next(i, depth)?);
        }
        Ok(())
    }

    /// Where an instruction leads to in the function.
    fn next(&mut self, i: usize, depth: u64) -> Result<Vec<(usize, u64)>, String> {
        let instruction = &self.list[i];
        let after = moved(instruction, depth).or_else(|what| self.wrong(&what))?;
        let mut next = Vec::new();
        if instruction.is_jump() && instruction.is_indirect() {
            if *self.at_table.get_or_insert(after) != after {
                return self.wrong("indirect jumps at two depths");
            }
        } else if instruction.is_jump() && instruction.target.is_none() {
            let place = instruction
                .place()
                .and_then(|(place, _)| self.at.get(&place));
            match place {
                Some(place) => next.push((*place, after)),
                None => return self.wrong("a jump out of it"),
            }
        }
        if !instruction.ends() {
            next.push((i + 1, after));
        }
        Ok(next)
    }
}

/// The depth after an instruction.
fn moved(instruction: &Instruction, depth: u64) -> Result<u64, String> {
    let Instruction { name, operands, .. } = instruction;
    let by_number = || {
        let number = operands.strip_prefix("$0x")?.strip_suffix(",%rsp")?;
        u64::from_str_radix(number, 16).ok()
    };
    let strange = || format!("`{name} {operands}` moves the stack pointer");
    match name.as_str() {
        "push" => Ok(depth + 8),
        "pop" => depth.checked_sub(8).ok_or_else(strange),
        "sub" | "add" if operands.ends_with(",%rsp") => {
            let number = by_number().ok_or_else(strange)?;
            // Numbers above half of all are negative ones.
            let down = (name == "sub") == (number < 1 << 63);
            let size = number.min(number.wrapping_neg());
            match down {
                true => Ok(depth + size),
                false => depth.checked_sub(size).ok_or_else(strange),
            }
        }
        "cmp" | "test" => Ok(depth),
        "leave" | "enter" | "pushf" | "popf" => Err(strange()),
        _ if operands.ends_with(",%rsp") || operands == "%rsp" => Err(strange()),
        _ => Ok(depth),
    }
}

/// Bytes below the stack pointer that an operand names: `-0x8(%rsp)`.
fn below(operands: &str) -> u64 {
    let Some((before, _)) = operands.split_once("(%rsp") else {
        return 0;
    };
    let number = before.rsplit([',', ' ']).next().unwrap_or(before);
    number
        .strip_prefix("-0x")
        .and_then(|hex| u64::from_str_radix(hex, 16).ok())
        .unwrap_or(0)
}

/// The call that an instruction is, if it is one.
fn call(name: &str, instruction: &Instruction, depth: u64) -> Result<Option<Call>, String> {
    if instruction.is_call() && instruction.is_indirect() {
        return Err(format!("{name}: an indirect call"));
    }
    let to = match (&instruction.target, instruction.place()) {
        (Some(target), _) => target.clone(),
        (None, Some((_, place))) if instruction.is_call() => place.to_string(),
        _ => return Ok(None),
    };
    if instruction.is_call() {
        let depth = depth + 8;
        return Ok(Some(Call { to, depth }));
    }
    // A jump to another function is its last call, with the same return address.
    Ok((instruction.is_jump() && !instruction.is_indirect()).then_some(Call { to, depth }))
}
