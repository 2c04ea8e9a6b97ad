//! The functions of an archive, from the output of `objdump -dr`.

use std::collections::BTreeMap;

#[derive(Clone, Debug, PartialEq)]
pub struct Instruction {
    pub address: u64,
    pub name: String,
    pub operands: String,
    /// What a relocation of this instruction names.
    pub target: Option<String>,
}

#[derive(Clone, Debug, Default)]
pub struct Function {
    pub instructions: Vec<Instruction>,
}

pub type Functions = BTreeMap<String, Function>;

/// All functions, by name.
pub fn functions(dump: &str) -> Result<Functions, String> {
    let mut functions = Functions::new();
    let mut current = None;
    for line in dump.lines() {
        if let Some(name) = label(line) {
            functions.insert(name.clone(), Function::default());
            current = Some(name);
            continue;
        }
        let Some(function) = current.as_ref().and_then(|name| functions.get_mut(name)) else {
            continue;
        };
        if let Some(target) = relocation(line) {
            if let Some(last) = function.instructions.last_mut() {
                last.target.get_or_insert(target);
            }
        } else if let Some(instruction) = instruction(line) {
            function.instructions.push(instruction);
        }
    }
    match functions.is_empty() {
        true => Err("no function in the output of objdump".to_string()),
        false => Ok(functions),
    }
}

/// `0000000000000000 <name>:`
fn label(line: &str) -> Option<String> {
    let (address, rest) = line.split_once(" <")?;
    let name = rest.strip_suffix(">:")?;
    let hex = address.len() == 16 && address.chars().all(|c| c.is_ascii_hexdigit());
    hex.then(|| name.to_string())
}

/// `<tabs>10c: R_X86_64_PLT32<tab>.text.name-0x4`
fn relocation(line: &str) -> Option<String> {
    let (before, target) = line.rsplit_once('\t')?;
    if !before.contains(": R_X86_64_") {
        return None;
    }
    let target = target.rsplit_once("-0x").map_or(target, |(name, _)| name);
    let target = target.rsplit_once("+0x").map_or(target, |(name, _)| name);
    let name = target.strip_prefix(".text.").unwrap_or(target);
    Some(name.to_string())
}

/// `  37:<tab>e8 c4 ff ff ff <tab>call   0 <name>`; a line with bytes only goes
/// on with the one before.
fn instruction(line: &str) -> Option<Instruction> {
    let mut columns = line.split('\t');
    let address = columns.next()?.trim().strip_suffix(':')?;
    let address = u64::from_str_radix(address, 16).ok()?;
    let text = columns.nth(1)?;
    let text = text.split_once('#').map_or(text, |(text, _)| text).trim();
    let (name, operands) = text.split_once(' ').unwrap_or((text, ""));
    Some(Instruction {
        address,
        name: name.to_string(),
        operands: operands.trim().to_string(),
        target: None,
    })
}

/// The function has tables of jumps, by the output of `objdump -r`, and all
/// places in them are in the function itself.
pub fn jump_tables_are_own(relocations: &str, name: &str) -> bool {
    let title = format!("RELOCATION RECORDS FOR [.rodata.{name}]:");
    let section = format!(".text.{name}+");
    let mut places = relocations
        .lines()
        .skip_while(|line| *line != title)
        .skip(2)
        .take_while(|line| !line.is_empty())
        .filter_map(|line| line.split_whitespace().nth(2))
        .peekable();
    places.peek().is_some() && places.all(|place| place.starts_with(&section))
}

impl Instruction {
    pub fn is_jump(&self) -> bool {
        self.name.starts_with('j') || self.name == "notrack"
    }

    pub fn is_call(&self) -> bool {
        self.name.starts_with("call")
    }

    /// Through a register or through memory.
    pub fn is_indirect(&self) -> bool {
        (self.is_jump() || self.is_call()) && self.operands.contains('*')
    }

    /// Between two parts of a function.
    pub fn fills(&self) -> bool {
        let words = format!("{} {}", self.name, self.operands);
        words.contains("nop") || words == "xchg %ax,%ax" || self.name == "int3"
    }

    /// Nothing follows in the same function.
    pub fn ends(&self) -> bool {
        self.name == "jmp" || self.name.starts_with("ret") || self.name == "ud2"
    }

    /// The address and the name of `37 <name+0x3>`.
    pub fn place(&self) -> Option<(u64, &str)> {
        let (address, rest) = self.operands.split_once(" <")?;
        let name = rest.strip_suffix('>')?;
        let name = name.rsplit_once("+0x").map_or(name, |(name, _)| name);
        Some((u64::from_str_radix(address.trim(), 16).ok()?, name))
    }
}
