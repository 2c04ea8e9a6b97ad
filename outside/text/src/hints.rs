//! What to do about common slips.

use crate::letters::{ascii_like, LONGEST_WORD};

pub const TUPLE: &str = "a tuple is pairs: (N, (A, A))";
pub const MESSAGE: &str = "a message is one term; a tuple is pairs: (N, (A, A))";
pub const PAIR: &str = "a pair has two members: (N, A)";
pub const PREMISE: &str = "a premise is one term; a tuple is pairs: (N, (A, A))";
pub const RULE: &str = "a rule is `rule TERM -> TERM`, or `rule -> TERM` without a premise";
pub const ONE_ARROW: &str = "a rule has one arrow, and other lines have none";
pub const NOTHING_OPEN: &str = "nothing is open that it could close";
pub const ENCRYPTION: &str = "an encryption names its key: {T}KEY";
pub const SIGNATURE: &str = "a signature names its key: sig(T)KEY";
pub const VARIABLE_KEY: &str = "a key is no variable: write a rule for each key";
pub const ENTRIES: &str = "each atom, variable, pair, encryption, hash and signature is an entry";
pub const BLOCKS: &str = "each secret, pattern and rule is a block, and the atoms are one or two";
pub const ATOMS_FIRST: &str = "atoms come before all other lines";
pub const ATOM_LINE: &str = "a line for an atom is `atom NAME KIND known|unknown [partner NAME]`";
pub const KEY_KIND: &str = "a key is public, private or symmetric";
pub const PARTNERS: &str = "a public and a private key name each other";
pub const PARTNER: &str = "a partner is named by `partner NAME`";
pub const NUMBERED: &str = "a variable's name is a number 0 to 7 or begins with a letter";

const ARROW: &str = "the arrow is `->`";
const COMMENT: &str = "a comment begins with #";
const FLAT: &str = "flat tuples come with request No. 11 and are not in force; write pairs";
const FORMS: &str = "an encryption is {T}KEY, a hash h(T), a signature sig(T)KEY";

/// On a sign that means nothing in the text form.
pub fn on_sign(sign: &str) -> Option<String> {
    let hint = match sign {
        "<" | ">" | "⟨" | "⟩" | "〈" | "〉" => FLAT,
        ";" | "//" | "/" | "%" => COMMENT,
        ":" => "the text form has no colons",
        "!" => "`!` stands only in nonce variables: ?n!x and *n!x",
        "?" | "*" | "?n!" | "*n!" => "a variable's name stands directly behind its sign: ?x, *n!x",
        "-" => "a name has letters, digits, _ and '; the arrow is `->`",
        "→" | "⇒" | "⟶" | "⟹" | "–" | "—" | "−" | "‐" => ARROW,
        "[" | "]" => "a pair is (T, T), an encryption {T}KEY",
        "\"" | "`" | "“" | "”" => "names stand without quotation marks",
        _ if sign.starts_with(['-', '=']) => ARROW,
        _ => return like_ascii(sign),
    };
    Some(hint.to_string())
}

fn like_ascii(sign: &str) -> Option<String> {
    let alike = sign.chars().next().and_then(ascii_like)?;
    Some(format!("it only looks like `{alike}`"))
}

/// On a name and `(` behind it: only `h` and `sig` may stand so, with no space.
pub fn on_call(name: &str) -> String {
    match name {
        "h" | "sig" => format!("write `{name}(` without a space"),
        _ => FORMS.to_string(),
    }
}

/// On a name that is no atom and near to none, where a term may stand.
pub fn on_unknown(name: &str) -> Option<String> {
    let hint =
        || format!("an atom needs a line `atom {name} ..`, and a variable is written `?{name}`");
    (name.len() <= LONGEST_WORD).then(hint)
}

/// On a name that is no atom but one of those that hashes and signatures have.
pub fn on_form(name: &str) -> Option<String> {
    matches!(name, "h" | "sig").then(|| FORMS.to_string())
}
