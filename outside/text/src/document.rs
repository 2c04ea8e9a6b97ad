//! The lines that the document's certificates to try begin with, and atoms for two
//! blocks.

/// Its atoms: A and I, the keys of both, N and T.
pub const ATOMS: &str = "\
atom A principal known
atom I principal known
atom KA public known partner KAi
atom KAi private unknown partner KA
atom KI public known partner KIi
atom KIi private known partner KI
atom N nonce unknown
atom T nonce known
";
/// Its secrets, unless said otherwise.
pub const SECRETS: &str = "secret N\nsecret KAi\n";
/// Its good pattern, unless said otherwise.
pub const GOOD: &str = "good {*s}KA\n";

/// The name of one of its atoms.
pub fn name(number: usize) -> Option<&'static str> {
    ATOMS.lines().nth(number)?.split(' ').nth(1)
}

/// So many nonces x0, x1 and on, to fill a block up.
pub fn nonces(count: usize) -> String {
    let atom = |i| format!("atom x{i} nonce known\n");
    (0..count).map(atom).collect()
}

/// 131 atoms. The last of the first block is a private key; the second block has
/// its public key, two keys that are partners, a symmetric key and a nonce.
pub fn joined_atoms() -> String {
    nonces(125)
        + "\
atom P private unknown partner Q
atom Q public known partner P
atom K public known partner L
atom L private unknown partner K
atom S symmetric unknown
atom M nonce unknown
"
}
