//! Small programs as `objdump` prints them.

use stack::bound::{Bound, Bounds, Frames};
use stack::{code, depths, frame};

const LEAF: &str = "
0000000000000000 <leaf>:
   0:\t53                   \tpush   %rbx
   1:\t48 83 ec 30          \tsub    $0x30,%rsp
   5:\t48 89 44 24 f8       \tmov    %rax,-0x8(%rsp)
   a:\t48 83 c4 30          \tadd    $0x30,%rsp
   e:\t5b                   \tpop    %rbx
   f:\tc3                   \tret
";

const TOP: &str = "
0000000000000000 <top>:
   0:\t48 83 ec 08          \tsub    $0x8,%rsp
   4:\te8 00 00 00 00       \tcall   9 <top+0x9>
\t\t\t5: R_X86_64_PLT32\t.text.leaf-0x4
   9:\t48 83 c4 08          \tadd    $0x8,%rsp
   d:\te9 00 00 00 00       \tjmp    12 <top+0x12>
\t\t\te: R_X86_64_PLT32\tmemset-0x4
";

/// Calls itself, or goes on to the leaf.
const DOWN: &str = "
0000000000000000 <down>:
   0:\t53                   \tpush   %rbx
   1:\t74 07                \tje     a <down+0xa>
   3:\te8 f8 ff ff ff       \tcall   0 <down>
   8:\teb 05                \tjmp    f <down+0xf>
   a:\te8 00 00 00 00       \tcall   f <down+0xf>
\t\t\tb: R_X86_64_PLT32\t.text.leaf-0x4
   f:\t5b                   \tpop    %rbx
  10:\tc3                   \tret
";

fn bound(dump: &str, name: &str, table: &str) -> Result<Bound, String> {
    let mut frames = Frames::new();
    for (name, function) in &code::functions(dump)? {
        frames.insert(name.clone(), frame::frame(name, function, false)?);
    }
    Bounds::new(&frames, &depths::read(table)?).of(name)
}

fn message(dump: &str, name: &str, table: &str) -> String {
    bound(dump, name, table).expect_err("it is noticed")
}

#[test]
fn frames_and_calls() {
    // Eight pushed, 48 taken, eight below the stack pointer.
    assert_eq!(bound(LEAF, "leaf", "").map(|b| b.bytes), Ok(64));
    // The leaf below 8 and a return address; memset at the end takes 128.
    let both = format!("{LEAF}{TOP}");
    assert_eq!(bound(&both, "top", "").map(|b| b.bytes), Ok(128));
}

#[test]
fn recursion() {
    let both = format!("{LEAF}{DOWN}");
    // Ten calls of 16 bytes; the last one calls the leaf.
    let table = "down 10 because";
    assert_eq!(bound(&both, "down", table).map(|b| b.bytes), Ok(160 + 64));
    assert!(message(&both, "down", "").contains("recursive"));
    assert!(message(&both, "down", "down 10").contains("no reason"));
}

#[test]
fn what_is_not_understood() {
    let indirect = LEAF.replace("mov    %rax,-0x8(%rsp)", "call   *%rax");
    assert!(message(&indirect, "leaf", "").contains("indirect call"));
    let jump = LEAF.replace("mov    %rax,-0x8(%rsp)", "jmp    *%rax");
    assert!(message(&jump, "leaf", "").contains("indirect jump"));
    let moved = LEAF.replace("mov    %rax,-0x8(%rsp)", "and    $0xffffffffffffffe0,%rsp");
    assert!(message(&moved, "leaf", "").contains("stack pointer"));
    assert!(message(TOP, "top", "").contains("leaf is not in the archive"));
    let uneven = LEAF.replace("pop    %rbx", "je     5 <leaf+0x5>");
    assert!(message(&uneven, "leaf", "").contains("two depths"));
}
