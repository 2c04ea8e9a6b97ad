//! A bound for the stack that a function of the archive takes, for every input:
//! from its machine code as `objdump` prints it, and from a table that says how
//! deep each recursive function goes.
//!
//! `code` functions and instructions, `frame` the depth of the stack at each
//! instruction, `depths` the table, `bound` the sum over the calls.

pub mod bound;
pub mod code;
pub mod depths;
pub mod frame;
