//! The U32 table of Triton VM, proved: a safe interface to the static library that `tools/build u32_table` makes of the proved crates.
//!
//! The table holds every comparison, bitwise and, logarithm, power and bit count that a program made on 32-bit numbers, in rows that forty
//! polynomials tie together. A [`List`] records them, at once or in two parts, for one [`Recorder`] or two that share its keys, and can be stored; a [`Table`]
//! is filled from it, padded, extended and checked: the check finds the first polynomial that is not zero, or says that all are. When all are, each row
//! that stands for an instruction tells the truth, whoever made the table.
//!
//! Every call takes any input at all: it does the work, or it answers a [`Refusal`] and has changed nothing. [`replay`] makes many steps: of it this is
//! said of the refused step, and [`Stopped`] tells how many were done before it. The functions behind are
//! proved to do so, to stay within what they are lent, and to end. This crate adds arrays that are large enough, types and names; no call of it
//! panics.
//!
//! ```
//! # fn main() -> Result<(), u32_table::Refusal> {
//! use u32_table::{List, Opcode, Table, Verdict, CHALLENGE_WORDS, MAX_PLACES};
//!
//! let mut list = List::new(MAX_PLACES)?;
//! list.record(Opcode::And.entry(3, 1))?;
//! list.record(Opcode::And.entry(3, 1))?;
//!
//! // Indeterminate (1, 0, 0), weights zero
//! let mut challenges = [0; CHALLENGE_WORDS];
//! challenges[0] = 1;
//!
//! let mut table = Table::new();
//! assert_eq!(table.fill(&list)?, 3);
//! table.pad()?;
//! assert_eq!(table.extend(&challenges)?, [2, 0, 0]);
//! assert_eq!(table.check(&challenges)?, Verdict::Zero);
//! # Ok(())
//! # }
//! ```
//!
//! A key whose count is 0, because its hold was dropped or only the other recorder counted it, is on the list and has no rows; it is not stored.
//!
//! [`client_sum`] is the other end of the lookup: the processor's sum over its requests, which equals the last sum of the table made of them.
//!
//! Fourteen calls on lists and tables stand here too as functions over slices, for arrays that a program has already; and [`batches`], which tries a
//! batch size.
//!
//! Beside the table stand the byte lookup and the cascade of the hash function: [`Lookups`] records 16-bit values and makes the running sums of both, and
//! there are functions over slices for these too. [`archive`] keeps a table and its sums as bytes, with columns side by side, and [`restore`] gives both back.
//!
//! # Words and elements
//!
//! A word stands for the base element of that value: a word of a table, of the sums or of the challenges is below [`P`], the canonical value
//! and not its Montgomery form. With twenty-first's elements, `BFieldElement::new(word)` is the element of a word, and `element.value()` the word
//! of an element; `raw_u64`, `from_raw_u64` and the memory of a `BFieldElement` are something else. Three words a, b, c stand for
//! a + b X + c X² with X³ = X − 1, as do the coefficients of an `XFieldElement` in their order. A row's words are in the order of [`mod@column`], and
//! the challenges in that of [`CHALLENGE_WORDS`].
//!
//! # Stack
//!
//! Four calls copy the entries of a list: [`write()`] takes up to 100 KB of stack for it, [`read`] as much, [`fill`] 80 KB and [`plan`] 70 KB. Every other
//! call takes 2 KB (a KB is 1,000 bytes), and the methods of [`List`] and [`Table`] little more than the calls that they make. A thread of 224 KiB is
//! enough for each. Where the stack is too small the program ends, as in all Rust.
//!
//! # Linking
//!
//! The build script of `u32-table-sys` looks for `libu32_table.a` in the folder that the variable `U32_TABLE_LIB` names (a whole path), and else in
//! `target/staticlib` of the repository. The library is for x86-64 Linux. A library of other signatures than this crate's does not link.
#![deny(missing_docs)]
#![deny(unsafe_code)]
#![warn(rust_2018_idioms)]

mod archive;
mod batches;
mod calls;
mod constraints;
mod list;
mod lookups;
mod opcode;
mod refusal;
mod sys;
mod table;

pub use archive::{archive, archive_bytes, archived_rows, restore};
pub use batches::{batches, Batch, Batched, Batches};
pub use calls::{
    check, client_sum, compare, confirm, drop_hold, extend, fill, hold, pad, plan, read, record, refused_entry, replay, write,
};
pub use calls::{Entry, Group, Plan, Sizes, Stopped, Verdict};
pub use list::{List, ListBy, ListOf, Recorder};
pub use lookups::{byte_lookup, byte_sum, cascade_lookup, cascade_sum, look_up, Lookups};
pub use opcode::Opcode;
pub use refusal::Refusal;
pub use table::Table;

/// The number of elements of the base field, 2^64 − 2^32 + 1. A word that stands for an element is below it.
pub const P: u64 = 18446744069414584321;

/// A list has at most this many places.
pub const MAX_PLACES: usize = 2048;

/// A table has at most this many rows.
pub const MAX_ROWS: usize = 131072;

/// Words of a key: opcode, left operand, right operand.
pub const KEY_WORDS: usize = 3;

/// Words of a step of a trace: opcode, first value, second value.
pub const STEP_WORDS: usize = 3;

/// [`batches`] takes at most this many jobs.
pub const MAX_JOBS: usize = 1048576;

/// Words of a batch among the results of [`batches`]: its jobs, its rows, its padded height.
pub const BATCH_WORDS: usize = 3;

/// Words of a row.
pub const COLUMNS: usize = 10;

/// Aux words of a row: the sum so far.
pub const AUX_COLUMNS: usize = 3;

/// Challenge words: Indeterminate, LhsWeight, RhsWeight, CiWeight and ResultWeight, three words each.
pub const CHALLENGE_WORDS: usize = 15;

/// A cascade has at most this many places: one for each 16-bit value.
pub const MAX_CASCADE_PLACES: usize = 65536;

/// The rows of the byte lookup: one a byte.
pub const BYTE_ROWS: usize = 256;

/// Challenge words of a lookup table: InputWeight, OutputWeight and Indeterminate, three words each.
pub const LOOKUP_CHALLENGE_WORDS: usize = 9;

/// The bytes that a stored list of so many entries takes; `usize::MAX` where a `usize` does not hold the number. Lists of the old length, with 21
/// bytes an entry, are still read; see [`read`].
///
/// ```
/// assert_eq!(u32_table::stored_bytes(2048), 51208);
/// assert_eq!(u32_table::stored_bytes(usize::MAX), usize::MAX);
/// ```
pub const fn stored_bytes(entries: usize) -> usize {
    entries.saturating_mul(25).saturating_add(8)
}

/// The words of the six opcodes; [`Opcode`] is their type.
pub mod opcodes {
    use crate::Opcode;

    /// A word taken apart into two halves.
    pub const SPLIT: u64 = Opcode::Split.word();
    /// Whether the left operand is less than the right one.
    pub const LT: u64 = Opcode::Lt.word();
    /// The logarithm to base 2 of the left operand, rounded down.
    pub const LOG_2_FLOOR: u64 = Opcode::Log2Floor.word();
    /// Bitwise and.
    pub const AND: u64 = Opcode::And.word();
    /// The one-bits of the left operand.
    pub const POP_COUNT: u64 = Opcode::PopCount.word();
    /// The left operand to the power of the right one, modulo [`P`](crate::P).
    pub const POW: u64 = Opcode::Pow.word();
    /// All six.
    pub const ALL: [u64; 6] = [SPLIT, LT, LOG_2_FLOOR, AND, POP_COUNT, POW];
}

/// The opcodes that a trace may have beside the six; see [`replay`].
pub mod steps {
    /// Quotient and remainder.
    pub const DIV_MOD: u64 = 20;
    /// Bitwise exclusive or.
    pub const XOR: u64 = 22;
    /// A step along a Merkle tree.
    pub const MERKLE_STEP: u64 = 36;
    /// The same with its digest in memory.
    pub const MERKLE_STEP_MEM: u64 = 44;
}

/// The places of the columns in a row.
pub mod column {
    /// 1 in a section's first row, else 0.
    pub const COPY_FLAG: usize = 0;
    /// The row's number in its section.
    pub const BITS: usize = 1;
    /// The inverse of Bits − 33.
    pub const BITS_MINUS_33_INV: usize = 2;
    /// The opcode.
    pub const CI: usize = 3;
    /// The left operand.
    pub const LHS: usize = 4;
    /// Its inverse, or 0.
    pub const LHS_INV: usize = 5;
    /// The right operand.
    pub const RHS: usize = 6;
    /// Its inverse, or 0.
    pub const RHS_INV: usize = 7;
    /// The instruction's result.
    pub const RESULT: usize = 8;
    /// How often the instruction was looked up.
    pub const LOOKUP_MULTIPLICITY: usize = 9;
}
