use std::fmt;

use crate::Entry;

/// One of the six instructions. Entries hold opcodes as words, since any word can be offered for recording; this is the type of those that are
/// admitted.
///
/// ```
/// use u32_table::{opcodes, Entry, Opcode};
/// assert_eq!(Opcode::And.entry(3, 1), Entry::new(opcodes::AND, 3, 1));
/// assert_eq!(Opcode::try_from(14), Ok(Opcode::And));
/// assert_eq!(Opcode::try_from(5), Err(5));
/// ```
#[derive(Clone, Copy, Debug, PartialEq, Eq, PartialOrd, Ord, Hash)]
#[repr(u64)]
pub enum Opcode {
    /// A word taken apart into two halves.
    Split = 4,
    /// Whether the left operand is less than the right one.
    Lt = 6,
    /// The logarithm to base 2 of the left operand, rounded down.
    Log2Floor = 12,
    /// Bitwise and.
    And = 14,
    /// The one-bits of the left operand.
    PopCount = 28,
    /// The left operand to the power of the right one, modulo [`P`](crate::P).
    Pow = 30,
}

impl Opcode {
    /// All six, in the order of their words.
    pub const ALL: [Opcode; 6] = [Opcode::Split, Opcode::Lt, Opcode::Log2Floor, Opcode::And, Opcode::PopCount, Opcode::Pow];

    /// The opcode as a word.
    pub const fn word(self) -> u64 {
        self as u64
    }

    /// The entry of this instruction with its operands.
    pub const fn entry(self, left_operand: u64, right_operand: u64) -> Entry {
        Entry { opcode: self.word(), left_operand, right_operand }
    }

    /// The instruction's name, as in Triton VM.
    pub const fn name(self) -> &'static str {
        match self {
            Opcode::Split => "split",
            Opcode::Lt => "lt",
            Opcode::Log2Floor => "log_2_floor",
            Opcode::And => "and",
            Opcode::PopCount => "pop_count",
            Opcode::Pow => "pow",
        }
    }
}

impl From<Opcode> for u64 {
    fn from(opcode: Opcode) -> u64 {
        opcode.word()
    }
}

/// The instruction of a word; a word that is none is handed back.
impl TryFrom<u64> for Opcode {
    type Error = u64;

    fn try_from(word: u64) -> Result<Opcode, u64> {
        Opcode::ALL.into_iter().find(|opcode| opcode.word() == word).ok_or(word)
    }
}

impl fmt::Display for Opcode {
    fn fmt(&self, f: &mut fmt::Formatter<'_>) -> fmt::Result {
        f.write_str(self.name())
    }
}
