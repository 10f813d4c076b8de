//! Stand-in for triton-isa's `lib.rs`: it names the modules.

pub mod instruction; // the original
pub mod op_stack; // the original
pub mod parser;
pub mod program; // the original

pub mod error {
    pub use crate::instruction::InstructionError;
}
