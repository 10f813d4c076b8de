//! Stand-in for triton-air's `table.rs`: the identifiers of the tables, where each table's columns start in the master tables,
//! and those other tables that triton-vm names. Left out: the other tables' constraints.
use arbitrary::Arbitrary;
use strum::Display;
use strum::EnumCount;
use strum::EnumIter;

use crate::table_column::*;

pub mod u32; // the original

// See `root.rs`: who implements the root's `Seal` implements that of `lib.rs`.
impl<T: crate::private::Seal> super::private::Seal for T {}

#[derive(Debug, Display, Copy, Clone, Eq, PartialEq, Hash, EnumCount, EnumIter, Arbitrary)]
pub enum TableId {
    Program,
    Processor,
    OpStack,
    Ram,
    JumpStack,
    Hash,
    Cascade,
    Lookup,
    U32,
}

pub const PROGRAM_TABLE_START: usize = 0;
pub const PROCESSOR_TABLE_START: usize = PROGRAM_TABLE_START + ProgramMainColumn::COUNT;
pub const OP_STACK_TABLE_START: usize = PROCESSOR_TABLE_START + ProcessorMainColumn::COUNT;
pub const RAM_TABLE_START: usize = OP_STACK_TABLE_START + OpStackMainColumn::COUNT;
pub const JUMP_STACK_TABLE_START: usize = RAM_TABLE_START + RamMainColumn::COUNT;
pub const HASH_TABLE_START: usize = JUMP_STACK_TABLE_START + JumpStackMainColumn::COUNT;
pub const CASCADE_TABLE_START: usize = HASH_TABLE_START + HashMainColumn::COUNT;
pub const LOOKUP_TABLE_START: usize = CASCADE_TABLE_START + CascadeMainColumn::COUNT;
pub const U32_TABLE_START: usize = LOOKUP_TABLE_START + LookupMainColumn::COUNT;
pub const NUM_MAIN_COLUMNS: usize = U32_TABLE_START + U32MainColumn::COUNT;

pub const AUX_PROGRAM_TABLE_START: usize = 0;
pub const AUX_PROCESSOR_TABLE_START: usize = AUX_PROGRAM_TABLE_START + ProgramAuxColumn::COUNT;
pub const AUX_OP_STACK_TABLE_START: usize = AUX_PROCESSOR_TABLE_START + ProcessorAuxColumn::COUNT;
pub const AUX_RAM_TABLE_START: usize = AUX_OP_STACK_TABLE_START + OpStackAuxColumn::COUNT;
pub const AUX_JUMP_STACK_TABLE_START: usize = AUX_RAM_TABLE_START + RamAuxColumn::COUNT;
pub const AUX_HASH_TABLE_START: usize = AUX_JUMP_STACK_TABLE_START + JumpStackAuxColumn::COUNT;
pub const AUX_CASCADE_TABLE_START: usize = AUX_HASH_TABLE_START + HashAuxColumn::COUNT;
pub const AUX_LOOKUP_TABLE_START: usize = AUX_CASCADE_TABLE_START + CascadeAuxColumn::COUNT;
pub const AUX_U32_TABLE_START: usize = AUX_LOOKUP_TABLE_START + LookupAuxColumn::COUNT;
pub const NUM_AUX_COLUMNS: usize = AUX_U32_TABLE_START + U32AuxColumn::COUNT;

/// A table with its columns, and without constraints: nothing that is run asks for them.
macro_rules! table {
    ($name:ident, $main:ident, $aux:ident) => {
        pub struct $name;

        impl crate::private::Seal for $name {}

        impl crate::AIR for $name {
            type MainColumn = crate::table_column::$main;
            type AuxColumn = crate::table_column::$aux;

            fn initial_constraints(_: &Builder<Single>) -> Vec<Monad<Single>> {
                unimplemented!("stand-in")
            }

            fn consistency_constraints(_: &Builder<Single>) -> Vec<Monad<Single>> {
                unimplemented!("stand-in")
            }

            fn transition_constraints(_: &Builder<Dual>) -> Vec<Monad<Dual>> {
                unimplemented!("stand-in")
            }

            fn terminal_constraints(_: &Builder<Single>) -> Vec<Monad<Single>> {
                unimplemented!("stand-in")
            }
        }

        use constraint_circuit::ConstraintCircuitBuilder as Builder;
        use constraint_circuit::ConstraintCircuitMonad as Monad;
        use constraint_circuit::DualRowIndicator as Dual;
        use constraint_circuit::SingleRowIndicator as Single;
    };
}

pub mod processor {
    table!(ProcessorTable, ProcessorMainColumn, ProcessorAuxColumn);
}

pub mod op_stack {
    table!(OpStackTable, OpStackMainColumn, OpStackAuxColumn);
}

pub mod ram {
    table!(RamTable, RamMainColumn, RamAuxColumn);
}

pub mod hash {
    use twenty_first::prelude::*;

    table!(HashTable, HashMainColumn, HashAuxColumn);

    pub type PermutationTrace = [[BFieldElement; tip5::STATE_SIZE]; tip5::NUM_ROUNDS + 1];
}
