//! Stand-in for triton-vm's `lib.rs`: it names the modules, those that the original's files use as names only, and `reach`.

pub mod aet; // the original
pub mod challenges; // the original
pub mod ndarray_helper; // the original
pub mod table;

/// Added: the way in to what the original keeps inside the crate.
pub mod reach {
    use air::table::TableId;
    use indexmap::IndexMap;
    use isa::instruction::Instruction;
    use isa::program::Program;
    use ndarray::Array2;
    use twenty_first::prelude::*;

    use crate::aet::AlgebraicExecutionTrace;
    use crate::table::u32::U32TableEntry;
    use crate::vm::CoProcessorCall;

    /// A trace in which nothing happened. (`AlgebraicExecutionTrace::new` would hash a program.)
    pub fn empty_trace() -> AlgebraicExecutionTrace {
        AlgebraicExecutionTrace {
            program: Program::new(&[]),
            instruction_multiplicities: vec![],
            processor_trace: Array2::default([0, 0]),
            op_stack_underflow_trace: Array2::default([0, 0]),
            ram_trace: Array2::default([0, 0]),
            program_hash_trace: Array2::default([0, 0]),
            hash_trace: Array2::default([0, 0]),
            sponge_trace: Array2::default([0, 0]),
            u32_entries: IndexMap::new(),
            cascade_table_lookup_multiplicities: IndexMap::new(),
            lookup_table_lookup_multiplicities: [0; AlgebraicExecutionTrace::LOOKUP_TABLE_HEIGHT],
        }
    }

    /// `record_u32_table_entry`, by the call through which the virtual machine reaches it.
    pub fn record(trace: &mut AlgebraicExecutionTrace, entry: U32TableEntry) {
        trace.record_co_processor_call(CoProcessorCall::U32(entry));
    }

    /// The elements of a permutation's trace whose limbs are looked up: the first ones of each row but the last.
    pub const LOOKED_UP: usize = tip5::NUM_ROUNDS * tip5::NUM_SPLIT_AND_LOOKUP;

    /// `increase_lookup_multiplicities` for a trace with these elements, by the call through which the virtual machine reaches it.
    pub fn look_up(trace: &mut AlgebraicExecutionTrace, elements: &[BFieldElement; LOOKED_UP]) {
        let mut rows = [[BFieldElement::new(0); tip5::STATE_SIZE]; tip5::NUM_ROUNDS + 1];
        for (i, &element) in elements.iter().enumerate() {
            rows[i / tip5::NUM_SPLIT_AND_LOOKUP][i % tip5::NUM_SPLIT_AND_LOOKUP] = element;
        }
        trace.record_co_processor_call(CoProcessorCall::Tip5Trace(Instruction::Hash, Box::new(rows)));
    }

    pub fn table_height_contribution(entry: &U32TableEntry) -> u32 {
        entry.table_height_contribution()
    }

    /// `u32_table_height`.
    pub fn height(trace: &AlgebraicExecutionTrace) -> usize {
        trace.height_of_table(TableId::U32)
    }
}

pub mod prelude {
    use twenty_first::prelude::*;

    pub struct Claim {
        pub program_digest: Digest,
        pub input: Vec<BFieldElement>,
        pub output: Vec<BFieldElement>,
    }
}

/// No profiles are made.
pub mod profiler {
    macro_rules! profiler {
        ($($tokens:tt)*) => {};
    }
    pub(crate) use profiler;
}

pub mod vm {
    use air::table::hash::PermutationTrace;
    use isa::instruction::Instruction;
    use ndarray::Array1;
    use twenty_first::prelude::*;

    use crate::table::op_stack::OpStackTableEntry;
    use crate::table::ram::RamTableCall;
    use crate::table::u32::U32TableEntry;

    pub enum CoProcessorCall {
        SpongeStateReset,
        Tip5Trace(Instruction, Box<PermutationTrace>),
        U32(U32TableEntry),
        OpStack(OpStackTableEntry),
        Ram(RamTableCall),
    }

    pub struct VMState {
        pub instruction_pointer: usize,
    }

    impl VMState {
        pub fn to_processor_row(&self) -> Array1<BFieldElement> {
            unimplemented!("stand-in")
        }
    }
}
