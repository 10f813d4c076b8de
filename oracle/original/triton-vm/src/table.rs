//! Stand-in for triton-vm's `table.rs`: the trait that the U32 table implements, and names of other tables.
use ndarray::ArrayView2;
use ndarray::ArrayViewMut2;
use twenty_first::prelude::*;

use crate::aet::AlgebraicExecutionTrace;
use crate::challenges::Challenges;

pub mod u32; // the original

pub trait TraceTable: air::AIR {
    type FillParam;
    type FillReturnInfo;

    fn fill(
        main_table: ArrayViewMut2<BFieldElement>,
        aet: &AlgebraicExecutionTrace,
        param: Self::FillParam,
    ) -> Self::FillReturnInfo;

    fn pad(main_table: ArrayViewMut2<BFieldElement>, table_len: usize);

    fn extend(main_table: ArrayView2<BFieldElement>, aux_table: ArrayViewMut2<XFieldElement>, challenges: &Challenges);
}

pub mod hash {
    use air::table::hash::PermutationTrace;
    use air::table_column::HashMainColumn;
    use air::table_column::MasterMainColumn;
    use ndarray::Array1;
    use ndarray::Array2;
    use twenty_first::prelude::*;

    /// No rows: of a trace only what it looks up is asked here. There are columns up to the one that the original writes.
    pub fn trace_to_table_rows(_: PermutationTrace) -> Array2<BFieldElement> {
        Array2::default([0, HashMainColumn::CI.main_index() + 1])
    }

    pub fn trace_row_to_table_row(_: [BFieldElement; tip5::STATE_SIZE], _: usize) -> Array1<BFieldElement> {
        unimplemented!("stand-in")
    }

    /// Of the canonical value, lowest first; the original's own function takes those of the Montgomery form. Which values are looked up is the
    /// caller's to choose: every 16-bit value is a limb of some element.
    pub fn base_field_element_into_16_bit_limbs(element: BFieldElement) -> [u16; 4] {
        [0, 16, 32, 48].map(|shift| (element.value() >> shift) as u16)
    }
}

pub mod op_stack {
    use ndarray::Array1;
    use twenty_first::prelude::*;

    pub struct OpStackTableEntry;

    impl OpStackTableEntry {
        pub fn to_main_table_row(&self) -> Array1<BFieldElement> {
            unimplemented!("stand-in")
        }
    }
}

pub mod ram {
    use ndarray::Array1;
    use twenty_first::prelude::*;

    pub struct RamTableCall;

    impl RamTableCall {
        pub fn to_table_row(&self) -> Array1<BFieldElement> {
            unimplemented!("stand-in")
        }
    }
}
