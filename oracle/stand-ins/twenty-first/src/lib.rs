//! Stand-in for `twenty-first`: the base field and its extension, with the meaning that document 01 gives them and the costs of
//! the real ones (one 128-bit product and a fold for a multiplication, an addition chain for an inverse, one inverse for a
//! batch). Differences: words are kept below p, where the real ones are kept in Montgomery form; batches run on one thread.
//! Left out: NTTs, polynomials, Merkle trees, encodings. Hashing is names only: each function of it panics.
mod b_field_element;
mod x_field_element;

pub use b_field_element::BFieldElement;
pub use x_field_element::XFieldElement;

pub mod prelude {
    pub use crate::{BFieldCodec, BFieldElement, Digest, Tip5, XFieldElement};
    pub use crate::{bfe, bfe_array, bfe_vec, tip5, xfe};
}

pub mod math {
    pub mod traits {
        pub trait FiniteField: Sized {
            /// The inverse of each element. Panics if one is zero.
            fn batch_inversion(elements: Vec<Self>) -> Vec<Self>;

            fn par_batch_inversion(elements: Vec<Self>) -> Vec<Self> {
                Self::batch_inversion(elements)
            }
        }
    }
}

pub mod memory {
    /// Advice to the operating system: nothing to do.
    pub fn advise_huge_pages<T>(_: &mut [T]) {}
}

#[macro_export]
macro_rules! bfe {
    ($value:expr) => {
        $crate::BFieldElement::from($value)
    };
}

#[macro_export]
macro_rules! xfe {
    ($value:expr) => {
        $crate::XFieldElement::from($value)
    };
}

#[macro_export]
macro_rules! bfe_array {
    ($value:expr; $n:expr) => { [$crate::bfe!($value); $n] };
    ($($value:expr),*) => { [$($crate::bfe!($value)),*] };
}

#[macro_export]
macro_rules! bfe_vec {
    ($value:expr; $n:expr) => {
        vec![$crate::bfe!($value); $n]
    };
}

// What follows is names only, for programs and their hashing, which the oracle does not run.

pub trait BFieldCodec {
    type Error;
    fn decode(sequence: &[BFieldElement]) -> Result<Box<Self>, Self::Error>;
    fn encode(&self) -> Vec<BFieldElement>;
    fn static_length() -> Option<usize>;
}

#[derive(Debug, Copy, Clone, Eq, PartialEq)]
pub struct Digest([BFieldElement; Self::LEN]);

impl Digest {
    pub const LEN: usize = 5;

    pub fn new(elements: [BFieldElement; Self::LEN]) -> Self {
        Self(elements)
    }

    pub fn values(self) -> [BFieldElement; Self::LEN] {
        self.0
    }

    pub fn reversed(self) -> Self {
        unimplemented!("stand-in")
    }
}

pub mod tip5 {
    pub const RATE: usize = 10;
    pub const STATE_SIZE: usize = 16;
    pub const NUM_SPLIT_AND_LOOKUP: usize = 4;
    pub const NUM_ROUNDS: usize = 5;

    /// NOT the lookup table: nothing that is run reads it.
    pub const LOOKUP_TABLE: [u8; 256] = [0; 256];
}

pub struct Tip5 {
    pub state: [BFieldElement; tip5::STATE_SIZE],
}

impl Tip5 {
    pub const RATE: usize = tip5::RATE;

    pub fn init() -> Self {
        unimplemented!("stand-in")
    }

    pub fn trace(&mut self) -> [[BFieldElement; tip5::STATE_SIZE]; tip5::NUM_ROUNDS + 1] {
        unimplemented!("stand-in")
    }

    pub fn hash_varlen(_: &[BFieldElement]) -> Digest {
        unimplemented!("stand-in")
    }
}
