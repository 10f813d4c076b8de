//! Stand-in for `strum`: the number of an enum's variants, the variants in order (fields by `Default`), their names.
//! Left out: every option of the derives, and all other traits.
pub use stand_in_derive::{Display, EnumCount, EnumIter};

pub trait EnumCount {
    const COUNT: usize;
}

pub trait IntoEnumIterator: Sized {
    fn iter() -> std::vec::IntoIter<Self>;
}
