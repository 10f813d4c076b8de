//! Stand-in for `arbitrary`: names only, so that the original's implementations compile. Every request for a random value
//! answers an error; nothing here is run.
use std::marker::PhantomData;
use std::ops::RangeInclusive;

pub use stand_in_derive::Arbitrary;

#[derive(Debug)]
pub struct Error;

pub type Result<T> = std::result::Result<T, Error>;

pub trait Arbitrary<'a>: Sized {
    fn arbitrary(u: &mut Unstructured<'a>) -> Result<Self>;
}

pub struct Unstructured<'a>(PhantomData<&'a ()>);

impl<'a> Unstructured<'a> {
    pub fn arbitrary<T>(&mut self) -> Result<T> {
        Err(Error)
    }

    pub fn arbitrary_len<T>(&mut self) -> Result<usize> {
        Err(Error)
    }

    pub fn int_in_range<T>(&mut self, _: RangeInclusive<T>) -> Result<T> {
        Err(Error)
    }

    pub fn choose_index(&mut self, _: usize) -> Result<usize> {
        Err(Error)
    }

    pub fn choose<'b, T>(&mut self, _: &'b [T]) -> Result<&'b T> {
        Err(Error)
    }
}
