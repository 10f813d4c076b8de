//! Stand-in for `num-traits`: the four traits that the original imports. Left out: all other traits, and their implementations
//! for the numbers of the language.
use std::ops::{Add, Mul};

pub trait Zero: Sized + Add<Self, Output = Self> {
    fn zero() -> Self;
    fn is_zero(&self) -> bool;
}

pub trait One: Sized + Mul<Self, Output = Self> {
    fn one() -> Self;
    fn is_one(&self) -> bool;
}

pub trait ConstZero: Zero {
    const ZERO: Self;
}

pub trait ConstOne: One {
    const ONE: Self;
}
