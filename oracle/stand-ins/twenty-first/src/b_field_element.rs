//! Base elements: numbers modulo p = 2^64 - 2^32 + 1, kept below p.
use std::fmt::{Display, Formatter};
use std::num::TryFromIntError;
use std::ops::{Add, AddAssign, Mul, MulAssign, Sub, SubAssign};

use num_traits::{ConstOne, ConstZero, One, Zero};

use crate::XFieldElement;
use crate::math::traits::FiniteField;

#[derive(Debug, Default, Copy, Clone, Eq, PartialEq, Hash)]
pub struct BFieldElement(u64);

impl BFieldElement {
    pub const P: u64 = 0xffff_ffff_0000_0001;

    /// Any word, reduced.
    #[inline]
    pub const fn new(value: u64) -> Self {
        Self::mended(value.overflowing_sub(Self::P))
    }

    /// A difference, with p added where it was taken below 0. (A product with 0 or 1 where a branch would be mispredicted.)
    #[inline]
    const fn mended((difference, borrow): (u64, bool)) -> Self {
        Self(difference.wrapping_add(Self::P * borrow as u64))
    }

    #[inline]
    pub const fn value(&self) -> u64 {
        self.0
    }

    #[inline]
    pub const fn lift(&self) -> XFieldElement {
        XFieldElement { coefficients: [*self, Self(0), Self(0)] }
    }

    /// self^(p - 2). In binary, p - 2 is 31 ones, a zero, 32 ones. Panics for zero, as the original does.
    pub fn inverse(&self) -> Self {
        let x = *self;
        assert_ne!(0, x.0, "Attempted to find the multiplicative inverse of zero.");
        let ones_2 = x.squared(1) * x;
        let ones_3 = ones_2.squared(1) * x;
        let ones_6 = ones_3.squared(3) * ones_3;
        let ones_12 = ones_6.squared(6) * ones_6;
        let ones_24 = ones_12.squared(12) * ones_12;
        let ones_30 = ones_24.squared(6) * ones_6;
        let ones_31_then_0 = (ones_30.squared(1) * x).squared(1);
        ones_31_then_0.squared(32) * (ones_31_then_0 * x)
    }

    /// self^(2^n)
    #[inline]
    fn squared(self, n: usize) -> Self {
        (0..n).fold(self, |x, _| x * x)
    }

    /// A number of 128 bits modulo p: 2^64 is 2^32 - 1 there, and 2^96 is -1.
    #[inline]
    const fn fold(product: u128) -> Self {
        const EPSILON: u64 = 0xffff_ffff;
        let (low, high) = (product as u64, (product >> 64) as u64);
        let (difference, borrow) = low.overflowing_sub(high >> 32);
        let difference = difference.wrapping_sub(EPSILON * borrow as u64);
        let (sum, carry) = difference.overflowing_add((high & EPSILON) * EPSILON);
        Self::new(sum.wrapping_add(EPSILON * carry as u64))
    }
}

impl Add for BFieldElement {
    type Output = Self;

    /// As self - (p - other).
    #[inline]
    #[allow(clippy::suspicious_arithmetic_impl)]
    fn add(self, other: Self) -> Self {
        Self::mended(self.0.overflowing_sub(Self::P - other.0))
    }
}

impl Sub for BFieldElement {
    type Output = Self;

    #[inline]
    fn sub(self, other: Self) -> Self {
        Self::mended(self.0.overflowing_sub(other.0))
    }
}

impl Mul for BFieldElement {
    type Output = Self;

    #[inline]
    fn mul(self, other: Self) -> Self {
        Self::fold(self.0 as u128 * other.0 as u128)
    }
}

impl AddAssign for BFieldElement {
    #[inline]
    fn add_assign(&mut self, other: Self) {
        *self = *self + other
    }
}

impl SubAssign for BFieldElement {
    #[inline]
    fn sub_assign(&mut self, other: Self) {
        *self = *self - other
    }
}

impl MulAssign for BFieldElement {
    #[inline]
    fn mul_assign(&mut self, other: Self) {
        *self = *self * other
    }
}

impl FiniteField for BFieldElement {
    /// With one inverse: of the product of all, from which each is peeled off.
    fn batch_inversion(mut elements: Vec<Self>) -> Vec<Self> {
        let mut product = Self::ONE;
        let mut products_before = Vec::with_capacity(elements.len());
        for &element in &elements {
            assert_ne!(0, element.0, "Cannot do batch inversion on zero");
            products_before.push(product);
            product *= element;
        }
        let mut inverse = product.inverse();
        for (element, product_before) in elements.iter_mut().zip(products_before).rev() {
            let inverse_before = inverse * *element;
            *element = inverse * product_before;
            inverse = inverse_before;
        }
        elements
    }
}

impl Display for BFieldElement {
    fn fmt(&self, f: &mut Formatter<'_>) -> std::fmt::Result {
        self.0.fmt(f)
    }
}

impl Zero for BFieldElement {
    #[inline]
    fn zero() -> Self {
        Self(0)
    }

    #[inline]
    fn is_zero(&self) -> bool {
        self.0 == 0
    }
}

impl One for BFieldElement {
    #[inline]
    fn one() -> Self {
        Self(1)
    }

    #[inline]
    fn is_one(&self) -> bool {
        self.0 == 1
    }
}

impl ConstZero for BFieldElement {
    const ZERO: Self = Self(0);
}

impl ConstOne for BFieldElement {
    const ONE: Self = Self(1);
}

macro_rules! from_numbers {
    ($($number:ty),*) => { $(
        impl From<$number> for BFieldElement {
            #[inline]
            fn from(value: $number) -> Self {
                Self((value as i128).rem_euclid(Self::P as i128) as u64)
            }
        }
    )* };
}

from_numbers!(u8, u16, u32, usize, i32, i64);

impl From<u64> for BFieldElement {
    #[inline]
    fn from(value: u64) -> Self {
        Self::new(value)
    }
}

impl TryFrom<BFieldElement> for u32 {
    type Error = TryFromIntError;

    fn try_from(element: BFieldElement) -> Result<Self, TryFromIntError> {
        element.0.try_into()
    }
}
