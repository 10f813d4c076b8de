//! Extension elements: a + b·X + c·X^2 with X^3 = X - 1.
use std::ops::{Add, AddAssign, Mul, Sub};

use num_traits::{ConstOne, ConstZero, One, Zero};

use crate::BFieldElement;

#[derive(Debug, Default, Copy, Clone, Eq, PartialEq, Hash)]
pub struct XFieldElement {
    pub coefficients: [BFieldElement; 3],
}

impl XFieldElement {
    #[inline]
    pub const fn new(coefficients: [BFieldElement; 3]) -> Self {
        Self { coefficients }
    }

    /// The y with self · y = 1, as the solution of three linear equations, by elimination: it rests on the multiplication and on
    /// the base field's inverses, not on any law of the extension. Panics where there is no solution, as the original does.
    pub fn inverse(&self) -> Self {
        let x = Self::new([BFieldElement::ZERO, BFieldElement::ONE, BFieldElement::ZERO]);
        let columns = [*self, *self * x, *self * x * x, Self::ONE];
        // Equation i: coefficient i of self · (y0 + y1·X + y2·X^2), then coefficient i of 1.
        let mut equations: [[BFieldElement; 4]; 3] = std::array::from_fn(|i| columns.map(|column| column.coefficients[i]));
        for k in 0..3 {
            let pivot =
                (k..3).find(|&i| !equations[i][k].is_zero()).expect("Cannot invert the zero element in the extension field.");
            equations.swap(k, pivot);
            let scale = equations[k][k].inverse();
            let equation = equations[k].map(|coefficient| coefficient * scale);
            equations[k] = equation;
            for other in (0..3).filter(|&i| i != k) {
                let factor = equations[other][k];
                for (coefficient, subtrahend) in equations[other].iter_mut().zip(equation) {
                    *coefficient -= factor * subtrahend;
                }
            }
        }
        Self::new(equations.map(|equation| equation[3]))
    }
}

impl Add for XFieldElement {
    type Output = Self;

    #[inline]
    fn add(self, other: Self) -> Self {
        let ([a, b, c], [d, e, f]) = (self.coefficients, other.coefficients);
        Self::new([a + d, b + e, c + f])
    }
}

impl Sub for XFieldElement {
    type Output = Self;

    #[inline]
    fn sub(self, other: Self) -> Self {
        let ([a, b, c], [d, e, f]) = (self.coefficients, other.coefficients);
        Self::new([a - d, b - e, c - f])
    }
}

impl Mul for XFieldElement {
    type Output = Self;

    /// X^3 = X - 1 and X^4 = X^2 - X.
    #[inline]
    fn mul(self, other: Self) -> Self {
        let ([a, b, c], [d, e, f]) = (self.coefficients, other.coefficients);
        let x3 = b * f + c * e;
        let x4 = c * f;
        Self::new([a * d - x3, a * e + b * d + x3 - x4, a * f + b * e + c * d + x4])
    }
}

impl AddAssign for XFieldElement {
    #[inline]
    fn add_assign(&mut self, other: Self) {
        *self = *self + other
    }
}

impl Add<BFieldElement> for XFieldElement {
    type Output = Self;

    #[inline]
    fn add(self, other: BFieldElement) -> Self {
        let [a, b, c] = self.coefficients;
        Self::new([a + other, b, c])
    }
}

impl Sub<BFieldElement> for XFieldElement {
    type Output = Self;

    #[inline]
    fn sub(self, other: BFieldElement) -> Self {
        let [a, b, c] = self.coefficients;
        Self::new([a - other, b, c])
    }
}

impl Mul<BFieldElement> for XFieldElement {
    type Output = Self;

    #[inline]
    fn mul(self, other: BFieldElement) -> Self {
        Self::new(self.coefficients.map(|coefficient| coefficient * other))
    }
}

impl Mul<XFieldElement> for BFieldElement {
    type Output = XFieldElement;

    #[inline]
    fn mul(self, other: XFieldElement) -> XFieldElement {
        other * self
    }
}

impl From<i32> for XFieldElement {
    fn from(value: i32) -> Self {
        BFieldElement::from(value).lift()
    }
}

impl From<[BFieldElement; 3]> for XFieldElement {
    fn from(coefficients: [BFieldElement; 3]) -> Self {
        Self::new(coefficients)
    }
}

impl Zero for XFieldElement {
    fn zero() -> Self {
        Self::ZERO
    }

    fn is_zero(&self) -> bool {
        *self == Self::ZERO
    }
}

impl One for XFieldElement {
    fn one() -> Self {
        Self::ONE
    }

    fn is_one(&self) -> bool {
        *self == Self::ONE
    }
}

impl ConstZero for XFieldElement {
    const ZERO: Self = BFieldElement::ZERO.lift();
}

impl ConstOne for XFieldElement {
    const ONE: Self = BFieldElement::ONE.lift();
}
