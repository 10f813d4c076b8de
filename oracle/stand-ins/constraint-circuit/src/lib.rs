//! Stand-in for `triton-constraint-circuit`: a polynomial is built as a tree and evaluated on given rows; the same polynomial as
//! the original's circuit has. Left out: the sharing of equal nodes, degree lowering, the generated code (so the time of an
//! evaluation here says nothing of the original's).
use std::marker::PhantomData;
use std::ops::{Add, Mul, Sub};
use std::rc::Rc;

use twenty_first::prelude::*;

/// What a polynomial may read: two rows of the main and of the auxiliary table, current and next, and the challenges.
pub struct Rows<'a> {
    pub main: [&'a [BFieldElement]; 2],
    pub aux: [&'a [XFieldElement]; 2],
    pub challenges: &'a [XFieldElement],
}

enum Node {
    Base(BFieldElement),
    Extension(XFieldElement),
    /// Row (0 current, 1 next) and column.
    Main(usize, usize),
    Aux(usize, usize),
    Challenge(usize),
    Sum(Rc<Node>, Rc<Node>),
    Difference(Rc<Node>, Rc<Node>),
    Product(Rc<Node>, Rc<Node>),
}

/// The elements in which a polynomial is evaluated: extension elements, or base elements where it reads nothing else.
trait Value: Copy + Add<Output = Self> + Sub<Output = Self> + Mul<Output = Self> {
    fn of_base(element: BFieldElement) -> Self;
    fn of_extension(element: XFieldElement) -> Self;
}

impl Value for BFieldElement {
    fn of_base(element: BFieldElement) -> Self {
        element
    }

    fn of_extension(_: XFieldElement) -> Self {
        unreachable!("an extension element in a base polynomial")
    }
}

impl Value for XFieldElement {
    fn of_base(element: BFieldElement) -> Self {
        element.lift()
    }

    fn of_extension(element: XFieldElement) -> Self {
        element
    }
}

impl Node {
    fn evaluate<V: Value>(&self, rows: &Rows) -> V {
        match self {
            Self::Base(constant) => V::of_base(*constant),
            Self::Extension(constant) => V::of_extension(*constant),
            Self::Main(row, column) => V::of_base(rows.main[*row][*column]),
            Self::Aux(row, column) => V::of_extension(rows.aux[*row][*column]),
            Self::Challenge(index) => V::of_extension(rows.challenges[*index]),
            Self::Sum(left, right) => left.evaluate::<V>(rows) + right.evaluate::<V>(rows),
            Self::Difference(left, right) => left.evaluate::<V>(rows) - right.evaluate::<V>(rows),
            Self::Product(left, right) => left.evaluate::<V>(rows) * right.evaluate::<V>(rows),
        }
    }

    fn is_base(&self) -> bool {
        match self {
            Self::Base(_) | Self::Main(..) => true,
            Self::Extension(_) | Self::Aux(..) | Self::Challenge(_) => false,
            Self::Sum(left, right) | Self::Difference(left, right) | Self::Product(left, right) => {
                left.is_base() && right.is_base()
            }
        }
    }
}

pub trait InputIndicator {
    #[doc(hidden)]
    fn place(self) -> Place;
}

/// Row (0 current, 1 next) and column of the main or of the auxiliary table.
pub enum Place {
    Main(usize, usize),
    Aux(usize, usize),
}

pub enum SingleRowIndicator {
    Main(usize),
    Aux(usize),
}

pub enum DualRowIndicator {
    CurrentMain(usize),
    CurrentAux(usize),
    NextMain(usize),
    NextAux(usize),
}

impl InputIndicator for SingleRowIndicator {
    fn place(self) -> Place {
        match self {
            Self::Main(column) => Place::Main(0, column),
            Self::Aux(column) => Place::Aux(0, column),
        }
    }
}

impl InputIndicator for DualRowIndicator {
    fn place(self) -> Place {
        match self {
            Self::CurrentMain(column) => Place::Main(0, column),
            Self::CurrentAux(column) => Place::Aux(0, column),
            Self::NextMain(column) => Place::Main(1, column),
            Self::NextAux(column) => Place::Aux(1, column),
        }
    }
}

/// A polynomial.
pub struct ConstraintCircuitMonad<II>(Rc<Node>, PhantomData<II>);

impl<II> ConstraintCircuitMonad<II> {
    fn new(node: Node) -> Self {
        Self(Rc::new(node), PhantomData)
    }

    /// Whether it reads the main table and base constants only.
    pub fn is_base(&self) -> bool {
        self.0.is_base()
    }

    pub fn evaluate(&self, rows: &Rows) -> XFieldElement {
        self.0.evaluate(rows)
    }

    /// The same, for a polynomial that `is_base`.
    pub fn evaluate_base(&self, rows: &Rows) -> BFieldElement {
        self.0.evaluate(rows)
    }
}

impl<II> Clone for ConstraintCircuitMonad<II> {
    fn clone(&self) -> Self {
        Self(self.0.clone(), PhantomData)
    }
}

impl<II> Add for ConstraintCircuitMonad<II> {
    type Output = Self;

    fn add(self, other: Self) -> Self {
        Self::new(Node::Sum(self.0, other.0))
    }
}

impl<II> Sub for ConstraintCircuitMonad<II> {
    type Output = Self;

    fn sub(self, other: Self) -> Self {
        Self::new(Node::Difference(self.0, other.0))
    }
}

impl<II> Mul for ConstraintCircuitMonad<II> {
    type Output = Self;

    fn mul(self, other: Self) -> Self {
        Self::new(Node::Product(self.0, other.0))
    }
}

pub struct ConstraintCircuitBuilder<II>(PhantomData<II>);

impl<II: InputIndicator> ConstraintCircuitBuilder<II> {
    #[allow(clippy::new_without_default)]
    pub fn new() -> Self {
        Self(PhantomData)
    }

    pub fn input(&self, indicator: II) -> ConstraintCircuitMonad<II> {
        ConstraintCircuitMonad::new(match indicator.place() {
            Place::Main(row, column) => Node::Main(row, column),
            Place::Aux(row, column) => Node::Aux(row, column),
        })
    }

    pub fn challenge(&self, id: impl Into<usize>) -> ConstraintCircuitMonad<II> {
        ConstraintCircuitMonad::new(Node::Challenge(id.into()))
    }

    pub fn b_constant(&self, constant: impl Into<BFieldElement>) -> ConstraintCircuitMonad<II> {
        ConstraintCircuitMonad::new(Node::Base(constant.into()))
    }

    pub fn x_constant(&self, constant: impl Into<XFieldElement>) -> ConstraintCircuitMonad<II> {
        ConstraintCircuitMonad::new(Node::Extension(constant.into()))
    }
}
