//! Stand-in for `ndarray`: owned arrays, views and mutable views of one and two dimensions, with the functions that the original
//! calls. Every index and every slice is checked, and a wrong one panics, as in the real crate. Left out: other dimensions,
//! column-major arrays, steps and negative indices in slices, arithmetic, and parallelism (see the stand-in for `rayon`).
use std::marker::PhantomData;
use std::mem::MaybeUninit;
use std::ops::{Index, IndexMut, Range, RangeFrom, RangeFull, RangeTo};

use num_traits::Zero;

pub mod parallel {
    pub mod prelude {
        pub use rayon::prelude::*;
    }
}

pub type Ix = usize;

#[derive(Debug, Copy, Clone, Eq, PartialEq)]
pub struct Axis(pub usize);

#[derive(Debug, Copy, Clone, Eq, PartialEq)]
pub struct ShapeError;

/// Element `[i, ..]` of an array lies at `i * strides[0] + ..` from where its storage starts.
#[derive(Debug, Copy, Clone)]
pub struct ArrayBase<S, const N: usize> {
    storage: S,
    shape: [usize; N],
    strides: [usize; N],
}

pub type Array1<T> = ArrayBase<Vec<T>, 1>;
pub type Array2<T> = ArrayBase<Vec<T>, 2>;
pub type ArrayView1<'a, T> = ArrayBase<View<'a, T>, 1>;
pub type ArrayView2<'a, T> = ArrayBase<View<'a, T>, 2>;
pub type ArrayViewMut1<'a, T> = ArrayBase<ViewMut<'a, T>, 1>;
pub type ArrayViewMut2<'a, T> = ArrayBase<ViewMut<'a, T>, 2>;

// ---------------------------------------------------------------------------------------------------------------- storages

/// # Safety
/// The pointer is the start of elements that may be read as long as the storage lives.
pub unsafe trait Data {
    type Elem;
    fn pointer(&self) -> *const Self::Elem;
}

/// # Safety
/// The elements may be written too, and through this storage only.
pub unsafe trait DataMut: Data {
    fn pointer_mut(&mut self) -> *mut Self::Elem;
}

pub struct View<'a, T>(*const T, PhantomData<&'a T>);

pub struct ViewMut<'a, T>(*mut T, PhantomData<&'a mut T>);

impl<T> Clone for View<'_, T> {
    fn clone(&self) -> Self {
        *self
    }
}

impl<T> Copy for View<'_, T> {}

unsafe impl<T> Data for Vec<T> {
    type Elem = T;

    #[inline]
    fn pointer(&self) -> *const T {
        self.as_ptr()
    }
}

unsafe impl<T> DataMut for Vec<T> {
    #[inline]
    fn pointer_mut(&mut self) -> *mut T {
        self.as_mut_ptr()
    }
}

unsafe impl<T> Data for View<'_, T> {
    type Elem = T;

    #[inline]
    fn pointer(&self) -> *const T {
        self.0
    }
}

unsafe impl<T> Data for ViewMut<'_, T> {
    type Elem = T;

    #[inline]
    fn pointer(&self) -> *const T {
        self.0
    }
}

unsafe impl<T> DataMut for ViewMut<'_, T> {
    #[inline]
    fn pointer_mut(&mut self) -> *mut T {
        self.0
    }
}

// ------------------------------------------------------------------------------------------------- any number of dimensions

impl<S: Data, const N: usize> ArrayBase<S, N> {
    #[inline]
    fn offset(&self, index: [usize; N]) -> usize {
        let inside = index.iter().zip(self.shape).all(|(&i, n)| i < n);
        assert!(inside, "index {index:?} is out of bounds for an array of shape {:?}", self.shape);
        index.iter().zip(self.strides).map(|(&i, stride)| i * stride).sum()
    }

    #[inline]
    pub fn view(&self) -> ArrayBase<View<'_, S::Elem>, N> {
        let storage = View(self.storage.pointer(), PhantomData);
        ArrayBase { storage, shape: self.shape, strides: self.strides }
    }
}

impl<S: DataMut, const N: usize> ArrayBase<S, N> {
    #[inline]
    pub fn view_mut(&mut self) -> ArrayBase<ViewMut<'_, S::Elem>, N> {
        let storage = ViewMut(self.storage.pointer_mut(), PhantomData);
        ArrayBase { storage, shape: self.shape, strides: self.strides }
    }
}

impl<S: Data, const N: usize> Index<[usize; N]> for ArrayBase<S, N> {
    type Output = S::Elem;

    #[inline]
    fn index(&self, index: [usize; N]) -> &S::Elem {
        // SAFETY: the offset is that of an element.
        unsafe { &*self.storage.pointer().add(self.offset(index)) }
    }
}

impl<S: DataMut, const N: usize> IndexMut<[usize; N]> for ArrayBase<S, N> {
    #[inline]
    fn index_mut(&mut self, index: [usize; N]) -> &mut S::Elem {
        let offset = self.offset(index);
        // SAFETY: the offset is that of an element.
        unsafe { &mut *self.storage.pointer_mut().add(offset) }
    }
}

// ------------------------------------------------------------------------------------------------------------ one dimension

impl<S: Data> Index<usize> for ArrayBase<S, 1> {
    type Output = S::Elem;

    #[inline]
    fn index(&self, index: usize) -> &S::Elem {
        &self[[index]]
    }
}

impl<S: DataMut> IndexMut<usize> for ArrayBase<S, 1> {
    #[inline]
    fn index_mut(&mut self, index: usize) -> &mut S::Elem {
        &mut self[[index]]
    }
}

impl<T> From<Vec<T>> for Array1<T> {
    fn from(storage: Vec<T>) -> Self {
        Self { shape: [storage.len()], strides: [1], storage }
    }
}

impl<T: Zero + Clone> Array1<T> {
    pub fn zeros([n]: [usize; 1]) -> Self {
        Self::from(vec![T::zero(); n])
    }
}

impl<S: Data> ArrayBase<S, 1> {
    #[allow(clippy::len_without_is_empty)]
    #[inline]
    pub fn len(&self) -> usize {
        self.shape[0]
    }

    pub fn iter(&self) -> impl Iterator<Item = &S::Elem> {
        let (pointer, stride) = (self.storage.pointer(), self.strides[0]);
        // SAFETY: the offsets are those of the elements.
        (0..self.len()).map(move |i| unsafe { &*pointer.add(i * stride) })
    }

    pub fn to_vec(&self) -> Vec<S::Elem>
    where
        S::Elem: Clone,
    {
        self.iter().cloned().collect()
    }

    pub fn to_owned(&self) -> Array1<S::Elem>
    where
        S::Elem: Clone,
    {
        Array1::from(self.to_vec())
    }
}

impl<S: DataMut> ArrayBase<S, 1> {
    pub fn iter_mut(&mut self) -> impl Iterator<Item = &mut S::Elem> {
        let (pointer, stride) = (self.storage.pointer_mut(), self.strides[0]);
        // SAFETY: the offsets are those of the elements, each met once.
        (0..self.len()).map(move |i| unsafe { &mut *pointer.add(i * stride) })
    }

    pub fn fill(&mut self, value: S::Elem)
    where
        S::Elem: Clone,
    {
        self.iter_mut().for_each(|element| *element = value.clone());
    }

    pub fn assign<R: Data<Elem = S::Elem>>(&mut self, other: &ArrayBase<R, 1>)
    where
        S::Elem: Clone,
    {
        assert_eq!(self.shape, other.shape, "assign: shapes differ");
        self.iter_mut().zip(other.iter()).for_each(|(element, value)| *element = value.clone());
    }

    pub fn as_slice_mut(&mut self) -> Option<&mut [S::Elem]> {
        let is_contiguous = self.strides[0] == 1;
        // SAFETY: the elements lie one after the other.
        is_contiguous.then(|| unsafe { std::slice::from_raw_parts_mut(self.storage.pointer_mut(), self.shape[0]) })
    }
}

// ----------------------------------------------------------------------------------------------------------- two dimensions

/// The shape of a new array, row-major.
pub trait ShapeBuilder {
    type Dim;
    fn shape(self) -> [usize; 2];
}

pub struct Dim<I>(PhantomData<I>);

impl ShapeBuilder for [usize; 2] {
    type Dim = Dim<[Ix; 2]>;

    fn shape(self) -> [usize; 2] {
        self
    }
}

impl<T> Array2<T> {
    fn from_fn(shape: impl ShapeBuilder, element: impl FnMut() -> T) -> Self {
        let shape = shape.shape();
        let storage = std::iter::repeat_with(element).take(shape[0] * shape[1]).collect();
        Self { storage, shape, strides: [shape[1], 1] }
    }

    pub fn zeros(shape: impl ShapeBuilder) -> Self
    where
        T: Zero,
    {
        Self::from_fn(shape, T::zero)
    }

    pub fn default(shape: impl ShapeBuilder) -> Self
    where
        T: Default,
    {
        Self::from_fn(shape, T::default)
    }

    pub fn uninit(shape: impl ShapeBuilder) -> Array2<MaybeUninit<T>> {
        Array2::from_fn(shape, MaybeUninit::uninit)
    }

    /// Row after row.
    pub fn from_shape_vec(shape: [usize; 2], storage: Vec<T>) -> Result<Self, ShapeError> {
        if storage.len() != shape[0] * shape[1] {
            return Err(ShapeError);
        }
        Ok(Self { storage, shape, strides: [shape[1], 1] })
    }

    pub fn push_row(&mut self, row: ArrayView1<T>) -> Result<(), ShapeError>
    where
        T: Clone,
    {
        if row.len() != self.ncols() {
            return Err(ShapeError);
        }
        self.storage.extend(row.iter().cloned());
        self.shape[0] += 1;
        Ok(())
    }

    /// Rows only.
    pub fn append(&mut self, axis: Axis, rows: ArrayView2<T>) -> Result<(), ShapeError>
    where
        T: Clone,
    {
        assert_eq!(Axis(0), axis, "stand-in");
        (0..rows.nrows()).try_for_each(|i| self.push_row(rows.row(i)))
    }

    pub fn as_slice_memory_order_mut(&mut self) -> Option<&mut [T]> {
        Some(&mut self.storage)
    }

    pub fn par_mapv_inplace(&mut self, f: impl Fn(T) -> T)
    where
        T: Clone,
    {
        self.storage.iter_mut().for_each(|element| *element = f(element.clone()));
    }
}

impl<T> Array2<MaybeUninit<T>> {
    /// # Safety
    /// Every element has been written.
    pub unsafe fn assume_init(self) -> Array2<T> {
        // SAFETY: as above.
        let storage = self.storage.into_iter().map(|element| unsafe { element.assume_init() }).collect();
        Array2 { storage, shape: self.shape, strides: self.strides }
    }
}

impl<S: Data> ArrayBase<S, 2> {
    #[inline]
    pub fn nrows(&self) -> usize {
        self.shape[0]
    }

    #[inline]
    pub fn ncols(&self) -> usize {
        self.shape[1]
    }

    pub fn dim(&self) -> (usize, usize) {
        (self.shape[0], self.shape[1])
    }

    pub fn slice<const N: usize>(&self, slice: impl SliceInfo<N>) -> ArrayBase<View<'_, S::Elem>, N> {
        let Part { start, shape, strides } = slice.part_of(self.shape, self.strides);
        // `start` may be the end of the storage, where the part is empty.
        let pointer = self.storage.pointer().wrapping_add(start);
        ArrayBase { storage: View(pointer, PhantomData), shape, strides }
    }

    pub fn row(&self, i: usize) -> ArrayView1<'_, S::Elem> {
        self.slice((i, ..))
    }

    pub fn column(&self, j: usize) -> ArrayView1<'_, S::Elem> {
        self.slice((.., j))
    }
}

impl<S: DataMut> ArrayBase<S, 2> {
    pub fn slice_mut<const N: usize>(&mut self, slice: impl SliceInfo<N>) -> ArrayBase<ViewMut<'_, S::Elem>, N> {
        self.view_mut().slice_move(slice)
    }

    pub fn row_mut(&mut self, i: usize) -> ArrayViewMut1<'_, S::Elem> {
        self.slice_mut((i, ..))
    }

    pub fn column_mut(&mut self, j: usize) -> ArrayViewMut1<'_, S::Elem> {
        self.slice_mut((.., j))
    }

    #[allow(clippy::type_complexity)]
    pub fn multi_slice_mut<const N: usize, const M: usize>(
        &mut self,
        slices: (impl SliceInfo<N>, impl SliceInfo<M>),
    ) -> (ArrayBase<ViewMut<'_, S::Elem>, N>, ArrayBase<ViewMut<'_, S::Elem>, M>) {
        self.view_mut().multi_slice_move(slices)
    }

    pub fn axis_iter_mut(&mut self, axis: Axis) -> impl Iterator<Item = ArrayViewMut1<'_, S::Elem>> {
        assert!(axis.0 < 2, "no such axis");
        let (along, across) = (axis.0, 1 - axis.0);
        let (pointer, shape, strides) = (self.storage.pointer_mut(), self.shape, self.strides);
        // The views are of different rows, or of different columns: they share no element.
        (0..shape[along]).map(move |i| {
            let storage = ViewMut(pointer.wrapping_add(i * strides[along]), PhantomData);
            ArrayBase { storage, shape: [shape[across]], strides: [strides[across]] }
        })
    }

    pub fn assign<R: Data<Elem = S::Elem>>(&mut self, other: &ArrayBase<R, 2>)
    where
        S::Elem: Clone,
    {
        assert_eq!(self.shape, other.shape, "assign: shapes differ");
        (0..other.nrows()).for_each(|i| self.row_mut(i).assign(&other.row(i)));
    }
}

impl<'a, T> ArrayViewMut2<'a, T> {
    pub fn slice_move<const N: usize>(self, slice: impl SliceInfo<N>) -> ArrayBase<ViewMut<'a, T>, N> {
        let Part { start, shape, strides } = slice.part_of(self.shape, self.strides);
        ArrayBase { storage: ViewMut(self.storage.0.wrapping_add(start), PhantomData), shape, strides }
    }

    #[allow(clippy::type_complexity)]
    pub fn multi_slice_move<const N: usize, const M: usize>(
        self,
        (first, second): (impl SliceInfo<N>, impl SliceInfo<M>),
    ) -> (ArrayBase<ViewMut<'a, T>, N>, ArrayBase<ViewMut<'a, T>, M>) {
        let ([rows, columns], [other_rows, other_columns]) = (first.spans(self.shape), second.spans(self.shape));
        let meet = |a: &Range<usize>, b: &Range<usize>| a.start.max(b.start) < a.end.min(b.end);
        assert!(!(meet(&rows, &other_rows) && meet(&columns, &other_columns)), "multi_slice: the slices intersect");
        let same = ArrayBase { storage: ViewMut(self.storage.0, PhantomData), ..self };
        (self.slice_move(first), same.slice_move(second))
    }
}

// ------------------------------------------------------------------------------------------------------------------- slices

#[macro_export]
macro_rules! s {
    ($rows:expr, $columns:expr) => {
        ($rows, $columns)
    };
}

/// Rows and columns of a slice; an index in place of a range takes that axis away, which leaves N.
pub trait SliceInfo<const N: usize> {
    const KEPT_AXES: [usize; N];

    fn spans(&self, shape: [usize; 2]) -> [Range<usize>; 2];

    #[inline]
    fn part_of(&self, shape: [usize; 2], strides: [usize; 2]) -> Part<N> {
        let spans = self.spans(shape);
        Part {
            start: spans[0].start * strides[0] + spans[1].start * strides[1],
            shape: Self::KEPT_AXES.map(|axis| spans[axis].len()),
            strides: Self::KEPT_AXES.map(|axis| strides[axis]),
        }
    }
}

pub struct Part<const N: usize> {
    start: usize,
    shape: [usize; N],
    strides: [usize; N],
}

pub trait Span {
    fn of(&self, length: usize) -> Range<usize>;
}

fn checked(span: Range<usize>, length: usize) -> Range<usize> {
    assert!(span.start <= span.end && span.end <= length, "slice {span:?} is out of bounds for a length of {length}");
    span
}

impl Span for Range<usize> {
    fn of(&self, length: usize) -> Range<usize> {
        checked(self.clone(), length)
    }
}

impl Span for RangeTo<usize> {
    fn of(&self, length: usize) -> Range<usize> {
        checked(0..self.end, length)
    }
}

impl Span for RangeFrom<usize> {
    fn of(&self, length: usize) -> Range<usize> {
        checked(self.start..length, length)
    }
}

impl Span for RangeFull {
    fn of(&self, length: usize) -> Range<usize> {
        0..length
    }
}

impl<R: Span, C: Span> SliceInfo<2> for (R, C) {
    const KEPT_AXES: [usize; 2] = [0, 1];

    fn spans(&self, shape: [usize; 2]) -> [Range<usize>; 2] {
        [self.0.of(shape[0]), self.1.of(shape[1])]
    }
}

impl<C: Span> SliceInfo<1> for (usize, C) {
    const KEPT_AXES: [usize; 1] = [1];

    fn spans(&self, shape: [usize; 2]) -> [Range<usize>; 2] {
        [checked(self.0..self.0 + 1, shape[0]), self.1.of(shape[1])]
    }
}

impl<R: Span> SliceInfo<1> for (R, usize) {
    const KEPT_AXES: [usize; 1] = [0];

    fn spans(&self, shape: [usize; 2]) -> [Range<usize>; 2] {
        [self.0.of(shape[0]), checked(self.1..self.1 + 1, shape[1])]
    }
}
