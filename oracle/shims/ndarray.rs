//! Stands in for the crate `ndarray`: arrays that are made, indexed and copied, and no more. Rows are vectors of
//! their own, so that not even an index is computed here; an index outside panics, as in the crate itself.

use num_traits::Zero;
use std::ops::{Index, IndexMut};

pub mod prelude {
    pub use super::{Array1, Array2};
}

pub struct Axis(pub usize);

#[derive(Debug, Clone)]
pub struct Array1<A>(Vec<A>);

impl<A: Clone> Array1<A> {
    pub fn zeros(len: usize) -> Self
    where
        A: Zero,
    {
        Array1(vec![A::zero(); len])
    }
    pub fn iter(&self) -> std::slice::Iter<'_, A> {
        self.0.iter()
    }
    pub fn mapv<B>(&self, f: impl FnMut(A) -> B) -> Array1<B> {
        Array1(self.0.iter().cloned().map(f).collect())
    }
}

impl<A> Index<usize> for Array1<A> {
    type Output = A;
    fn index(&self, place: usize) -> &A {
        &self.0[place]
    }
}

impl<A> IndexMut<usize> for Array1<A> {
    fn index_mut(&mut self, place: usize) -> &mut A {
        &mut self.0[place]
    }
}

#[derive(Debug, Clone)]
pub struct Array2<A> {
    rows: Vec<Vec<A>>,
    ncols: usize,
}

impl<A> Array2<A> {
    fn fill((nrows, ncols): (usize, usize), mut cell: impl FnMut() -> A) -> Self {
        let mut row = || (0..ncols).map(|_| cell()).collect();
        let rows = (0..nrows).map(|_| row()).collect();
        Array2 { rows, ncols }
    }
    pub fn zeros(shape: (usize, usize)) -> Self
    where
        A: Zero,
    {
        Self::fill(shape, A::zero)
    }
    pub fn from_elem(shape: (usize, usize), value: A) -> Self
    where
        A: Clone,
    {
        Self::fill(shape, || value.clone())
    }
    pub fn default(shape: (usize, usize)) -> Self
    where
        A: Default,
    {
        Self::fill(shape, A::default)
    }
    pub fn nrows(&self) -> usize {
        self.rows.len()
    }
    pub fn ncols(&self) -> usize {
        self.ncols
    }
    /// A column; the Rust asks for no other axis.
    pub fn index_axis(&self, axis: Axis, place: usize) -> Array1<A>
    where
        A: Clone,
    {
        assert!(axis.0 == 1);
        Array1(self.rows.iter().map(|row| row[place].clone()).collect())
    }
}

impl<A> Index<(usize, usize)> for Array2<A> {
    type Output = A;
    fn index(&self, (row, col): (usize, usize)) -> &A {
        &self.rows[row][col]
    }
}

impl<A> IndexMut<(usize, usize)> for Array2<A> {
    fn index_mut(&mut self, (row, col): (usize, usize)) -> &mut A {
        &mut self.rows[row][col]
    }
}
