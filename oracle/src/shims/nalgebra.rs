//! nalgebra's vectors and matrices, as far as the ported text uses them, with the sums in the order
//! that document 01 gives.

use super::num_dual::DualNum;
use std::ops::{Index, IndexMut, Mul};

#[derive(Clone, Debug)]
pub struct DVector<T>(Vec<T>);

impl<T> From<Vec<T>> for DVector<T> {
    fn from(values: Vec<T>) -> Self {
        Self(values)
    }
}

impl<T> Index<usize> for DVector<T> {
    type Output = T;
    fn index(&self, i: usize) -> &T {
        &self.0[i]
    }
}

#[allow(clippy::len_without_is_empty)]
impl<T: Copy> DVector<T> {
    pub fn from_element(n: usize, value: T) -> Self {
        Self(vec![value; n])
    }

    pub fn len(&self) -> usize {
        self.0.len()
    }

    pub fn iter(&self) -> std::slice::Iter<'_, T> {
        self.0.iter()
    }

    pub fn as_slice(&self) -> &[T] {
        &self.0
    }

    pub fn map<U>(&self, f: impl FnMut(T) -> U) -> DVector<U> {
        DVector(self.0.iter().copied().map(f).collect())
    }
}

impl<T: DualNum> DVector<T> {
    /// Left to right from +0.
    pub fn sum(&self) -> T {
        self.0.iter().fold(T::zero(), |sum, &v| sum + v)
    }

    /// The products, added as in `sum`.
    pub fn dot(&self, other: &Self) -> T {
        let products = self.0.iter().zip(&other.0);
        products.fold(T::zero(), |sum, (&a, &b)| sum + a * b)
    }
}

#[derive(Clone, Debug)]
pub struct DMatrix<T> {
    columns: usize,
    entries: Vec<T>,
}

impl<T> DMatrix<T> {
    pub fn from_fn(rows: usize, columns: usize, mut f: impl FnMut(usize, usize) -> T) -> Self {
        let entries = (0..rows * columns).map(|at| f(at / columns, at % columns)).collect();
        Self { columns, entries }
    }
}

impl<T: DualNum> DMatrix<T> {
    pub fn zeros(rows: usize, columns: usize) -> Self {
        Self::from_fn(rows, columns, |_, _| T::zero())
    }
}

impl<T> Index<(usize, usize)> for DMatrix<T> {
    type Output = T;
    fn index(&self, (i, j): (usize, usize)) -> &T {
        &self.entries[i * self.columns + j]
    }
}

impl<T> IndexMut<(usize, usize)> for DMatrix<T> {
    fn index_mut(&mut self, (i, j): (usize, usize)) -> &mut T {
        &mut self.entries[i * self.columns + j]
    }
}

/// A matrix of fixed size; `data.0` holds its columns, as in nalgebra.
#[derive(Clone, Copy)]
pub struct SMatrix<T, const R: usize, const C: usize> {
    pub data: Columns<T, R, C>,
}

#[derive(Clone, Copy)]
pub struct Columns<T, const R: usize, const C: usize>(pub [[T; R]; C]);

impl<T: Copy, const R: usize, const C: usize> SMatrix<T, R, C> {
    pub const fn from_rows(rows: [[T; C]; R]) -> Self {
        let mut columns = [[rows[0][0]; R]; C];
        let mut at = 0;
        while at < R * C {
            columns[at % C][at / C] = rows[at / C][at % C];
            at += 1;
        }
        Self { data: Columns(columns) }
    }
}

/// Each row times the vector as (c0 × v0 + c1 × v1) + c2 × v2.
impl<T: DualNum, const R: usize> Mul<SMatrix<T, 3, 1>> for SMatrix<T, R, 3> {
    type Output = SMatrix<T, R, 1>;
    fn mul(self, vector: SMatrix<T, 3, 1>) -> Self::Output {
        let [c0, c1, c2] = self.data.0;
        let [[v0, v1, v2]] = vector.data.0;
        let product = std::array::from_fn(|row| (c0[row] * v0 + c1[row] * v1) + c2[row] * v2);
        SMatrix { data: Columns([product]) }
    }
}

impl<T: Copy> SMatrix<T, 1, 1> {
    /// One entry on top of four, the only case in the text.
    pub fn stack(self, below: SMatrix<T, 4, 1>) -> SMatrix<T, 5, 1> {
        let [[c0]] = self.data.0;
        let [[c1, c2, c3, c4]] = below.data.0;
        SMatrix { data: Columns([[c0, c1, c2, c3, c4]]) }
    }
}

macro_rules! matrix {
    ($($($entry:expr),+);+ $(;)?) => {
        $crate::shims::nalgebra::SMatrix::from_rows([$([$($entry),+]),+])
    };
}

macro_rules! vector {
    ($($entry:expr),+) => {
        $crate::shims::nalgebra::SMatrix::from_rows([$([$entry]),+])
    };
}

macro_rules! stack {
    ($top:expr; $below:expr) => {
        $top.stack($below)
    };
}

macro_rules! dvector {
    ($($entry:expr),+ $(,)?) => {
        $crate::shims::nalgebra::DVector::from(vec![$($entry),+])
    };
}

pub(crate) use {dvector, matrix, stack, vector};
