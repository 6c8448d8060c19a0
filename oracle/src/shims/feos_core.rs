//! feos_core's state and parameters, as far as the ported text reads them.

use super::nalgebra::DVector;

/// Partial densities and mole fractions are separate fields, each as the record sends it.
pub struct StateHD<D> {
    pub temperature: D,
    pub partial_density: DVector<D>,
    pub molefracs: DVector<D>,
}

pub mod parameter {
    use crate::shims::nalgebra::{DMatrix, DVector};
    use std::marker::PhantomData;

    /// `P` is the record of a substance, `B` that of a pair; association `A` does not occur.
    pub struct Parameters<P, B, A> {
        pub pure: Vec<P>,
        binary: DMatrix<B>,
        association: PhantomData<A>,
    }

    impl<P, B, A> Parameters<P, B, A> {
        pub fn new(pure: Vec<P>, binary: DMatrix<B>) -> Self {
            Self { pure, binary, association: PhantomData }
        }

        /// For each of the N values of a substance, the vector over all substances.
        pub fn collate<T: Copy, const N: usize>(
            &self,
            f: impl Fn(&P) -> [T; N],
        ) -> [DVector<T>; N] {
            std::array::from_fn(|k| self.pure.iter().map(|p| f(p)[k]).collect::<Vec<_>>().into())
        }

        /// The same for pairs.
        pub fn collate_binary<T: Copy, const N: usize>(
            &self,
            f: impl Fn(&B) -> [T; N],
        ) -> [DMatrix<T>; N] {
            let n = self.pure.len();
            std::array::from_fn(|k| DMatrix::from_fn(n, n, |i, j| f(&self.binary[(i, j)])[k]))
        }
    }
}
