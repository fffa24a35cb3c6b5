//! The original's `EqFilter::update`, read over the width: the original has it for three measured numbers, its factorisation and `inflate` for any.
use drifters_core::math::{Cholesky, Matrix, Vector};
use drifters_eqf::filter::EqFilter;
use drifters_eqf::gcu;
use drifters_eqf::group::{Algebra, Symmetry};
use drifters_eqf::linear::DIM;

/// What an update takes: the output matrix, the innovation and the noise.
#[derive(Clone, Copy)]
pub struct Measurement<const M: usize> {
    pub c: Matrix<M, DIM>,
    pub y: Vector<M>,
    pub noise: Matrix<M, M>,
}

impl<const M: usize> Measurement<M> {
    /// The NIS and the gain; None where the raw or the inflated matrix has no factor.
    fn gain(&self, f: &EqFilter) -> Option<(f64, Matrix<DIM, M>)> {
        let c_sigma = self.c.matmul(&f.sigma);
        let projected = c_sigma.mul_transpose(&self.c);
        let raw = Cholesky::new(&(projected + self.noise))?;
        let nis = dot(&self.y, &raw.solve(&self.y));
        let s = gcu::inflate(&self.y, &projected, &self.noise, f.alpha);
        let chol = Cholesky::new(&s)?;
        Some((nis, chol.solve(&c_sigma).transpose()))
    }

    /// The element that goes to `Symmetry::exp`.
    fn step(&self, gain: &Matrix<DIM, M>) -> Algebra {
        Algebra::from_array(&gain.matmul(&self.y).to_column())
    }
}

fn dot<const M: usize>(a: &Vector<M>, b: &Vector<M>) -> f64 {
    (0..M).map(|i| a[(i, 0)] * b[(i, 0)]).sum()
}

/// A measurement of any width.
pub trait Measured {
    /// `EqFilter::update`, in its order of operations.
    fn update(&self, f: &mut EqFilter) -> Option<f64>;

    /// The element that the update hands to `Symmetry::exp`; None where it has no factor.
    fn correction(&self, f: &EqFilter) -> Option<Algebra>;

    /// Whether the raw matrix has a factor.
    fn has_raw_factor(&self, f: &EqFilter) -> bool;
}

impl<const M: usize> Measured for Measurement<M> {
    fn update(&self, f: &mut EqFilter) -> Option<f64> {
        let (nis, gain) = self.gain(f)?;
        let step = self.step(&gain);
        f.x = Symmetry::exp(step).compose(&f.x);

        let ikc = Matrix::<DIM, DIM>::identity() - gain.matmul(&self.c);
        f.sigma = ikc.matmul(&f.sigma).mul_transpose(&ikc) + gain.matmul(&self.noise).mul_transpose(&gain);

        let reset = Matrix::<DIM, DIM>::identity() + step.ad() * 0.5;
        f.sigma = reset.matmul(&f.sigma).mul_transpose(&reset);
        f.sigma.symmetrize();
        Some(nis)
    }

    fn correction(&self, f: &EqFilter) -> Option<Algebra> {
        self.gain(f).map(|(_, gain)| self.step(&gain))
    }

    fn has_raw_factor(&self, f: &EqFilter) -> bool {
        Cholesky::new(&(self.c.matmul(&f.sigma).mul_transpose(&self.c) + self.noise)).is_some()
    }
}
