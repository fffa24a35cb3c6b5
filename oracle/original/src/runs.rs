//! Runs of numbers as the original's values, and back, at the places of docs/MANUAL.md.
use crate::places::{START, STATE};
use crate::Alphas;
use drifters_core::math::{Matrix, Vec3};
use drifters_eqf::filter::EqFilter;
use drifters_eqf::group::{State, Symmetry};
use drifters_eqf::lie::{Se23, Se3Tangent};

/// Reads numbers one after another.
pub struct Reader<'a>(std::slice::Iter<'a, f64>);

impl<'a> Reader<'a> {
    pub fn new(numbers: &'a [f64]) -> Self {
        Self(numbers.iter())
    }

    pub fn number(&mut self) -> f64 {
        *self.0.next().expect("a number")
    }

    pub fn vec3(&mut self) -> Vec3 {
        Vec3::new(self.number(), self.number(), self.number())
    }

    /// A matrix, row by row.
    pub fn matrix<const R: usize, const C: usize>(&mut self) -> Matrix<R, C> {
        let mut m = Matrix::zeros();
        m.data.as_flattened_mut().fill_with(|| self.number());
        m
    }

    fn se23(&mut self) -> Se23 {
        Se23 { rotation: self.matrix(), velocity: self.vec3(), position: self.vec3() }
    }

    fn se3_tangent(&mut self) -> Se3Tangent {
        Se3Tangent { omega: self.vec3(), nu: self.vec3() }
    }
}

/// The original's filter of a run, with the alpha that a call of a kind uses.
pub fn filter_of(kind: u32, run: &[f64]) -> EqFilter {
    filter_with(run, run[Alphas::Three.place(kind)])
}

/// The original's filter of a run, with this alpha.
pub fn filter_with(run: &[f64], alpha: f64) -> EqFilter {
    let mut v = Reader::new(run);
    let x = Symmetry { c: v.se23(), gamma: v.se3_tangent(), delta: v.vec3(), e: v.matrix() };
    EqFilter { x, sigma: v.matrix(), gravity: v.vec3(), alpha }
}

/// The filter that the original starts from the numbers of a start.
pub fn started(numbers: &[f64]) -> EqFilter {
    let mut v = Reader::new(numbers);
    let state = State { pose: v.se23(), bias: v.se3_tangent(), lever: v.vec3(), mag: v.matrix() };
    EqFilter::new(&state, v.matrix(), v.vec3())
}

/// Writes vectors and matrices one after another.
struct Writer<const N: usize> {
    numbers: [f64; N],
    length: usize,
}

impl<const N: usize> Writer<N> {
    fn new() -> Self {
        Self { numbers: [0.0; N], length: 0 }
    }

    fn put(&mut self, numbers: &[f64]) -> &mut Self {
        self.numbers[self.length..self.length + numbers.len()].copy_from_slice(numbers);
        self.length += numbers.len();
        self
    }

    fn se23(&mut self, c: &Se23) -> &mut Self {
        self.put(c.rotation.data.as_flattened()).put(&c.velocity.to_array()).put(&c.position.to_array())
    }
}

/// The numbers of a filter before its alphas, which no call changes.
pub fn numbers_of(f: &EqFilter) -> [f64; START] {
    let mut w = Writer::new();
    w.se23(&f.x.c).put(&f.x.gamma.to_array()).put(&f.x.delta.to_array()).put(f.x.e.data.as_flattened());
    w.put(f.sigma.data.as_flattened()).put(&f.gravity.to_array());
    w.numbers
}

/// The numbers of a state.
pub fn state_numbers(s: &State) -> [f64; STATE] {
    let mut w = Writer::new();
    w.se23(&s.pose).put(&s.bias.to_array()).put(&s.lever.to_array()).put(s.mag.data.as_flattened());
    w.numbers
}

pub fn all_finite(numbers: &[f64]) -> bool {
    numbers.iter().all(|x| x.is_finite())
}
