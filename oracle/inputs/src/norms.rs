//! Vectors whose norm is 0, hardly above it, or infinite.
use crate::Numbers;

/// The largest number whose square rounds to 0. A vector has norm 0 exactly where none of its numbers is larger in magnitude.
pub const UNDERFLOWING: f64 = f64::from_bits(0x1e56_a09e_667f_3bcc);

const _: () = assert!(UNDERFLOWING * UNDERFLOWING == 0.0 && UNDERFLOWING.next_up() * UNDERFLOWING.next_up() > 0.0);

/// Above the norms of vectors whose squared numbers are 0 or the least number above it: 2^-536.
pub const LEAST_NORMS: f64 = f64::from_bits((1023 - 536) << 52);

/// A vector of norm 0: zeros of both signs, subnormal numbers, and numbers up to the largest whose square rounds to 0.
pub fn null(n: &mut Numbers) -> [f64; 3] {
    let size = n.one_of(&[0.0, 5e-324, 1e-310, 1e-200, UNDERFLOWING.next_down(), UNDERFLOWING]);
    core::array::from_fn(|_| size * n.one_of(&[1.0, -1.0, 0.0, -0.0]))
}

/// The same, but for one number or more, whose squares are the least number above 0.
pub fn short(n: &mut Numbers) -> [f64; 3] {
    let mut vector = null(n);
    for _ in 0..1 + n.below(3) {
        vector[n.below(3)] = UNDERFLOWING.next_up() * n.one_of(&[1.0, -1.0, 1.25]);
    }
    vector
}

/// A vector of an infinite norm.
pub fn long(n: &mut Numbers) -> [f64; 3] {
    let size = n.one_of(&[1.4e154, 1e200, f64::MAX]);
    let mut vector = core::array::from_fn(|_| size * n.one_of(&[1.0, 0.0, -0.5]));
    vector[n.below(3)] = size * n.one_of(&[1.0, -1.0]);
    vector
}
