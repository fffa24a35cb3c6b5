//! Alphas of filters: from 0 to 1 and near it, at the limits and beyond.
use crate::{Manner, Numbers};
use original::places::ALPHAS;

/// Zeros of both signs, 1, and numbers far outside 0..1 or hardly so.
const LIMITS: [f64; 7] = [0.0, -0.0, 1.0, 0.5, -1e300, 1e300, -5e-324];

/// The numbers beside the limits, and the largest ones.
const BESIDE: [f64; 6] = [5e-324, 1e-310, 1f64.next_down(), 1f64.next_up(), f64::MAX, f64::MIN];

/// What is not finite.
pub const BLANKS: [f64; 4] = [f64::INFINITY, f64::NEG_INFINITY, f64::NAN, -f64::NAN];

/// The one alpha of a filter. With turns at 8 it is 0, which they take.
pub fn one_alpha(n: &mut Numbers, manner: Manner) -> f64 {
    match manner {
        Manner::Turning => 0.0,
        _ if n.one_in(4) => n.one_of(&LIMITS),
        _ => 0.5 + n.within(0.7),
    }
}

/// An alpha for each sensor; in most filters they differ. With turns at 8 at least two are 0.
pub fn alphas(n: &mut Numbers, manner: Manner) -> [f64; ALPHAS] {
    let place = n.below(ALPHAS);
    let mut alphas = if n.one_in(8) { [one_alpha(n, manner); ALPHAS] } else { core::array::from_fn(|_| one_alpha(n, manner)) };
    match n.below(8) {
        0 => alphas[place] = n.one_of(&BESIDE),
        1 if manner == Manner::Damaged && n.one_in(2) => alphas[place] = n.one_of(&BLANKS),
        _ if manner == Manner::Turning && n.one_in(2) => alphas[place] = one_alpha(n, Manner::Ordinary),
        _ => {}
    }
    alphas
}
