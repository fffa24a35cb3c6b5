//! The conversions between a filter with one alpha and one with an alpha for each sensor, read from the request a second time, apart from the port.
//! Each answers 0 or the number of its refusal.
use original::all_finite;
use original::places::{FILTER, ONE_ALPHA, START};

/// The numbers of a filter with one alpha, with that alpha in each place of one.
pub fn with_three(one_alpha: &[f64]) -> Vec<f64> {
    let mut filter = one_alpha.to_vec();
    filter.resize(FILTER, one_alpha[START]);
    filter
}

pub fn upgrade(one_alpha: &[f64], filter: &mut [f64]) -> u32 {
    if (one_alpha.len(), filter.len()) != (ONE_ALPHA, FILTER) {
        return 1;
    }
    if !all_finite(one_alpha) {
        return 2;
    }
    filter.copy_from_slice(&with_three(one_alpha));
    0
}

pub fn downgrade(filter: &[f64], one_alpha: &mut [f64]) -> u32 {
    if (filter.len(), one_alpha.len()) != (FILTER, ONE_ALPHA) {
        return 1;
    }
    if !all_finite(filter) {
        return 2;
    }
    let (alphas, alpha) = (&filter[START..], filter[START].to_bits());
    if alphas.iter().any(|other| other.to_bits() != alpha) {
        return 8;
    }
    one_alpha.copy_from_slice(&filter[..ONE_ALPHA]);
    0
}
