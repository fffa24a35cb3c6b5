//! A propagation by filter.rs unedited: its `process_noise` takes the input's columns from two lifts, subtracted. No call of the port is held to it; it
//! tells where the edit counts.
use crate::kinds::PROPAGATE;
use crate::places::START;
use crate::runs::{filter_of, numbers_of, Reader};
use drifters_eqf::filter::EqFilter;
use drifters_eqf::lift::Input;
use drifters_eqf::unedited::filter::{EqFilter as Unedited, ProcessNoise};

/// The numbers of a filter before its alphas after a propagation, which no check stops.
pub fn propagated_unedited(run: &[f64], numbers: &[f64]) -> [f64; START] {
    let mut v = Reader::new(numbers);
    let (u, dt) = (Input { omega: v.vec3(), accel: v.vec3() }, v.number());
    let q = ProcessNoise {
        gyro: v.vec3(),
        accel: v.vec3(),
        gyro_bias: v.vec3(),
        accel_bias: v.vec3(),
        lever: v.vec3(),
        mag: v.vec3(),
    };
    let EqFilter { x, sigma, gravity, alpha } = filter_of(PROPAGATE, run);
    let mut f = Unedited { x, sigma, gravity, alpha };
    f.propagate(&u, dt, &q);
    let Unedited { x, sigma, gravity, alpha } = f;
    numbers_of(&EqFilter { x, sigma, gravity, alpha })
}
