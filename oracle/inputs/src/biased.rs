//! Propagations of filters whose estimate has large biases, which the rate and the acceleration that are measured have too.
use crate::log::{covariance, rotation};
use crate::{Log, Manner, Numbers};
use drifters_core::math::Vec3;
use original::filter_of;
use original::kinds::PROPAGATE;
use original::places::{DT, E, FILTER, GAMMA, PROPAGATION, SIGMA, VELOCITY};

/// How many powers of ten, from 1 on, the size of each half of the bias is one of.
const POWERS: usize = 20;

/// How many propagations a log has.
const CALLS: usize = 4;

/// The numbers of a start with biases of up to a size, of the gyroscope and of the accelerometer.
fn start(n: &mut Numbers, sizes: [f64; 2]) -> Vec<f64> {
    let lever = 10f64.powi(n.below(6) as i32 - 2);
    let mut numbers = rotation(n).to_vec();
    for size in [2.0, 2.0, sizes[0], sizes[1], lever] {
        numbers.extend(n.withins::<3>(size));
    }
    numbers.extend(rotation(n));
    numbers.extend(covariance(n, Manner::Ordinary));
    numbers.extend([0.0, 0.0, 9.81]);
    numbers
}

/// A propagation whose rate is near the bias of the gyroscope, so that its turn is small, and whose acceleration is near that of the accelerometer. Numbers
/// as large as the bias lie so far apart that the step must be short for most turns to stay below 8.
fn propagation(n: &mut Numbers, bias: [Vec3; 2], size: f64) -> Vec<f64> {
    let most = (2.0 / (1.0 + size * f64::EPSILON)).min(n.one_of(&[0.01, 0.01, 2.0]));
    let omega = bias[0] + Vec3::from_array(n.withins(1.0));
    let accel = bias[1] + Vec3::from_array(n.withins(10.0));
    let mut numbers = [omega.to_array(), accel.to_array()].concat();
    numbers.push(n.within(most));
    let scale = n.one_of(&[1e-6, 1e-3, 1.0]);
    numbers.extend((0..18).map(|_| n.unit() * scale));
    numbers
}

/// A log of propagations of a filter with large biases.
pub fn biased(n: &mut Numbers) -> Log {
    let sizes = [0, 1].map(|_| 10f64.powi(n.below(POWERS) as i32));
    let mut run = vec![0.0; FILTER];
    original::start(&mut run, &start(n, sizes));
    let bias = filter_of(PROPAGATE, &run).nav_state().bias;
    let calls = (0..CALLS).map(|_| (PROPAGATE, propagation(n, [bias.omega, bias.nu], sizes[0]))).collect();
    Log { run, calls }
}

/// A propagation of few numbers at which the one edit counts: beside a bias of 1e16 the unit input is rounded away. With no covariance before it the first
/// variance is 1 after it, the density over a step of 1; by the original unedited it stays 0.
pub fn rounded_away() -> Log {
    let mut run = vec![0.0; FILTER];
    run[..VELOCITY].iter_mut().step_by(4).for_each(|x| *x = 1.0);
    run[GAMMA] = 1e16;
    run[E..SIGMA].iter_mut().step_by(4).for_each(|x| *x = 1.0);
    let mut numbers = vec![0.0; PROPAGATION];
    (numbers[0], numbers[DT], numbers[DT + 1]) = (-1e16, 1.0, 1.0);
    Log { run, calls: vec![(PROPAGATE, numbers)] }
}
