//! Updates by several compasses: in the manners of a log, and as a mount in flight has them.
use crate::alphas::BLANKS;
use crate::log::{call, cancelling, Manner};
use crate::norms::{long, null};
use crate::{Flight, Numbers};
use drifters_core::math::{Cholesky, Mat3, Vec3, Vector};
use original::filter_of;
use original::kinds::DIRECTION;
use original::places::{MOST_READINGS, READING};

/// How many vectors are tried to find one whose NIS is below 0.
const TRIALS: usize = 200;

type Reading = [f64; READING];

#[derive(Clone)]
pub struct Compasses {
    pub readings: Vec<f64>,
    /// North, then noise.
    pub north_noise: Vec<f64>,
    pub budget: usize,
}

/// An update of a manner. `run` is the filter that it meets.
pub fn compasses(n: &mut Numbers, manner: Manner, run: &[f64]) -> Compasses {
    let count = 1 + n.below(MOST_READINGS);
    let (readings, north_noise) = match manner {
        Manner::Turning if n.one_in(3) => mirrored(n, count),
        Manner::Singular if n.one_in(2) => below_zero(n, run, count),
        _ => drawn(n, manner, run, count),
    };
    let mut call = Compasses { readings: readings.concat(), north_noise, budget: n.below(MOST_READINGS + 1) };
    spoil(n, &mut call);
    call
}

/// The update by so many compasses of a mount in flight.
pub fn flown(flight: &mut Flight, count: usize, budget: usize) -> Compasses {
    let directions: Vec<_> = (0..count).map(|_| flight.call(DIRECTION)).collect();
    let readings = directions.iter().flat_map(|direction| &direction[..READING]).copied().collect();
    Compasses { readings, north_noise: directions[0][READING..].to_vec(), budget }
}

/// North and noise of a direction call of the manner, and readings of such calls or near to what the filter expects.
fn drawn(n: &mut Numbers, manner: Manner, run: &[f64], count: usize) -> (Vec<Reading>, Vec<f64>) {
    let north_noise = call(n, manner, DIRECTION, run).split_off(READING);
    let error = n.one_of(&[0.0, 1e-12, 1e-6, 1e-3, 0.1]);
    let expected = filter_of(DIRECTION, run).x.e.transpose() * vector(&north_noise).normalized();
    let reading = |_| {
        if n.one_in(2) {
            (expected + Vec3::from_array(n.withins(error))).to_array()
        } else {
            vector(&call(n, manner, DIRECTION, run)).to_array()
        }
    };
    ((0..count).map(reading).collect(), north_noise)
}

/// Readings whose NIS are equal on a filter that is straight, though the filters that they leave are not: one vector with other signs, along north
/// or against it, and of an infinite norm, which leaves no innovation either.
fn mirrored(n: &mut Numbers, count: usize) -> (Vec<Reading>, Vec<f64>) {
    let mut north = Vec3::ZERO;
    north[n.below(3)] = n.one_of(&[1.0, -2.0]);
    let noise = Mat3::from_diagonal(&core::array::from_fn(|_| n.one_of(&[0.25, 1.0, 3.0])));
    let measured: Reading = n.withins(1.0);
    let reading = |_| match n.below(8) {
        0 => (north * n.one_of(&[1.0, -1.0])).to_array(),
        1 => long(n),
        _ => measured.map(|x| x * n.one_of(&[1.0, -1.0])),
    };
    ((0..count).map(reading).collect(), joined(north, noise))
}

/// Readings whose innovation is, but for its length, that of `cancelling`: most of them, found by trial, have a NIS below 0 on a filter with next to
/// no covariance.
fn below_zero(n: &mut Numbers, run: &[f64], count: usize) -> (Vec<Reading>, Vec<f64>) {
    let (innovation, noise) = cancelling(n);
    let innovation = Vec3::from_array(innovation);
    let north = Vec3::new(innovation.y, -innovation.x, 0.0).normalized();
    let e = filter_of(DIRECTION, run).x.e;
    let is_below = |measured: &Vec3| {
        let y = Vector::from(north.skew() * (e * measured.normalized()));
        Cholesky::new(&noise).is_some_and(|factor| y.transpose().matmul(&factor.solve(&y))[(0, 0)] < 0.0)
    };
    let reading = |_| {
        let mut trials = std::iter::repeat_with(|| e.transpose() * (innovation.cross(north) + north * n.within(4.0))).take(TRIALS);
        trials.find(is_below).unwrap_or(north).to_array()
    };
    ((0..count).map(reading).collect(), joined(north, noise))
}

/// Now and then a reading is another's, or is refused; and so are the first ones, or all, or those that the budget leaves out.
pub fn spoil(n: &mut Numbers, call: &mut Compasses) {
    let count = call.readings.len() / READING;
    for i in 0..count {
        if n.one_in(4) {
            let other = n.below(count);
            let reading = another(n, &call.readings[READING * other..]);
            call.readings[READING * i..][..READING].copy_from_slice(&reading);
        }
    }
    match n.below(16) {
        0 => refuse(n, &mut call.readings),
        1 | 2 => {
            let first = n.below(count);
            refuse(n, &mut call.readings[..READING * first]);
        }
        _ => {}
    }
    if n.one_in(4) {
        let tried = call.budget.min(count);
        call.readings[READING * tried..].fill_with(|| n.one_of(&BLANKS));
    }
}

/// A reading with the bits of another one, or times a power of 2, which changes no direction; the other way round; or one that is refused.
fn another(n: &mut Numbers, reading: &[f64]) -> Reading {
    let mut reading = vector(reading).to_array();
    let scale = match n.below(8) {
        0 | 1 => 1.0,
        2 | 3 => n.one_of(&[2.0, 0.5, 2f64.powi(40), 2f64.powi(-60)]),
        4 => -1.0,
        5 => return long(n),
        _ => {
            refuse(n, &mut reading);
            1.0
        }
    };
    reading.map(|x| x * scale)
}

/// Puts readings of norm 0, or with a number that is not finite, in the place of others.
fn refuse(n: &mut Numbers, readings: &mut [f64]) {
    for reading in readings.chunks_mut(READING) {
        if n.one_in(2) {
            reading.copy_from_slice(&null(n));
        } else {
            reading[n.below(READING)] = n.one_of(&BLANKS);
        }
    }
}

fn vector(numbers: &[f64]) -> Vec3 {
    Vec3::new(numbers[0], numbers[1], numbers[2])
}

fn joined(north: Vec3, noise: Mat3) -> Vec<f64> {
    [north.to_array().as_slice(), noise.data.as_flattened()].concat()
}
