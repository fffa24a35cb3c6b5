//! Turns of exactly 8, and of the next number above it.
use crate::list::List;
use original::kinds;
use original::places::{
    DIAGONAL_STEP, DT, E, FILTER, GAMMA, GENERAL, GENERAL_NOISE, GRAVITY, INNOVATION, PROPAGATION, SCALAR, SCALAR_INNOVATION, SIGMA,
    VARIANCE, VELOCITY,
};
use original::Answer;

type Call = (u32, Vec<f64>);

/// A filter whose A and E are given, with the identity as its covariance, alpha 0, no gravity, and all else zero.
pub fn filter(a: [f64; 9], gamma: f64, e: f64) -> Vec<f64> {
    let mut run = vec![0.0; FILTER];
    run[..VELOCITY].copy_from_slice(&a);
    run[GAMMA] = gamma;
    run[E..SIGMA].iter_mut().step_by(4).for_each(|x| *x = e);
    run[SIGMA..GRAVITY].iter_mut().step_by(DIAGONAL_STEP).for_each(|x| *x = 1.0);
    run
}

pub const IDENTITY: [f64; 9] = [1.0, 0.0, 0.0, 0.0, 1.0, 0.0, 0.0, 0.0, 1.0];

/// A propagation over dt.
fn propagate(omega: [f64; 3], dt: f64) -> Call {
    let mut numbers = vec![0.0; PROPAGATION];
    numbers[..3].copy_from_slice(&omega);
    numbers[DT] = dt;
    (kinds::PROPAGATE, numbers)
}

/// A measurement of the three states from `at` on. On a covariance of 1 with noise 2, alpha 0 and an innovation above 2 the gain is a quarter.
fn measure(at: usize, innovation: f64) -> Call {
    let mut numbers = vec![0.0; GENERAL];
    for i in 0..3 {
        numbers[DIAGONAL_STEP * i + at] = 1.0;
        numbers[GENERAL_NOISE + 4 * i] = 2.0;
    }
    numbers[INNOVATION] = innovation;
    (kinds::GENERAL, numbers)
}

/// The same of one state.
fn measure_one(at: usize, innovation: f64) -> Call {
    let mut numbers = vec![0.0; SCALAR];
    (numbers[at], numbers[SCALAR_INNOVATION], numbers[VARIANCE]) = (1.0, innovation, 2.0);
    (kinds::SCALAR, numbers)
}

/// Calls in pairs: the turn just above 8, which is refused, then the turn of 8.
fn list(name: &'static str, filter: &[f64], pairs: &[[Call; 2]]) -> List {
    let mut list = List::new(name, filter);
    for [above, limit] in pairs {
        assert!(matches!(list.add(above.clone()), Answer::Refused(3)), "{name}");
        assert!(!matches!(list.add(limit.clone()), Answer::Refused(_)), "{name}");
    }
    list
}

/// The call for the number after x, and for x.
fn pair(x: f64, call: impl Fn(f64) -> Call) -> [Call; 2] {
    [call(x.next_up()), call(x)]
}

/// A filter whose A is no rotation: there the midpoint's rate is less than half of the start's, so that the half step alone decides.
fn slowing(bias: f64, e: f64) -> Vec<f64> {
    let mut a = IDENTITY;
    a[6] = 1.0 / 128.0;
    filter(a, -bias, e)
}

/// A propagation at this bias whose rate at the start is `rate`.
fn slowed(bias: f64, rate: f64) -> Call {
    propagate([bias, 0.0, rate], 1.0)
}

pub fn all() -> Vec<List> {
    let updates = [pair(32.0, |y| measure(0, y)), pair(32.0, |y| measure(18, y))];
    let scalars = [pair(32.0, |y| measure_one(1, y)), pair(32.0, |y| measure_one(20, y))];
    let full = [
        pair(8.0, |w| propagate([w, 0.0, 0.0], 1.0)),
        pair(8.0, |w| propagate([0.0, -w, 0.0], -1.0)),
        pair(16.0, |w| propagate([0.0, 0.0, w], 0.5)),
    ];
    vec![
        list("limit_update", &filter(IDENTITY, 0.0, 1.0), &updates),
        list("limit_scalar", &filter(IDENTITY, 0.0, 1.0), &scalars),
        list("limit_full", &filter(IDENTITY, 0.0, 0.0), &full),
        list("limit_full_e", &filter(IDENTITY, 0.0, 2.0), &[pair(4.0, |w| propagate([w, 0.0, 0.0], 1.0))]),
        list("limit_half", &slowing(-1341.0, 0.0), &[pair(16.0, |w| slowed(-1341.0, w))]),
        list("limit_half_e", &slowing(-464.0, 2.0), &[pair(8.0, |w| slowed(-464.0, w))]),
    ]
}
