//! The crate, tested with the library. docs/MANUAL.md has the layouts, frames and signs that are expected here.
use crate::places::filter;
use crate::*;
use std::vec::Vec;

mod all_calls;
mod alphas;
mod calls;
mod compasses;
mod deviations;
mod directions;
mod good_compasses;
mod inputs;
mod lengths;
mod parts;
mod refusals;
mod scalar_updates;
mod scalars;
mod sheets;
mod signs;
mod upgrade;

const IDENTITY: [f64; 9] = [1.0, 0.0, 0.0, 0.0, 1.0, 0.0, 0.0, 0.0, 1.0];

/// Identity A and E, each alpha 0.5, all else zero.
fn whole_case() -> Filter {
    let mut run = [0.0; FILTER_LENGTH];
    run[filter::A..filter::VELOCITY].copy_from_slice(&IDENTITY);
    run[filter::E..filter::SIGMA].copy_from_slice(&IDENTITY);
    run[filter::POSITION_ALPHA..].fill(0.5);
    Filter(run)
}

/// A position call: an antenna at (x, 0, 0), and the same variance on each axis.
fn position(x: f64, variance: f64) -> [f64; POSITION_LENGTH] {
    let fix = Fix {
        antenna: [x, 0.0, 0.0],
        noise: diagonal([variance; 3]),
    };
    fix.numbers()
}

fn bits(numbers: &[f64]) -> Vec<u64> {
    numbers.iter().map(|x| x.to_bits()).collect()
}

/// The rotation by a vector's norm about it, by Rodrigues' formula.
fn turn(by: [f64; 3]) -> [[f64; 3]; 3] {
    let angle = dot(by, by).sqrt();
    if angle == 0.0 {
        return diagonal([1.0; 3]);
    }
    let axis = by.map(|x| x / angle);
    let columns = diagonal([1.0; 3]).map(|e| {
        let along = axis.map(|x| x * dot(axis, e) * (1.0 - angle.cos()));
        plus(
            plus(
                e.map(|x| x * angle.cos()),
                cross(axis, e).map(|x| x * angle.sin()),
            ),
            along,
        )
    });
    transposed(columns)
}

fn dot(a: [f64; 3], b: [f64; 3]) -> f64 {
    a[0] * b[0] + a[1] * b[1] + a[2] * b[2]
}

fn cross(a: [f64; 3], b: [f64; 3]) -> [f64; 3] {
    [
        a[1] * b[2] - a[2] * b[1],
        a[2] * b[0] - a[0] * b[2],
        a[0] * b[1] - a[1] * b[0],
    ]
}

fn plus(a: [f64; 3], b: [f64; 3]) -> [f64; 3] {
    core::array::from_fn(|i| a[i] + b[i])
}

fn minus(a: [f64; 3], b: [f64; 3]) -> [f64; 3] {
    core::array::from_fn(|i| a[i] - b[i])
}

fn transposed(a: [[f64; 3]; 3]) -> [[f64; 3]; 3] {
    core::array::from_fn(|i| core::array::from_fn(|j| a[j][i]))
}

fn times(a: [[f64; 3]; 3], x: [f64; 3]) -> [f64; 3] {
    a.map(|row| dot(row, x))
}

fn product(a: [[f64; 3]; 3], b: [[f64; 3]; 3]) -> [[f64; 3]; 3] {
    let columns = transposed(b);
    a.map(|row| columns.map(|column| dot(row, column)))
}

/// A turned, moving, displaced state, with every part different from zero.
fn moving() -> State {
    State {
        attitude: turn([0.4, -0.7, 1.1]),
        velocity: [3.0, -2.0, 0.5],
        position: [20.0, -30.0, -40.0],
        gyro_bias: [0.01, -0.02, 0.03],
        accel_bias: [0.1, 0.2, -0.15],
        lever: [0.5, -0.25, -1.5],
        mag: turn([-0.2, 0.3, 0.1]),
    }
}

/// A filter that starts from a state.
fn started(state: &State, sigma: [[f64; STATES]; STATES]) -> Filter {
    let start = Start {
        state: *state,
        sigma,
        gravity: [0.0, 0.0, 9.81],
    };
    Filter::start(&start.numbers()).unwrap()
}

#[track_caller]
fn assert_close(a: &[f64], b: &[f64], bound: f64) {
    assert_eq!(a.len(), b.len());
    for (i, (x, y)) in a.iter().zip(b).enumerate() {
        assert!(
            (x - y).abs() <= bound,
            "at {i}: {x} and {y} differ by more than {bound}"
        );
    }
}
