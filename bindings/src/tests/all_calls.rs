//! Every call on a filter, by its exported function, so that a test can make each on a run of its own.
use super::*;
use std::boxed::Box;
use std::vec;

/// What a call answers: its code, and the bits of all that it writes beside the filter, sevens where it writes nothing.
pub type Answer = (u32, Vec<u64>);

/// A call with its numbers, made on a filter's run.
type Made = Box<dyn Fn(&mut [f64]) -> Answer>;

/// A call that a test can make.
pub struct Call {
    pub name: &'static str,
    /// The place of the alpha that it takes. A propagation and a state take none.
    pub alpha: Option<usize>,
    /// The code that it answers on the filter of [`moving`].
    pub code: u32,
    made: Made,
}

impl Call {
    /// A call that is accepted.
    fn new(
        name: &'static str,
        alpha: Option<usize>,
        made: impl Fn(&mut [f64]) -> Answer + 'static,
    ) -> Call {
        let made = Box::new(made);
        Call {
            name,
            alpha,
            code: 0,
            made,
        }
    }

    /// The same call where it is refused by a code.
    fn refused(self, code: u32) -> Call {
        Call { code, ..self }
    }

    /// Makes the call on a filter's run.
    pub fn on(&self, run: &mut [f64]) -> Answer {
        (self.made)(run)
    }
}

/// An update by an exported function.
fn update<const N: usize>(
    name: &'static str,
    alpha: usize,
    by: fn(&mut [f64], &[f64], &mut [f64]) -> u32,
    numbers: [f64; N],
) -> Call {
    Call::new(name, Some(alpha), move |run| {
        let mut nis = [7.0];
        (by(run, &numbers, &mut nis), bits(&nis))
    })
}

/// A call of each kind, and one by several compasses, which the filter of [`moving`] accepts. What is measured is far from
/// what that filter expects, the farther the larger `off` is, so that each update hangs on its alpha.
pub fn calls(off: f64) -> Vec<Call> {
    vec![
        propagation(off),
        fix(off),
        velocity_fix(off),
        field(off),
        general(off),
        scalar(off),
        compasses(off),
        state(),
    ]
}

/// The body rate.
fn omega(off: f64) -> [f64; 3] {
    [0.3, -0.2, off]
}

/// The noise of each update by three numbers.
fn noise() -> [[f64; 3]; 3] {
    diagonal([0.01; 3])
}

const NORTH: [f64; 3] = [0.4, -0.1, 0.9];

/// North as the compass of [`moving`] sees it.
fn seen() -> [f64; 3] {
    let State { attitude, mag, .. } = moving();
    times(transposed(mag), times(transposed(attitude), NORTH))
}

/// North as it is measured.
fn measured(off: f64) -> [f64; 3] {
    plus(seen(), [off, -0.5, 0.1])
}

fn propagation(off: f64) -> Call {
    let imu = Imu {
        omega: omega(off),
        accel: [0.5, off, -9.0],
        dt: 0.01,
    };
    let densities = Densities {
        gyro: [1e-4; 3],
        accel: [1e-3; 3],
        ..Densities::default()
    };
    let numbers = imu.numbers(&densities);
    Call::new("propagate", None, move |run| {
        (exported::propagate(run, &numbers), vec![])
    })
}

fn fix(off: f64) -> Call {
    let fix = Fix {
        antenna: plus(moving().position, [off, 1.0, -off]),
        noise: noise(),
    };
    let by = exported::update_position;
    update("position", filter::POSITION_ALPHA, by, fix.numbers())
}

fn velocity_fix(off: f64) -> Call {
    let fix = VelocityFix {
        antenna: plus(moving().velocity, [1.0, off, off]),
        omega: omega(off),
        noise: noise(),
    };
    let by = exported::update_velocity;
    update("velocity", filter::VELOCITY_ALPHA, by, fix.numbers())
}

fn field(off: f64) -> Call {
    let field = Direction {
        measured: measured(off),
        north: NORTH,
        noise: noise(),
    };
    let by = exported::update_direction;
    update("direction", filter::DIRECTION_ALPHA, by, field.numbers())
}

fn general(off: f64) -> Call {
    let general = General {
        output: core::array::from_fn(|i| {
            core::array::from_fn(|j| 0.1 * i as f64 - 0.02 * j as f64)
        }),
        innovation: [1.0, off, -off],
        noise: noise(),
    };
    let by = exported::update;
    update("general", filter::POSITION_ALPHA, by, general.numbers())
}

fn scalar(off: f64) -> Call {
    let scalar = Scalar {
        output: core::array::from_fn(|i| 0.1 * i as f64 - 1.0),
        innovation: 1.0 + off,
        variance: 0.01,
    };
    let by = exported::update_scalar;
    update("scalar", filter::POSITION_ALPHA, by, scalar.numbers())
}

fn compasses(off: f64) -> Call {
    let readings = [[0.0; 3], plus(seen(), [1.0, off, 0.0]), measured(off)];
    let north_noise = Compasses {
        north: NORTH,
        noise: noise(),
    }
    .numbers();
    Call::new("compasses", Some(filter::DIRECTION_ALPHA), move |run| {
        let (mut counts, mut nis) = ([7, 7], [7.0]);
        let readings = readings.as_flattened();
        let code =
            exported::update_compasses(run, readings, &north_noise, 8, &mut counts, &mut nis);
        let counts = counts.map(|n| n as u64);
        (code, [&counts[..], &bits(&nis)].concat())
    })
}

fn state() -> Call {
    Call::new("state", None, |run| {
        let mut state = [7.0; STATE_LENGTH];
        (exported::nav_state(run, &mut state), bits(&state))
    })
}

/// Calls that are refused by 2, 4 and 7.
pub fn refused_calls() -> Vec<Call> {
    let mut blank = position(1.0, 1.0);
    blank[0] = f64::NAN;
    let pivot = position(1.0, -1.0);
    let null = Direction {
        measured: [0.0; 3],
        north: [1.0, 0.0, 0.0],
        noise: diagonal([1.0; 3]),
    };
    let [alpha, of_directions] = [filter::POSITION_ALPHA, filter::DIRECTION_ALPHA];
    let [by_position, by_direction] = [exported::update_position, exported::update_direction];
    vec![
        update("blank", alpha, by_position, blank).refused(2),
        update("pivot", alpha, by_position, pivot).refused(4),
        update("null", of_directions, by_direction, null.numbers()).refused(7),
    ]
}
