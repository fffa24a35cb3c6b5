//! One call on the original's filter: as the original makes it, and with the manual's checks (docs/MANUAL.md) in their order.
use crate::kinds;
use crate::measurement::{Measured, Measurement};
use crate::places::{GENERAL, PROPAGATION, SCALAR, START, STATE};
use crate::runs::{all_finite, filter_with, numbers_of, state_numbers, Reader};
use crate::Answer;
use drifters_core::math::{Mat3, Vec3};
use drifters_eqf::filter::{EqFilter, ProcessNoise};
use drifters_eqf::group::{act_state, Algebra, State, Symmetry};
use drifters_eqf::lift::{lift, Input};
use drifters_eqf::linear::{
    direction_output_matrix, position_output_matrix, transported_direction, transported_position, transported_velocity,
    velocity_output_matrix, OutputMatrix,
};

/// The largest turn of an exponential.
const MOST_TURN: f64 = 8.0;

/// Whether a kind is that of an update by three measured numbers.
pub fn is_update_of_three(kind: u32) -> bool {
    matches!(kind, kinds::POSITION | kinds::VELOCITY | kinds::DIRECTION | kinds::GENERAL)
}

/// Whether a kind is an update's, which answers a NIS.
pub fn is_update(kind: u32) -> bool {
    is_update_of_three(kind) || kind == kinds::SCALAR
}

/// How many numbers a call of a kind has.
pub fn call_length(kind: u32) -> usize {
    match kind {
        kinds::PROPAGATE => PROPAGATION,
        kinds::POSITION => 12,
        kinds::VELOCITY | kinds::DIRECTION => 15,
        kinds::GENERAL => GENERAL,
        kinds::STATE => 0,
        kinds::SCALAR => SCALAR,
        _ => panic!("no such kind: {kind}"),
    }
}

/// How many numbers a call of a kind writes beside the filter.
pub fn written_length(kind: u32) -> usize {
    if kind == kinds::STATE {
        STATE
    } else {
        0
    }
}

/// A call with its numbers as the original takes them.
pub enum Call {
    Propagate { u: Input, dt: f64, q: ProcessNoise },
    Position { antenna: Vec3, noise: Mat3 },
    Velocity { antenna: Vec3, omega: Vec3, noise: Mat3 },
    Direction { measured: Vec3, north: Vec3, noise: Mat3 },
    General { c: OutputMatrix, innovation: Vec3, noise: Mat3 },
    State,
    Scalar(Measurement<1>),
}

impl Call {
    /// A call of a kind, its numbers in the manual's order.
    pub fn read(kind: u32, numbers: &[f64]) -> Self {
        let mut v = Reader::new(numbers);
        match kind {
            kinds::PROPAGATE => Self::Propagate {
                u: Input { omega: v.vec3(), accel: v.vec3() },
                dt: v.number(),
                q: ProcessNoise {
                    gyro: v.vec3(),
                    accel: v.vec3(),
                    gyro_bias: v.vec3(),
                    accel_bias: v.vec3(),
                    lever: v.vec3(),
                    mag: v.vec3(),
                },
            },
            kinds::POSITION => Self::Position { antenna: v.vec3(), noise: v.matrix() },
            kinds::VELOCITY => Self::Velocity { antenna: v.vec3(), omega: v.vec3(), noise: v.matrix() },
            kinds::DIRECTION => Self::Direction { measured: v.vec3(), north: v.vec3(), noise: v.matrix() },
            kinds::GENERAL => Self::General { c: v.matrix(), innovation: v.vec3(), noise: v.matrix() },
            kinds::STATE => Self::State,
            kinds::SCALAR => Self::Scalar(Measurement { c: v.matrix(), y: v.matrix(), noise: v.matrix() }),
            _ => panic!("no such kind: {kind}"),
        }
    }

    /// Makes the call as the original does, with no check but its own. What a state call gives goes to `state`.
    pub fn make(&self, f: &mut EqFilter, state: &mut State) -> Answer {
        let nis = match self {
            Self::Propagate { u, dt, q } => {
                f.propagate(u, *dt, q);
                return Answer::Fine;
            }
            Self::State => {
                *state = f.nav_state();
                return Answer::Fine;
            }
            Self::Position { antenna, noise } => f.update_position(*antenna, noise),
            Self::Velocity { antenna, omega, noise } => f.update_velocity(*antenna, *omega, noise),
            Self::Direction { measured, north, noise } => f.update_direction(*measured, *north, noise),
            Self::General { c, innovation, noise } => f.update(c, *innovation, noise),
            Self::Scalar(measurement) => measurement.update(f),
        };
        answer_of(nis)
    }

    /// Whether a vector that the call normalises has norm 0. The original takes the zero vector for its direction.
    fn is_null(&self) -> bool {
        matches!(self, Self::Direction { measured, north, .. } if measured.norm() == 0.0 || north.norm() == 0.0)
    }

    /// What an update measures, as the original forms it.
    fn measurement(&self, f: &EqFilter) -> Option<Box<dyn Measured>> {
        let (c, innovation, noise) = match self {
            Self::Propagate { .. } | Self::State => return None,
            Self::Scalar(measurement) => return Some(Box::new(*measurement)),
            Self::Position { antenna, noise } => {
                let transported = transported_position(&f.x);
                (position_output_matrix(*antenna, transported), transported - *antenna, *noise)
            }
            Self::Velocity { antenna, omega, noise } => {
                let transported = transported_velocity(&f.x, *omega);
                let c = velocity_output_matrix(*antenna, transported, f.x.a() * *omega);
                (c, transported - *antenna, *noise)
            }
            Self::Direction { measured, north, noise } => {
                let north = north.normalized();
                let transported = transported_direction(&f.x, measured.normalized());
                (direction_output_matrix(north, transported), north.skew() * transported, *noise)
            }
            Self::General { c, innovation, noise } => (*c, *innovation, *noise),
        };
        Some(Box::new(Measurement::<3> { c, y: innovation.into(), noise }))
    }

    /// Whether an exponential that the call reaches turns by more than 8, or by what is not a number. The update is taken to have both factors.
    fn turns_too_far(&self, f: &EqFilter) -> bool {
        match self {
            Self::Propagate { u, dt, .. } => propagation_turns_too_far(f, u, *dt),
            _ => self.measurement(f).is_some_and(|measurement| too_far(&measurement.correction(f).expect("a factor"))),
        }
    }

    /// Whether the raw matrix of an update has a factor: one that is refused as pivot all the same is so by the inflated matrix.
    pub fn has_raw_factor(&self, f: &EqFilter) -> bool {
        self.measurement(f).is_some_and(|measurement| measurement.has_raw_factor(f))
    }

    /// Whether the reading of `update` over the width does what the original's own does for an update of three measured numbers: the answer, and
    /// the filter after it. What is not a number is one value.
    pub fn is_read_alike(&self, f: &EqFilter) -> bool {
        let measurement = self.measurement(f).expect("an update");
        let (mut own, mut read) = (f.clone(), f.clone());
        match (self.make(&mut own, &mut State::default()), answer_of(measurement.update(&mut read))) {
            (Answer::Nis(x), Answer::Nis(y)) => same(&[x], &[y]) && same(&numbers_of(&own), &numbers_of(&read)),
            (Answer::Refused(_), Answer::Refused(_)) => same(&numbers_of(&own), &numbers_of(&read)),
            _ => false,
        }
    }
}

/// The answer of an update: its NIS, or that a matrix has no factor.
fn answer_of(nis: Option<f64>) -> Answer {
    // The original's sum of the NIS starts at -0 in some releases of Rust. Adding +0 turns a sum of -0 into the +0 of a sum that starts at
    // +0, and changes no other number.
    nis.map_or(Answer::Refused(4), |nis| Answer::Nis(nis + 0.0))
}

fn same(x: &[f64], y: &[f64]) -> bool {
    x.iter().zip(y).all(|(x, y)| x.to_bits() == y.to_bits() || x.is_nan() && y.is_nan())
}

fn too_far(u: &Algebra) -> bool {
    !(u.c.omega.norm() <= MOST_TURN && u.e.norm() <= MOST_TURN)
}

/// The half step is tested first: a full step is reached only past it.
fn propagation_turns_too_far(f: &EqFilter, u: &Input, dt: f64) -> bool {
    let half_step = lift(&f.nav_state(), u, f.gravity).scaled(0.5 * dt);
    if too_far(&half_step) {
        return true;
    }
    let half = f.x.compose(&Symmetry::exp(half_step));
    too_far(&lift(&act_state(&half, &State::default()), u, f.gravity).scaled(dt))
}

/// Makes a call on a filter's run with the checks after that of the lengths: 2, 7, the original's own 4, 3 and 5. The original is given the alpha at a
/// place of the run, and all alphas stay. A refusal leaves the run and `written`.
pub fn checked(call: &Call, run: &mut [f64], alpha: usize, numbers: &[f64], written: &mut [f64]) -> Answer {
    if !all_finite(run) || !all_finite(numbers) {
        return Answer::Refused(2);
    }
    if call.is_null() {
        return Answer::Refused(7);
    }
    let f = filter_with(run, run[alpha]);
    let (mut after, mut state) = (f.clone(), State::default());
    let answer = call.make(&mut after, &mut state);
    if let Answer::Refused(_) = answer {
        return answer;
    }
    if call.turns_too_far(&f) {
        return Answer::Refused(3);
    }
    let (state, left) = (state_numbers(&state), numbers_of(&after));
    let nis = if let Answer::Nis(nis) = answer { nis } else { 0.0 };
    if !nis.is_finite() || !all_finite(&state) || !all_finite(&left) {
        return Answer::Refused(5);
    }
    if let Call::State = call {
        written.copy_from_slice(&state);
    }
    run[..START].copy_from_slice(&left);
    answer
}
