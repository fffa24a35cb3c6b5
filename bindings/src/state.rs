//! The estimate, or a first state, by its parts.
use crate::places::state;
use crate::runs::{matrix, put, vector};
use crate::{diagonal, STATE_LENGTH};

/// A navigation state: what a filter starts from and what it estimates.
///
/// The default is level, heading north and at rest at the origin, without bias, lever arm or turn of the compass:
/// identity matrices, and zero in all else.
///
/// ```
/// use drifters_port::State;
///
/// let state = State { position: [100.0, -20.0, -3000.0], ..State::default() };
/// assert_eq!(State::from_numbers(&state.numbers()), state);
/// ```
#[derive(Clone, Copy, Debug, PartialEq)]
pub struct State {
    /// R: rotates a body vector into the reference frame.
    pub attitude: [[f64; 3]; 3],
    /// Velocity of the inertial sensor, m/s, reference frame.
    pub velocity: [f64; 3],
    /// Position of the inertial sensor, m, reference frame.
    pub position: [f64; 3],
    /// The gyroscope's bias, rad/s, body frame: the reading less the bias is the body rate.
    pub gyro_bias: [f64; 3],
    /// The accelerometer's bias, m/s^2, body frame: the reading less the bias is the specific force.
    pub accel_bias: [f64; 3],
    /// The lever arm, m, body frame, from the inertial sensor to the antenna.
    pub lever: [f64; 3],
    /// S: rotates a compass vector into the body frame.
    pub mag: [[f64; 3]; 3],
}

impl State {
    /// The 33 numbers, as [`places::state`](crate::places::state) has them.
    pub fn numbers(&self) -> [f64; STATE_LENGTH] {
        let mut numbers = [0.0; STATE_LENGTH];
        put(&mut numbers, state::ATTITUDE, self.attitude.as_flattened());
        put(&mut numbers, state::VELOCITY, &self.velocity);
        put(&mut numbers, state::POSITION, &self.position);
        put(&mut numbers, state::GYRO_BIAS, &self.gyro_bias);
        put(&mut numbers, state::ACCEL_BIAS, &self.accel_bias);
        put(&mut numbers, state::LEVER, &self.lever);
        put(&mut numbers, state::MAG, self.mag.as_flattened());
        numbers
    }

    /// The state of 33 numbers.
    pub fn from_numbers(numbers: &[f64; STATE_LENGTH]) -> State {
        State {
            attitude: matrix(numbers, state::ATTITUDE),
            velocity: vector(numbers, state::VELOCITY),
            position: vector(numbers, state::POSITION),
            gyro_bias: vector(numbers, state::GYRO_BIAS),
            accel_bias: vector(numbers, state::ACCEL_BIAS),
            lever: vector(numbers, state::LEVER),
            mag: matrix(numbers, state::MAG),
        }
    }
}

impl Default for State {
    fn default() -> State {
        State {
            attitude: diagonal([1.0; 3]),
            velocity: [0.0; 3],
            position: [0.0; 3],
            gyro_bias: [0.0; 3],
            accel_bias: [0.0; 3],
            lever: [0.0; 3],
            mag: diagonal([1.0; 3]),
        }
    }
}
