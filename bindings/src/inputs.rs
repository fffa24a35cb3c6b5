//! The numbers of each call, by their names.
use crate::places::{compasses, direction, position, propagate, scalar, start, update, velocity};
use crate::runs::put;
use crate::{
    State, COMPASSES_LENGTH, DIRECTION_LENGTH, POSITION_LENGTH, PROPAGATE_LENGTH, SCALAR_LENGTH,
    START_LENGTH, STATES, UPDATE_LENGTH, VELOCITY_LENGTH,
};

/// A matrix with these numbers on its diagonal and zero elsewhere.
///
/// ```
/// assert_eq!(drifters_port::diagonal([2.0, 3.0]), [[2.0, 0.0], [0.0, 3.0]]);
/// ```
pub fn diagonal<const N: usize>(entries: [f64; N]) -> [[f64; N]; N] {
    let mut matrix = [[0.0; N]; N];
    for (i, x) in entries.into_iter().enumerate() {
        matrix[i][i] = x;
    }
    matrix
}

/// What a filter starts from. [`Filter::start`](crate::Filter::start) takes its numbers.
#[derive(Clone, Copy, Debug, PartialEq)]
pub struct Start {
    /// The first estimate.
    pub state: State,
    /// The covariance of the 21 error coordinates ([`places::coordinate`](crate::places::coordinate)), taken as it is
    /// given. [`Deviations::sigma`](crate::Deviations::sigma) makes it from standard deviations.
    pub sigma: [[f64; STATES]; STATES],
    /// Gravity, m/s^2, reference frame: (0, 0, +9.81) in north-east-down.
    pub gravity: [f64; 3],
}

impl Start {
    /// The 477 numbers, as [`places::start`](crate::places::start) has them.
    pub fn numbers(&self) -> [f64; START_LENGTH] {
        let mut numbers = [0.0; START_LENGTH];
        put(&mut numbers, start::STATE, &self.state.numbers());
        put(&mut numbers, start::SIGMA, self.sigma.as_flattened());
        put(&mut numbers, start::GRAVITY, &self.gravity);
        numbers
    }
}

/// A sample of the inertial sensor. [`Filter::propagate`](crate::Filter::propagate) takes its numbers.
#[derive(Clone, Copy, Debug, PartialEq)]
pub struct Imu {
    /// The gyroscope's reading, rad/s, body frame, bias included.
    pub omega: [f64; 3],
    /// The accelerometer's reading, specific force, m/s^2, body frame, bias included: (0, 0, -9.81) level and at rest.
    pub accel: [f64; 3],
    /// How long the sample holds, s. It may be negative or zero.
    pub dt: f64,
}

impl Imu {
    /// The 25 numbers, as [`places::propagate`](crate::places::propagate) has them.
    pub fn numbers(&self, densities: &Densities) -> [f64; PROPAGATE_LENGTH] {
        let mut numbers = [0.0; PROPAGATE_LENGTH];
        put(&mut numbers, propagate::OMEGA, &self.omega);
        put(&mut numbers, propagate::ACCEL, &self.accel);
        numbers[propagate::DT] = self.dt;
        put(&mut numbers, propagate::GYRO_DENSITY, &densities.gyro);
        put(&mut numbers, propagate::ACCEL_DENSITY, &densities.accel);
        put(
            &mut numbers,
            propagate::GYRO_BIAS_DENSITY,
            &densities.gyro_bias,
        );
        put(
            &mut numbers,
            propagate::ACCEL_BIAS_DENSITY,
            &densities.accel_bias,
        );
        put(&mut numbers, propagate::LEVER_DENSITY, &densities.lever);
        put(&mut numbers, propagate::MAG_DENSITY, &densities.mag);
        numbers
    }
}

/// The power spectral densities of the process noise, for each axis. The default is zero: no noise.
///
/// They are densities, not their roots: white noise of standard deviation s at samples dt apart has density s^2 dt.
///
/// ```
/// use drifters_port::Densities;
///
/// // a gyroscope of 0.002 rad/s at 100 Hz; the lever arm and the calibration stay
/// let densities = Densities { gyro: [0.002 * 0.002 * 0.01; 3], ..Densities::default() };
/// assert_eq!(densities.lever, [0.0; 3]);
/// ```
#[derive(Clone, Copy, Debug, Default, PartialEq)]
pub struct Densities {
    /// Of the gyroscope's reading, (rad/s)^2/Hz, body frame.
    pub gyro: [f64; 3],
    /// Of the accelerometer's reading, (m/s^2)^2/Hz, body frame.
    pub accel: [f64; 3],
    /// Of the gyroscope bias's rate, (rad/s^2)^2/Hz, body frame.
    pub gyro_bias: [f64; 3],
    /// Of the accelerometer bias's rate, (m/s^3)^2/Hz, body frame.
    pub accel_bias: [f64; 3],
    /// Of the lever arm's rate, m^2/s, body frame.
    pub lever: [f64; 3],
    /// Of the calibration's turn, rad^2/s, compass frame.
    pub mag: [f64; 3],
}

/// A position of the GNSS antenna. [`Filter::update_position`](crate::Filter::update_position) takes its numbers.
#[derive(Clone, Copy, Debug, PartialEq)]
pub struct Fix {
    /// The antenna's position, p + R t, m, reference frame.
    pub antenna: [f64; 3],
    /// Its covariance, m^2, reference frame.
    pub noise: [[f64; 3]; 3],
}

impl Fix {
    /// The 12 numbers, as [`places::position`](crate::places::position) has them.
    pub fn numbers(&self) -> [f64; POSITION_LENGTH] {
        let mut numbers = [0.0; POSITION_LENGTH];
        put(&mut numbers, position::ANTENNA, &self.antenna);
        put(&mut numbers, position::NOISE, self.noise.as_flattened());
        numbers
    }
}

/// A velocity of the GNSS antenna. [`Filter::update_velocity`](crate::Filter::update_velocity) takes its numbers.
#[derive(Clone, Copy, Debug, PartialEq)]
pub struct VelocityFix {
    /// The antenna's velocity, v + R (omega x t), m/s, reference frame.
    pub antenna: [f64; 3],
    /// The body rate at that time, rad/s, body frame. It is taken as it is given: subtract the gyroscope's bias from
    /// a reading.
    pub omega: [f64; 3],
    /// The velocity's covariance, (m/s)^2, reference frame.
    pub noise: [[f64; 3]; 3],
}

impl VelocityFix {
    /// The 15 numbers, as [`places::velocity`](crate::places::velocity) has them.
    pub fn numbers(&self) -> [f64; VELOCITY_LENGTH] {
        let mut numbers = [0.0; VELOCITY_LENGTH];
        put(&mut numbers, velocity::ANTENNA, &self.antenna);
        put(&mut numbers, velocity::OMEGA, &self.omega);
        put(&mut numbers, velocity::NOISE, self.noise.as_flattened());
        numbers
    }
}

/// A direction of the magnetometer. [`Filter::update_direction`](crate::Filter::update_direction) takes its numbers.
#[derive(Clone, Copy, Debug, PartialEq)]
pub struct Direction {
    /// The field's direction, S^T R^T north, compass frame. The call normalises it, and refuses one of norm 0 by
    /// [`Refusal::Null`](crate::Refusal::Null).
    pub measured: [f64; 3],
    /// The field's known direction, reference frame. The call normalises it, and refuses one of norm 0 likewise.
    pub north: [f64; 3],
    /// The covariance of north x (R S measured), both of length 1, rad^2, reference frame: of a compass with one variance
    /// on all axes that variance, over the square of the field's strength, times the identity.
    pub noise: [[f64; 3]; 3],
}

impl Direction {
    /// The 15 numbers, as [`places::direction`](crate::places::direction) has them.
    pub fn numbers(&self) -> [f64; DIRECTION_LENGTH] {
        let mut numbers = [0.0; DIRECTION_LENGTH];
        put(&mut numbers, direction::MEASURED, &self.measured);
        put(&mut numbers, direction::NORTH, &self.north);
        put(&mut numbers, direction::NOISE, self.noise.as_flattened());
        numbers
    }
}

/// What the readings of several compasses have in common.
/// [`Filter::update_compasses`](crate::Filter::update_compasses) takes its numbers, beside the readings.
#[derive(Clone, Copy, Debug, PartialEq)]
pub struct Compasses {
    /// The field's known direction, as [`Direction::north`]. With one of norm 0 no reading is accepted.
    pub north: [f64; 3],
    /// The covariance of each reading, as [`Direction::noise`].
    pub noise: [[f64; 3]; 3],
}

impl Compasses {
    /// The 12 numbers, as [`places::compasses`](crate::places::compasses) has them.
    pub fn numbers(&self) -> [f64; COMPASSES_LENGTH] {
        let mut numbers = [0.0; COMPASSES_LENGTH];
        put(&mut numbers, compasses::NORTH, &self.north);
        put(&mut numbers, compasses::NOISE, self.noise.as_flattened());
        numbers
    }
}

/// A measurement of your own. [`Filter::update`](crate::Filter::update) takes its numbers.
#[derive(Clone, Copy, Debug, PartialEq)]
pub struct General {
    /// The derivative of (predicted - measured) in the 21 error coordinates, where the truth is exp(error) * estimate.
    /// [`places::coordinate`](crate::places::coordinate) has the order of the columns.
    pub output: [[f64; STATES]; 3],
    /// Predicted less measured, in the measurement's unit.
    pub innovation: [f64; 3],
    /// The measurement's covariance, in the square of its unit.
    pub noise: [[f64; 3]; 3],
}

impl General {
    /// The 75 numbers, as [`places::update`](crate::places::update) has them.
    pub fn numbers(&self) -> [f64; UPDATE_LENGTH] {
        let mut numbers = [0.0; UPDATE_LENGTH];
        put(&mut numbers, update::OUTPUT, self.output.as_flattened());
        put(&mut numbers, update::INNOVATION, &self.innovation);
        put(&mut numbers, update::NOISE, self.noise.as_flattened());
        numbers
    }
}

/// A measurement of one number of your own, such as the height of a pressure gauge.
/// [`Filter::update_scalar`](crate::Filter::update_scalar) takes its numbers.
#[derive(Clone, Copy, Debug, PartialEq)]
pub struct Scalar {
    /// The derivative of (predicted - measured) in the 21 error coordinates, as a row of [`General::output`].
    pub output: [f64; STATES],
    /// Predicted less measured, in the measurement's unit.
    pub innovation: f64,
    /// The measurement's variance, in the square of its unit.
    pub variance: f64,
}

impl Scalar {
    /// The 23 numbers, as [`places::scalar`](crate::places::scalar) has them.
    pub fn numbers(&self) -> [f64; SCALAR_LENGTH] {
        let mut numbers = [0.0; SCALAR_LENGTH];
        put(&mut numbers, scalar::OUTPUT, &self.output);
        numbers[scalar::INNOVATION] = self.innovation;
        numbers[scalar::VARIANCE] = self.variance;
        numbers
    }
}
