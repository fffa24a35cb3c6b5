//! The first covariance, from standard deviations of the state's parts.
use crate::places::coordinate;
use crate::runs::put;
use crate::{State, STATES};

/// How many parts a state's error has, of three numbers each.
const PARTS: usize = STATES / 3;

/// Standard deviations of a state's parts, each part independent of the others. The default is zero: all is known.
///
/// ```
/// use drifters_port::{Deviations, State};
///
/// let deviations = Deviations { attitude: [0.1; 3], position: [2.0; 3], ..Deviations::default() };
/// let sigma = deviations.sigma(&State::default());
/// assert_eq!(sigma[6][6], 4.0);
/// // the calibration's coordinates carry the attitude's doubt
/// assert_eq!(sigma[18][0], sigma[0][0]);
/// ```
#[derive(Clone, Copy, Debug, Default, PartialEq)]
pub struct Deviations {
    /// Of the attitude's error d(theta), rad, about the axes of the reference frame.
    pub attitude: [f64; 3],
    /// Of the velocity, m/s, reference frame.
    pub velocity: [f64; 3],
    /// Of the position, m, reference frame.
    pub position: [f64; 3],
    /// Of the gyroscope's bias, rad/s, body frame.
    pub gyro_bias: [f64; 3],
    /// Of the accelerometer's bias, m/s^2, body frame.
    pub accel_bias: [f64; 3],
    /// Of the lever arm, m, body frame.
    pub lever: [f64; 3],
    /// Of the calibration's error d(s), rad, about the axes of the body frame.
    pub mag: [f64; 3],
}

impl Deviations {
    /// The covariance of the 21 error coordinates at a first estimate: J P J^T, where P is the diagonal of the
    /// squared deviations.
    ///
    /// J is the derivative of the coordinates in the errors of the state's parts, truth less estimate, where the true
    /// attitude is (I + d(theta)^) R and the true calibration (I + d(s)^) S:
    ///
    /// | coordinate | is |
    /// |---|---|
    /// | attitude | d(theta) |
    /// | velocity | d(v) + v x d(theta) |
    /// | position | d(p) + p x d(theta) |
    /// | gyro_bias | -R d(b_omega) |
    /// | accel_bias | -(R d(b_a) + v x (R d(b_omega))) |
    /// | lever | -R d(t) |
    /// | mag | d(theta) + R d(s) |
    ///
    /// This is arithmetic of the crate, not of the proved library.
    pub fn sigma(&self, at: &State) -> [[f64; STATES]; STATES] {
        let parts = self.parts();
        let mut sigma = [[0.0; STATES]; STATES];
        for k in 0..STATES {
            let mut error = [[0.0; 3]; PARTS];
            error[k / 3][k % 3] = parts[k / 3][k % 3];
            add_square(&mut sigma, &coordinates(&error, at));
        }
        sigma
    }

    /// The parts, in the order of the coordinates.
    fn parts(&self) -> [[f64; 3]; PARTS] {
        [
            self.attitude,
            self.velocity,
            self.position,
            self.gyro_bias,
            self.accel_bias,
            self.lever,
            self.mag,
        ]
    }
}

/// The coordinates of the d's of the parts, to first order.
pub(crate) fn coordinates(error: &[[f64; 3]; PARTS], at: &State) -> [f64; STATES] {
    let [theta, velocity, position, gyro_bias, accel_bias, lever, mag] = *error;
    let gyro_bias = rotated(&at.attitude, gyro_bias);
    let accel_bias = rotated(&at.attitude, accel_bias);
    let mut all = [0.0; STATES];
    put(&mut all, coordinate::ATTITUDE, &theta);
    put(
        &mut all,
        coordinate::VELOCITY,
        &sum(velocity, cross(at.velocity, theta)),
    );
    put(
        &mut all,
        coordinate::POSITION,
        &sum(position, cross(at.position, theta)),
    );
    put(&mut all, coordinate::GYRO_BIAS, &negated(gyro_bias));
    put(
        &mut all,
        coordinate::ACCEL_BIAS,
        &negated(sum(accel_bias, cross(at.velocity, gyro_bias))),
    );
    put(
        &mut all,
        coordinate::LEVER,
        &negated(rotated(&at.attitude, lever)),
    );
    put(
        &mut all,
        coordinate::MAG,
        &sum(theta, rotated(&at.attitude, mag)),
    );
    all
}

/// Adds the column times its transpose. The result is symmetric to the last bit.
fn add_square(sigma: &mut [[f64; STATES]; STATES], column: &[f64; STATES]) {
    for (row, x) in sigma.iter_mut().zip(column) {
        for (entry, y) in row.iter_mut().zip(column) {
            *entry += x * y;
        }
    }
}

fn rotated(r: &[[f64; 3]; 3], x: [f64; 3]) -> [f64; 3] {
    r.map(|row| row[0] * x[0] + row[1] * x[1] + row[2] * x[2])
}

fn cross(a: [f64; 3], b: [f64; 3]) -> [f64; 3] {
    [
        a[1] * b[2] - a[2] * b[1],
        a[2] * b[0] - a[0] * b[2],
        a[0] * b[1] - a[1] * b[0],
    ]
}

fn sum(a: [f64; 3], b: [f64; 3]) -> [f64; 3] {
    [a[0] + b[0], a[1] + b[1], a[2] + b[2]]
}

fn negated(a: [f64; 3]) -> [f64; 3] {
    a.map(|x| -x)
}
