//! Where the parts of each run begin, counted from 0. Matrices stand row by row.

/// The parts of a filter, [`FILTER_LENGTH`](crate::FILTER_LENGTH) numbers.
///
/// A, velocity and position are the estimate's attitude, velocity and position. Gamma, delta and E are not its
/// biases, lever arm and calibration: [`Filter::nav_state`](crate::Filter::nav_state) gives those.
pub mod filter {
    use crate::STATES;

    /// A, 3 by 3.
    pub const A: usize = 0;
    /// Velocity.
    pub const VELOCITY: usize = A + 9;
    /// Position.
    pub const POSITION: usize = VELOCITY + 3;
    /// Gamma: omega 3, nu 3.
    pub const GAMMA: usize = POSITION + 3;
    /// Delta.
    pub const DELTA: usize = GAMMA + 6;
    /// E, 3 by 3.
    pub const E: usize = DELTA + 3;
    /// The covariance, 21 by 21; [`coordinate`](super::coordinate) has the order of its rows and columns.
    pub const SIGMA: usize = E + 9;
    /// Gravity.
    pub const GRAVITY: usize = SIGMA + STATES * STATES;
    /// Alpha for positions, one number.
    pub const POSITION_ALPHA: usize = GRAVITY + 3;
    /// Alpha for velocities, one number.
    pub const VELOCITY_ALPHA: usize = POSITION_ALPHA + 1;
    /// Alpha for directions, one number.
    pub const DIRECTION_ALPHA: usize = VELOCITY_ALPHA + 1;
}

/// The part in which a filter with one alpha, [`ONE_ALPHA_LENGTH`](crate::ONE_ALPHA_LENGTH) numbers, differs from a
/// [`filter`].
pub mod one_alpha {
    use super::filter;

    /// Alpha, one number.
    pub const ALPHA: usize = filter::GRAVITY + 3;
}

/// The parts of a state, [`STATE_LENGTH`](crate::STATE_LENGTH) numbers.
pub mod state {
    /// Attitude, 3 by 3.
    pub const ATTITUDE: usize = 0;
    /// Velocity.
    pub const VELOCITY: usize = ATTITUDE + 9;
    /// Position.
    pub const POSITION: usize = VELOCITY + 3;
    /// The gyroscope's bias.
    pub const GYRO_BIAS: usize = POSITION + 3;
    /// The accelerometer's bias.
    pub const ACCEL_BIAS: usize = GYRO_BIAS + 3;
    /// The lever arm.
    pub const LEVER: usize = ACCEL_BIAS + 3;
    /// The magnetometer's calibration, 3 by 3.
    pub const MAG: usize = LEVER + 3;
}

/// The parts of a start, [`START_LENGTH`](crate::START_LENGTH) numbers.
pub mod start {
    use crate::{STATES, STATE_LENGTH};

    /// The state.
    pub const STATE: usize = 0;
    /// The covariance, 21 by 21.
    pub const SIGMA: usize = STATE + STATE_LENGTH;
    /// Gravity.
    pub const GRAVITY: usize = SIGMA + STATES * STATES;
}

/// The parts of a propagation, [`PROPAGATE_LENGTH`](crate::PROPAGATE_LENGTH) numbers.
pub mod propagate {
    /// The gyroscope's reading.
    pub const OMEGA: usize = 0;
    /// The accelerometer's reading.
    pub const ACCEL: usize = OMEGA + 3;
    /// The time step.
    pub const DT: usize = ACCEL + 3;
    /// The gyroscope's density.
    pub const GYRO_DENSITY: usize = DT + 1;
    /// The accelerometer's density.
    pub const ACCEL_DENSITY: usize = GYRO_DENSITY + 3;
    /// The gyroscope bias's density.
    pub const GYRO_BIAS_DENSITY: usize = ACCEL_DENSITY + 3;
    /// The accelerometer bias's density.
    pub const ACCEL_BIAS_DENSITY: usize = GYRO_BIAS_DENSITY + 3;
    /// The lever arm's density.
    pub const LEVER_DENSITY: usize = ACCEL_BIAS_DENSITY + 3;
    /// The calibration's density.
    pub const MAG_DENSITY: usize = LEVER_DENSITY + 3;
}

/// The parts of an update by position, [`POSITION_LENGTH`](crate::POSITION_LENGTH) numbers.
pub mod position {
    /// The antenna's position.
    pub const ANTENNA: usize = 0;
    /// The noise, 3 by 3.
    pub const NOISE: usize = ANTENNA + 3;
}

/// The parts of an update by velocity, [`VELOCITY_LENGTH`](crate::VELOCITY_LENGTH) numbers.
pub mod velocity {
    /// The antenna's velocity.
    pub const ANTENNA: usize = 0;
    /// The body rate.
    pub const OMEGA: usize = ANTENNA + 3;
    /// The noise, 3 by 3.
    pub const NOISE: usize = OMEGA + 3;
}

/// The parts of an update by direction, [`DIRECTION_LENGTH`](crate::DIRECTION_LENGTH) numbers.
pub mod direction {
    /// The measured direction.
    pub const MEASURED: usize = 0;
    /// The known direction.
    pub const NORTH: usize = MEASURED + 3;
    /// The noise, 3 by 3.
    pub const NOISE: usize = NORTH + 3;
}

/// The parts of a general update, [`UPDATE_LENGTH`](crate::UPDATE_LENGTH) numbers.
pub mod update {
    use crate::STATES;

    /// The output matrix, 3 by 21.
    pub const OUTPUT: usize = 0;
    /// The innovation.
    pub const INNOVATION: usize = OUTPUT + 3 * STATES;
    /// The noise, 3 by 3.
    pub const NOISE: usize = INNOVATION + 3;
}

/// The parts of an update by one measured number, [`SCALAR_LENGTH`](crate::SCALAR_LENGTH) numbers.
pub mod scalar {
    use crate::STATES;

    /// The output row, 1 by 21.
    pub const OUTPUT: usize = 0;
    /// The innovation, one number.
    pub const INNOVATION: usize = OUTPUT + STATES;
    /// The variance, one number.
    pub const VARIANCE: usize = INNOVATION + 1;
}

/// The parts of what the readings of several compasses have in common, [`COMPASSES_LENGTH`](crate::COMPASSES_LENGTH)
/// numbers.
pub mod compasses {
    /// The known direction.
    pub const NORTH: usize = 0;
    /// The noise, 3 by 3.
    pub const NOISE: usize = NORTH + 3;
}

/// The 21 error coordinates: the rows and columns of a covariance, the columns of an output matrix or row. Each part has
/// three.
///
/// They are not the differences of the state's parts: [`Deviations::sigma`](crate::Deviations::sigma) has the map.
pub mod coordinate {
    /// Attitude.
    pub const ATTITUDE: usize = 0;
    /// Velocity.
    pub const VELOCITY: usize = ATTITUDE + 3;
    /// Position.
    pub const POSITION: usize = VELOCITY + 3;
    /// The gyroscope's bias.
    pub const GYRO_BIAS: usize = POSITION + 3;
    /// The accelerometer's bias.
    pub const ACCEL_BIAS: usize = GYRO_BIAS + 3;
    /// The lever arm.
    pub const LEVER: usize = ACCEL_BIAS + 3;
    /// The magnetometer's calibration.
    pub const MAG: usize = LEVER + 3;
}
