//! The places and lengths of docs/MANUAL.md: where each part of a run begins, and how many numbers a run has.
use drifters_eqf::linear::DIM;

/// The numbers of a vector and of a 3 by 3 matrix.
const VECTOR: usize = 3;
const SQUARE: usize = VECTOR * VECTOR;

// A filter. A state has its biases, lever arm and calibration at the places of gamma, delta and E; a start is a filter without alphas.
pub const VELOCITY: usize = SQUARE;
pub const POSITION: usize = VELOCITY + VECTOR;
pub const GAMMA: usize = POSITION + VECTOR;
pub const DELTA: usize = GAMMA + 2 * VECTOR;
pub const E: usize = DELTA + VECTOR;
pub const SIGMA: usize = E + SQUARE;
pub const GRAVITY: usize = SIGMA + DIM * DIM;
pub const POSITION_ALPHA: usize = GRAVITY + VECTOR;
pub const VELOCITY_ALPHA: usize = POSITION_ALPHA + 1;
pub const DIRECTION_ALPHA: usize = VELOCITY_ALPHA + 1;

/// How many numbers a filter, a start and a state have.
pub const FILTER: usize = DIRECTION_ALPHA + 1;
pub const START: usize = POSITION_ALPHA;
pub const STATE: usize = SIGMA;

/// How many alphas a filter has.
pub const ALPHAS: usize = FILTER - START;

/// How many numbers a filter with one alpha has: that alpha stands where a filter has the one for position.
pub const ONE_ALPHA: usize = POSITION_ALPHA + 1;

// A propagation: dt, after two vectors, then six vectors of densities.
pub const DT: usize = 2 * VECTOR;
pub const PROPAGATION: usize = DT + 1 + 6 * VECTOR;

// A general update: its innovation and its noise, after the output matrix of three rows.
pub const INNOVATION: usize = VECTOR * DIM;
pub const GENERAL_NOISE: usize = INNOVATION + VECTOR;
pub const GENERAL: usize = GENERAL_NOISE + SQUARE;

// A scalar update: its innovation and its variance, after the output row.
pub const SCALAR_INNOVATION: usize = DIM;
pub const VARIANCE: usize = SCALAR_INNOVATION + 1;
pub const SCALAR: usize = VARIANCE + 1;

// An update by several compasses: a reading, north with noise, and the most readings, which are the largest budget too.
pub const READING: usize = VECTOR;
pub const NORTH_NOISE: usize = VECTOR + SQUARE;
pub const MOST_READINGS: usize = 8;

/// From an entry on the diagonal of a matrix of 21 columns to the next.
pub const DIAGONAL_STEP: usize = DIM + 1;
