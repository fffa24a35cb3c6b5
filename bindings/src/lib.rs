//! The proved equivariant navigation filter of 21 states, from libdrifters_eqf_c.a.
//!
//! A flight: a start from a state and its standard deviations, samples of the inertial sensor, and updates by what
//! was measured.
//!
//! ```
//! use drifters_port::places::coordinate;
//! use drifters_port::{diagonal, Alphas, Densities, Deviations, Filter, Start, State};
//! use drifters_port::{Direction, Fix, Imu, Scalar, VelocityFix};
//!
//! // the first estimate, and how far it may be off
//! let state = State { position: [0.0, 0.0, -3000.0], lever: [0.4, 0.0, -1.2], ..State::default() };
//! let deviations = Deviations {
//!     attitude: [0.05, 0.05, 0.5],
//!     velocity: [0.5; 3],
//!     position: [5.0; 3],
//!     gyro_bias: [0.002; 3],
//!     accel_bias: [0.05; 3],
//!     lever: [0.02; 3],
//!     mag: [0.03; 3],
//! };
//! let start = Start { state, sigma: deviations.sigma(&state), gravity: [0.0, 0.0, 9.81] };
//! let mut filter = Filter::start(&start.numbers())?;
//! // a start sets each alpha to 0.5, which can keep a filter from converging: the manual says why
//! filter.set_alphas(Alphas::all(0.01));
//!
//! // a second of the inertial sensor at 100 Hz, turning at 0.02 rad/s about the vertical
//! let densities = Densities {
//!     gyro: [1e-7; 3],
//!     accel: [1e-5; 3],
//!     gyro_bias: [1e-11; 3],
//!     accel_bias: [1e-8; 3],
//!     ..Densities::default()
//! };
//! let imu = Imu { omega: [0.0, 0.0, 0.02], accel: [0.0, 0.0, -9.81], dt: 0.01 };
//! for _ in 0..100 {
//!     filter.propagate(&imu.numbers(&densities))?;
//! }
//!
//! // what was measured: each update gives its normalised innovation squared
//! let fix = Fix { antenna: [0.41, 0.02, -3001.19], noise: diagonal([0.01, 0.01, 0.04]) };
//! let nis = filter.update_position(&fix.numbers())?;
//! assert!(nis < 12.0);
//! let fix = VelocityFix { antenna: [0.0, 0.01, 0.0], omega: imu.omega, noise: diagonal([0.0025; 3]) };
//! filter.update_velocity(&fix.numbers())?;
//! let field = Direction { measured: [0.4, -0.01, 0.9], north: [0.4, 0.0, 0.9], noise: diagonal([4e-4; 3]) };
//! filter.update_direction(&field.numbers())?;
//! // the height of a pressure gauge: down is minus height; the manual has the row
//! let (p, height) = (filter.position(), 2999.9);
//! let mut output = [0.0; 21];
//! output[coordinate::ATTITUDE] = -p[1];
//! output[coordinate::ATTITUDE + 1] = p[0];
//! output[coordinate::POSITION + 2] = -1.0;
//! let gauge = Scalar { output, innovation: p[2] - -height, variance: 0.25 };
//! filter.update_scalar(&gauge.numbers())?;
//!
//! // the estimate
//! let estimate = filter.nav_state()?;
//! assert!((estimate.position[2] + 3000.0).abs() < 0.1);
//! # Ok::<(), drifters_port::Refusal>(())
//! ```
//!
//! # Frames, units, signs
//!
//! - SI units; angles in radians; matrices row by row.
//! - Reference frame: north-east-down, or any frame fixed to the ground; gravity is given in it. Body frame: the
//!   mount's inertial sensor. Compass frame: the magnetometer's.
//! - The attitude R rotates a body vector into the reference frame, the calibration S a compass vector into the body
//!   frame. Velocity v and position p are in the reference frame; biases and the lever arm t, from the inertial
//!   sensor to the antenna, in the body frame.
//! - `omega` and `accel` are the sensor's readings; `accel` is the specific force, (0, 0, -9.81) level and at rest:
//!   R' = R (omega - gyro_bias)^, v' = R (accel - accel_bias) + gravity, p' = v.
//! - Measured are p + R t, v + R (omega x t) and S^T R^T north. A general update, and one by one number, takes predicted less
//!   measured.
//! - Noise is a covariance, in the reference frame. Densities are power spectral densities, not their roots.
//! - A first covariance is that of the 21 error coordinates, not of the state's parts: [`Deviations::sigma`] makes it.
//!
//! docs/MANUAL.md of the repository has all of this at length; include/drifters_eqf.h says what the library asks of
//! the machine: the usual floating-point mode, a processor of x86-64-v2, and about 80 kB of stack for a call, 90 kB for
//! one by several compasses, 175 kB for a sheet.
//!
//! # What is proved
//!
//! The calls themselves, [`run_sheet_into`], [`sin_cos`] and [`sqrt`] are the library's. The crate's part is not
//! proved: the declarations of the library's functions, the order of an input's numbers, the reading of a
//! [`CompassesAnswer`] and [`Deviations::sigma`]. They are tested.
//!
//! # Building
//!
//! DRIFTERS_EQF_LIB_DIR names the folder of libdrifters_eqf_c.a, as `tools/build drifters_eqf_c` writes it (x86-64
//! Linux). Without it the build script warns; `cargo doc` and `cargo check` go on, and what links fails.
//!
//! The crate needs core alone. The feature `std`, on by default, adds `run_sheet`, which gives a `String`.
#![no_std]
#![deny(missing_docs)]

#[cfg(any(feature = "std", test))]
extern crate std;

mod alphas;
mod compasses;
mod deviations;
mod exported;
mod filter;
mod inputs;
pub mod kind;
pub mod places;
mod refusal;
mod runs;
mod scalar;
mod sheet;
mod state;

#[cfg(test)]
mod tests;

/// The manual's programs in Rust are doc tests.
#[cfg(doctest)]
#[doc = include_str!("../../docs/MANUAL.md")]
struct Manual;

pub use alphas::Alphas;
pub use compasses::CompassesAnswer;
pub use deviations::Deviations;
pub use filter::Filter;
pub use inputs::{
    diagonal, Compasses, Densities, Direction, Fix, General, Imu, Scalar, Start, VelocityFix,
};
pub use refusal::Refusal;
pub use scalar::{sin_cos, sqrt};
#[cfg(feature = "std")]
pub use sheet::run_sheet;
pub use sheet::run_sheet_into;
pub use state::State;

/// The crate's version.
pub const VERSION: &str = env!("CARGO_PKG_VERSION");

/// How many error coordinates there are: rows and columns of the covariance.
pub const STATES: usize = 21;

/// How many numbers a filter has.
pub const FILTER_LENGTH: usize = places::filter::DIRECTION_ALPHA + 1;
/// How many numbers a filter with one alpha has, as versions up to 0.6.0 have it.
pub const ONE_ALPHA_LENGTH: usize = places::one_alpha::ALPHA + 1;
/// How many numbers a state has.
pub const STATE_LENGTH: usize = places::state::MAG + 9;
/// How many numbers a start takes.
pub const START_LENGTH: usize = places::start::GRAVITY + 3;
/// How many numbers a propagation takes.
pub const PROPAGATE_LENGTH: usize = places::propagate::MAG_DENSITY + 3;
/// How many numbers an update by position takes.
pub const POSITION_LENGTH: usize = places::position::NOISE + 9;
/// How many numbers an update by velocity takes.
pub const VELOCITY_LENGTH: usize = places::velocity::NOISE + 9;
/// How many numbers an update by direction takes.
pub const DIRECTION_LENGTH: usize = places::direction::NOISE + 9;
/// How many numbers a general update takes.
pub const UPDATE_LENGTH: usize = places::update::NOISE + 9;
/// How many numbers an update by one measured number takes.
pub const SCALAR_LENGTH: usize = places::scalar::VARIANCE + 1;
/// How many numbers a compass's reading has.
pub const READING_LENGTH: usize = 3;
/// The most readings of an update by several compasses, and its largest budget.
pub const MOST_READINGS: usize = 8;
/// How many numbers an update by several compasses takes beside the readings.
pub const COMPASSES_LENGTH: usize = places::compasses::NOISE + 9;
/// How many bytes hold the text of every sheet.
pub const TEXT_LENGTH: usize = 5865;
