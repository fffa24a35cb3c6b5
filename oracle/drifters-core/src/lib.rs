//! The original's mathematics, its files unedited. Its lib.rs names modules that were not published with them, so this one stands in.
#![no_std]

pub type F = f64;

pub mod math {
    include!(concat!(env!("OUT_DIR"), "/modules.rs"));

    pub use matrix::{Cholesky, Mat3, Matrix, Vector};
    pub use quat::Quat;
    pub use real::{Real, SMALL_ANGLE};
    pub use vec3::Vec3;
}
