//! The kinds of call of docs/MANUAL.md, by their numbers.

pub const PROPAGATE: u32 = 1;
pub const POSITION: u32 = 2;
pub const VELOCITY: u32 = 3;
pub const DIRECTION: u32 = 4;
pub const GENERAL: u32 = 5;
pub const STATE: u32 = 6;
pub const SCALAR: u32 = 7;

/// The kinds of call are 1 to this one.
pub const LAST_KIND: u32 = SCALAR;
