//! The kinds of a sheet's entries, by their numbers.

/// A filter: the first entry of a sheet, and no other.
pub const FILTER: u32 = 0;
/// A propagation.
pub const PROPAGATE: u32 = 1;
/// An update by position.
pub const POSITION: u32 = 2;
/// An update by velocity.
pub const VELOCITY: u32 = 3;
/// An update by direction.
pub const DIRECTION: u32 = 4;
/// A general update.
pub const GENERAL: u32 = 5;
/// A state call.
pub const STATE: u32 = 6;
/// An update by one measured number.
pub const SCALAR: u32 = 7;
