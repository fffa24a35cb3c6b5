//! Which numbers of a filter's run are alphas, and which of them the original is given for a call.
use crate::kinds;
use crate::places::{DIRECTION_ALPHA, FILTER, ONE_ALPHA, POSITION_ALPHA, VELOCITY_ALPHA};

/// How many alphas a run has.
#[derive(Clone, Copy)]
pub enum Alphas {
    /// One for every call, as the original has it.
    One,
    /// One for each sensor.
    Three,
}

impl Alphas {
    /// How many numbers a filter has.
    pub fn filter_length(self) -> usize {
        match self {
            Self::One => ONE_ALPHA,
            Self::Three => FILTER,
        }
    }

    /// The place of the alpha that a call of a kind uses. A propagation and a state use none: they are given that for position.
    pub fn place(self, kind: u32) -> usize {
        match (self, kind) {
            (Self::Three, kinds::VELOCITY) => VELOCITY_ALPHA,
            (Self::Three, kinds::DIRECTION) => DIRECTION_ALPHA,
            _ => POSITION_ALPHA,
        }
    }
}
