//! Why a call was refused.
use core::error::Error;
use core::fmt;

/// Why a call was refused, by its number. A refused call leaves the filter as it was.
///
/// ```
/// use drifters_port::Refusal;
///
/// assert_eq!(Refusal::Pivot.number(), 4);
/// assert_eq!(Refusal::Pivot.word(), "pivot");
/// assert_eq!(Refusal::of_number(4), Some(Refusal::Pivot));
/// ```
#[derive(Clone, Copy, Debug, PartialEq, Eq)]
pub enum Refusal {
    /// A run is not of its stated length. Only a slice form gives it, and
    /// [`Filter::update_compasses`](crate::Filter::update_compasses) for a number of readings that is not 1 to 8 or a
    /// budget above 8.
    Length = 1,
    /// A number of the filter or of the call is infinite or not a number.
    Blank = 2,
    /// One step would turn by more than 8 rad, or by no number: a propagation's, or an update's correction.
    Turn = 3,
    /// The innovation covariance, raw or inflated, is not positive definite: the original's `None`.
    Pivot = 4,
    /// A result is not finite.
    Range = 5,
    /// A call sheet breaks its layout or cannot be read. It stands in a sheet's text only.
    Sheet = 6,
    /// A direction's measured vector or north has norm 0. Only an update by direction gives it: one by several
    /// compasses passes over such a reading. [`kind::SCALAR`](crate::kind::SCALAR), which is 7 too, is something else.
    Null = 7,
    /// The alphas of a filter that is to have one have not all the same bits: +0 and -0 are unequal. Only
    /// [`Filter::downgrade`](crate::Filter::downgrade) gives it.
    Unequal = 8,
}

impl Refusal {
    /// The refusal of a number, as a sheet's text has it.
    pub fn of_number(number: u32) -> Option<Refusal> {
        match number {
            1 => Some(Refusal::Length),
            2 => Some(Refusal::Blank),
            3 => Some(Refusal::Turn),
            4 => Some(Refusal::Pivot),
            5 => Some(Refusal::Range),
            6 => Some(Refusal::Sheet),
            7 => Some(Refusal::Null),
            8 => Some(Refusal::Unequal),
            _ => None,
        }
    }

    /// The number, 1 to 8.
    pub fn number(self) -> u32 {
        self as u32
    }

    /// The word alone.
    pub fn word(self) -> &'static str {
        match self {
            Refusal::Length => "length",
            Refusal::Blank => "blank",
            Refusal::Turn => "turn",
            Refusal::Pivot => "pivot",
            Refusal::Range => "range",
            Refusal::Sheet => "sheet",
            Refusal::Null => "null",
            Refusal::Unequal => "unequal",
        }
    }

    /// What it means, and what to do: as the header says it.
    fn meaning(self) -> &'static str {
        match self {
            Refusal::Length => {
                "a run is not of its stated length, or a budget is above 8; \
                 check the length given with each run"
            }
            Refusal::Blank => {
                "a number of the filter or of the call is infinite or not a number; \
                 check the call's numbers and the alphas"
            }
            Refusal::Turn => {
                "one step would turn by more than 8 rad, or by no number; \
                 check omega, dt and the innovation"
            }
            Refusal::Pivot => {
                "the innovation covariance, raw or inflated, is not positive definite; \
                 check measurement, noise and sigma"
            }
            Refusal::Range => "a result is not finite; check the units and sizes of the numbers",
            Refusal::Sheet => {
                "a call sheet breaks its layout or cannot be read; check how it was built"
            }
            Refusal::Null => {
                "a direction's measured vector or north has norm 0; \
                 check that the compass is on and that north is set"
            }
            Refusal::Unequal => {
                "the filter's alphas have not all the same bits; \
                 set them to one number, of one sign where it is 0"
            }
        }
    }
}

/// Number, word, meaning and what to do, in one line.
impl fmt::Display for Refusal {
    fn fmt(&self, f: &mut fmt::Formatter) -> fmt::Result {
        write!(
            f,
            "refused {} ({}): {}",
            self.number(),
            self.word(),
            self.meaning()
        )
    }
}

impl Error for Refusal {}

/// The result of a code: 0, or the number of a refusal.
pub(crate) fn checked(code: u32) -> Result<(), Refusal> {
    match code {
        0 => Ok(()),
        n => Err(Refusal::of_number(n).expect("the library answers no other code")),
    }
}
