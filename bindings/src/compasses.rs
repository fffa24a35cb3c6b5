//! What an update by several compasses answers.
use crate::MOST_READINGS;

/// What came of an update by several compasses.
///
/// ```
/// use drifters_port::CompassesAnswer;
///
/// fn told(answer: CompassesAnswer) -> String {
///     match answer {
///         CompassesAnswer::Chosen { index, nis, tried } => format!("compass {index} of {tried} tried, NIS {nis}"),
///         CompassesAnswer::None { tried } => format!("none of {tried} tried"),
///     }
/// }
/// assert_eq!(told(CompassesAnswer::None { tried: 3 }), "none of 3 tried");
/// ```
#[derive(Clone, Copy, Debug, PartialEq)]
pub enum CompassesAnswer {
    /// A reading was applied.
    Chosen {
        /// Which one, counted from 0.
        index: usize,
        /// Its normalised innovation squared.
        nis: f64,
        /// How many readings were tried.
        tried: usize,
    },
    /// No reading that was tried was accepted. The filter is as it was.
    None {
        /// How many readings were tried.
        tried: usize,
    },
}

// The run of counts, as the header has it.
const TRIED: usize = 0;
const CHOSEN: usize = TRIED + 1;
pub(crate) const COUNTS_LENGTH: usize = CHOSEN + 1;
const NONE_CHOSEN: usize = MOST_READINGS;

impl CompassesAnswer {
    /// The answer of what the library wrote.
    pub(crate) fn of(counts: &[usize; COUNTS_LENGTH], nis: f64) -> CompassesAnswer {
        let tried = counts[TRIED];
        match counts[CHOSEN] {
            NONE_CHOSEN => CompassesAnswer::None { tried },
            index => CompassesAnswer::Chosen { index, nis, tried },
        }
    }
}
