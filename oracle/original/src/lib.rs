//! The original's calls on runs of numbers, with the checks of docs/MANUAL.md around them.
//!
//! The original has one refusal, its None (4). The others are found here. Before the call: the lengths (1), the numbers that are not finite (2),
//! and a direction call's vectors of norm 0, by the original's own `Vec3::norm` (7). After it: the turn (3) on the algebra elements that the
//! original hands to `Symmetry::exp`, computed again by its own public functions, and results that are not finite (5). A refused call is made on
//! a copy, which is dropped.
//!
//! The original's filter has one alpha, a run three: it is given the one that the call uses; or a run has one, as the original (`Alphas`).
mod alphas;
mod calls;
mod compasses;
pub mod kinds;
mod measurement;
pub mod places;
mod runs;
mod sheet;
mod unedited;

pub use alphas::Alphas;
pub use calls::{call_length, is_update, is_update_of_three, written_length, Call};
pub use compasses::{update_compasses, update_compasses_with, Tries, Try};
pub use kinds::LAST_KIND;
pub use runs::{all_finite, filter_of, filter_with, numbers_of};
pub use sheet::{plain_sheet, run_sheet, REFUSED_SHEET};
pub use unedited::propagated_unedited;

use places::{FILTER, START};

/// What a call answers.
#[derive(Clone, Copy, Debug)]
pub enum Answer {
    /// An accepted update, with its normalised innovation squared.
    Nis(f64),
    /// An accepted propagation, state call or start.
    Fine,
    /// A refusal, by its number.
    Refused(u32),
}

/// A call of a kind on a filter's run. `written` has the numbers of a state for a state call and none for another.
pub fn call(kind: u32, run: &mut [f64], numbers: &[f64], written: &mut [f64]) -> Answer {
    call_with(Alphas::Three, kind, run, numbers, written)
}

/// The same where the run has these alphas.
pub fn call_with(alphas: Alphas, kind: u32, run: &mut [f64], numbers: &[f64], written: &mut [f64]) -> Answer {
    if run.len() != alphas.filter_length() || numbers.len() != call_length(kind) || written.len() != written_length(kind) {
        return Answer::Refused(1);
    }
    calls::checked(&Call::read(kind, numbers), run, alphas.place(kind), numbers, written)
}

/// A start: the numbers of a state, of a covariance and of gravity fill a filter's run, with the original's alpha in each place of one.
pub fn start(run: &mut [f64], numbers: &[f64]) -> Answer {
    if run.len() != FILTER || numbers.len() != START {
        return Answer::Refused(1);
    }
    if !all_finite(numbers) {
        return Answer::Refused(2);
    }
    let started = runs::started(numbers);
    let left = numbers_of(&started);
    if !all_finite(&left) {
        return Answer::Refused(5);
    }
    run[..START].copy_from_slice(&left);
    run[START..].fill(started.alpha);
    Answer::Fine
}
