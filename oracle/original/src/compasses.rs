//! One update by the best of several compasses, read from docs/MANUAL.md over the original's `update_direction`, since the original has no
//! such call. Every reading that the budget allows is tried first, and the accepted ones are put in order afterwards.
use crate::kinds::DIRECTION;
use crate::places::{MOST_READINGS, NORTH_NOISE, READING};
use crate::runs::all_finite;
use crate::{call_with, Alphas, Answer};

/// A direction call by one reading: its answer, and the filter's run as it left it.
pub struct Try {
    pub answer: Answer,
    pub left: Vec<f64>,
}

/// The readings that were tried, in order; and the index and the NIS of the one that was applied, where one was.
pub struct Tries {
    pub made: Vec<Try>,
    pub applied: Option<(usize, f64)>,
}

impl Tries {
    /// The index and the NIS of each that was accepted.
    pub fn accepted(&self) -> impl Iterator<Item = (usize, f64)> + '_ {
        self.made.iter().enumerate().filter_map(|(i, tried)| match tried.answer {
            Answer::Nis(nis) => Some((i, nis)),
            _ => None,
        })
    }
}

/// The update on a filter's run: what was tried and applied, or the number of a refusal.
pub fn update_compasses(run: &mut [f64], readings: &[f64], north_noise: &[f64], budget: usize) -> Result<Tries, u32> {
    update_compasses_with(Alphas::Three, run, readings, north_noise, budget)
}

/// The same where the run has these alphas.
pub fn update_compasses_with(
    alphas: Alphas,
    run: &mut [f64],
    readings: &[f64],
    north_noise: &[f64],
    budget: usize,
) -> Result<Tries, u32> {
    let counted = (1..=MOST_READINGS).any(|count| readings.len() == count * READING);
    if run.len() != alphas.filter_length() || !counted || north_noise.len() != NORTH_NOISE || budget > MOST_READINGS {
        return Err(1);
    }
    if !all_finite(run) || !all_finite(north_noise) {
        return Err(2);
    }
    let directions = readings.chunks(READING).take(budget).map(|measured| [measured, north_noise].concat());
    let made = directions.map(|direction| attempt(alphas, run, &direction)).collect();
    let mut tries = Tries { made, applied: None };
    let mut ranked: Vec<_> = tries.accepted().collect();
    // The NIS of an accepted call is a number, and both zeros are equal.
    ranked.sort_by(|(i, x), (j, y)| x.partial_cmp(y).expect("two numbers").then(i.cmp(j)));
    tries.applied = ranked.first().copied();
    if let Some((i, _)) = tries.applied {
        run.copy_from_slice(&tries.made[i].left);
    }
    Ok(tries)
}

/// A direction call on a copy of the filter's run.
fn attempt(alphas: Alphas, run: &[f64], direction: &[f64]) -> Try {
    let mut left = run.to_vec();
    let answer = call_with(alphas, DIRECTION, &mut left, direction, &mut []);
    Try { answer, left }
}
