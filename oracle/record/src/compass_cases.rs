//! What must come up among the updates by several compasses.
use inputs::Compasses;
use original::places::{DIRECTION_ALPHA, MOST_READINGS, READING};
use original::{all_finite, update_compasses, Answer, Tries};

/// A call that is not refused as a whole: its filter, its numbers, and what was tried.
pub struct Made<'a> {
    run: &'a [f64],
    call: &'a Compasses,
    tries: Tries,
}

impl<'a> Made<'a> {
    pub fn new(run: &'a [f64], call: &'a Compasses) -> Option<Self> {
        let tries = update_compasses(&mut run.to_vec(), &call.readings, &call.north_noise, call.budget).ok()?;
        Some(Self { run, call, tries })
    }

    fn tried(&self) -> usize {
        self.tries.made.len()
    }

    /// The index of the reading that was applied.
    fn index(&self) -> Option<usize> {
        self.tries.applied.map(|(i, _)| i)
    }

    fn accepted(&self) -> usize {
        self.tries.accepted().count()
    }

    /// Whether some of the tries are refused by a number.
    fn refused(&self, tries: std::ops::Range<usize>, number: u32) -> bool {
        self.tries.made[tries].iter().any(|tried| matches!(tried.answer, Answer::Refused(n) if n == number))
    }

    /// Whether a try before the one that was applied is refused by a number.
    fn passed(&self, number: u32) -> bool {
        self.refused(0..self.index().unwrap_or(0), number)
    }

    /// Whether a later try has the NIS that was applied, and leaves the same filter or another.
    fn has_equal(&self, same_filter: bool) -> bool {
        self.tries.applied.is_some_and(|(chosen, least)| {
            let same = |i: usize| self.tries.made[i].left == self.tries.made[chosen].left;
            self.tries.accepted().any(|(i, nis)| i > chosen && nis == least && same(i) == same_filter)
        })
    }

    fn nis_is(&self, asked: impl Fn(f64) -> bool) -> bool {
        self.tries.applied.is_some_and(|(_, nis)| asked(nis))
    }

    /// Whether a budget for all readings chooses one that was not tried.
    fn has_better_past(&self) -> bool {
        let call = Compasses { budget: MOST_READINGS, ..self.call.clone() };
        Made::new(self.run, &call).is_some_and(|all| all.index() >= Some(self.tried()))
    }

    /// The numbers of the readings that were not tried.
    fn left_out(&self) -> &[f64] {
        &self.call.readings[READING * self.tried()..]
    }
}

pub type Case = (&'static str, fn(&Made) -> bool);

pub const CASES: [Case; 20] = [
    ("the first of several", |made| made.index() == Some(0) && made.accepted() > 2 && !made.has_equal(true)),
    ("the last of several", |made| made.accepted() > 2 && made.index() == Some(made.tried() - 1)),
    ("after one refused 2", |made| made.passed(2)),
    ("after one refused 3", |made| made.passed(3)),
    ("after one refused 4", |made| made.passed(4)),
    ("after one refused 5", |made| made.passed(5)),
    ("after one refused 7", |made| made.passed(7)),
    ("of equals, one filter", |made| made.has_equal(true)),
    ("of equals, two filters", |made| made.has_equal(false)),
    ("NIS 0", |made| made.nis_is(|nis| nis == 0.0)),
    ("NIS below 0", |made| made.nis_is(|nis| nis < 0.0)),
    ("of two below 0", |made| made.nis_is(|least| made.tries.accepted().any(|(_, nis)| least < nis && nis < 0.0))),
    ("alpha outside 0..1", |made| made.accepted() > 1 && !(0.0..=1.0).contains(&made.run[DIRECTION_ALPHA])),
    ("a smaller NIS past the budget", |made| made.index().is_some() && made.has_better_past()),
    ("not finite past the budget", |made| made.index().is_some() && !all_finite(made.left_out())),
    ("a budget above the count", |made| made.index().is_some() && made.call.budget > made.tried()),
    ("none, budget 0", |made| made.tried() == 0),
    ("none, an accepted one past the budget", |made| made.tried() > 0 && made.index().is_none() && made.has_better_past()),
    ("none, all refused 7", |made| made.tried() > 1 && (0..made.tried()).all(|i| made.refused(i..i + 1, 7))),
    ("none, refused 2 and 7", |made| made.index().is_none() && [2, 7].iter().all(|n| made.refused(0..made.tried(), *n))),
];
