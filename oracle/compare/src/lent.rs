//! A call with all its lent runs, made on either side; a conversion with its two, made on the port alone.
use inputs::Compasses;
use original::kinds;
use original::places::{FILTER, MOST_READINGS, ONE_ALPHA, STATE};
use original::{is_update, Alphas, Answer, Tries, LAST_KIND};

/// The number that stands for a start beside the kinds of call.
pub const START: u32 = LAST_KIND + 1;

/// What is lent to a call: the filter's run, the numbers, and the run of its result (a state, or one NIS).
#[derive(Clone)]
pub struct Lent {
    pub run: Vec<f64>,
    pub numbers: Vec<f64>,
    pub result: Vec<f64>,
}

impl Lent {
    /// Runs of the stated lengths. What the run of a result holds before doesn't matter, so it is no number.
    pub fn new(kind: u32, run: &[f64], numbers: &[f64]) -> Self {
        Self { run: run.to_vec(), numbers: numbers.to_vec(), result: vec![f64::NAN; result_length(kind)] }
    }

    /// Makes the call on the port. Answers 0 or the refusal's number.
    pub fn on_port(&mut self, kind: u32) -> u32 {
        match kind {
            kinds::PROPAGATE => port::propagate(&mut self.run, &self.numbers),
            kinds::STATE => port::nav_state(&self.run, &mut self.result),
            START => port::start(&mut self.run, &self.numbers),
            _ => port::update(kind, &mut self.run, &self.numbers, &mut self.result),
        }
    }

    /// Makes the call on the original. Answers as the port does.
    pub fn on_original(&mut self, kind: u32) -> u32 {
        self.on_original_with(Alphas::Three, kind)
    }

    /// The same where the filter has these alphas. The run of a NIS is the port's own; refusal 1 is for every lent run.
    pub fn on_original_with(&mut self, alphas: Alphas, kind: u32) -> u32 {
        let update = is_update(kind);
        if update && self.result.len() != result_length(kind) {
            return 1;
        }
        let written: &mut [f64] = if update { &mut [] } else { &mut self.result };
        let answer = match kind {
            START => original::start(&mut self.run, &self.numbers),
            _ => original::call_with(alphas, kind, &mut self.run, &self.numbers, written),
        };
        match answer {
            Answer::Nis(nis) => self.result[0] = nis,
            Answer::Fine => {}
            Answer::Refused(number) => return number,
        }
        0
    }

    /// Whether every lent number has the same bits. An accepted call leaves finite numbers, and a refused one leaves even the bits of a
    /// not-a-number.
    pub fn same(&self, other: &Self) -> bool {
        same(&self.run, &other.run) && same(&self.numbers, &other.numbers) && same(&self.result, &other.result)
    }
}

/// What is lent to an update by several compasses: the filter's run, the call's numbers with its budget, and the runs of its counts and of its NIS.
#[derive(Clone)]
pub struct LentCompasses {
    pub run: Vec<f64>,
    pub call: Compasses,
    pub counts: Vec<usize>,
    pub nis: Vec<f64>,
}

/// How many numbers the runs of counts and of a NIS have.
const COUNTS: usize = 2;
const NIS: usize = 1;

impl LentCompasses {
    /// Runs of the stated lengths. What the runs of the results hold before doesn't matter, so it is no count and no number.
    pub fn new(run: &[f64], call: Compasses) -> Self {
        Self { run: run.to_vec(), call, counts: vec![usize::MAX; COUNTS], nis: vec![f64::NAN; NIS] }
    }

    /// Makes the call on the port. Answers 0 or the refusal's number.
    pub fn on_port(&mut self) -> u32 {
        let Compasses { readings, north_noise, budget } = &self.call;
        port::update_compasses(&mut self.run, readings, north_noise, *budget, &mut self.counts, &mut self.nis)
    }

    /// Makes the call by the reading over the original. Gives what was tried, or the refusal's number.
    pub fn on_original(&mut self) -> Result<Tries, u32> {
        self.on_original_with(Alphas::Three)
    }

    /// The same where the filter has these alphas. Refusal 1 is for every lent run.
    pub fn on_original_with(&mut self, alphas: Alphas) -> Result<Tries, u32> {
        if self.counts.len() != COUNTS || self.nis.len() != NIS {
            return Err(1);
        }
        let Compasses { readings, north_noise, budget } = &self.call;
        let tries = original::update_compasses_with(alphas, &mut self.run, readings, north_noise, *budget)?;
        self.counts = vec![tries.made.len(), MOST_READINGS];
        if let Some((i, nis)) = tries.applied {
            self.counts[1] = i;
            self.nis[0] = nis;
        }
        Ok(tries)
    }

    /// Whether every lent number has the same bits.
    pub fn same(&self, other: &Self) -> bool {
        same(&self.run, &other.run)
            && same(&self.call.readings, &other.call.readings)
            && same(&self.call.north_noise, &other.call.north_noise)
            && self.counts == other.counts
            && same(&self.nis, &other.nis)
    }
}

/// The way of a conversion: to a filter with an alpha for each sensor, or back to one with one alpha.
#[derive(Clone, Copy)]
pub enum Conversion {
    Upgrade,
    Downgrade,
}

impl Conversion {
    pub const ALL: [Self; 2] = [Self::Upgrade, Self::Downgrade];

    /// How many numbers a conversion reads, and how many it writes.
    pub fn lengths(self) -> (usize, usize) {
        match self {
            Self::Upgrade => (ONE_ALPHA, FILTER),
            Self::Downgrade => (FILTER, ONE_ALPHA),
        }
    }
}

/// What is lent to a conversion: the filter that it reads, and the run that it writes.
#[derive(Clone)]
pub struct LentConversion {
    pub read: Vec<f64>,
    pub written: Vec<f64>,
}

impl LentConversion {
    /// Makes the conversion on the port. Answers 0 or the refusal's number.
    pub fn on_port(&mut self, conversion: Conversion) -> u32 {
        match conversion {
            Conversion::Upgrade => port::upgrade(&self.read, &mut self.written),
            Conversion::Downgrade => port::downgrade(&self.read, &mut self.written),
        }
    }

    /// Whether every lent number has the same bits.
    pub fn same(&self, other: &Self) -> bool {
        same(&self.read, &other.read) && same(&self.written, &other.written)
    }
}

/// Whether two runs have the same bits.
pub fn same(x: &[f64], y: &[f64]) -> bool {
    x.len() == y.len() && x.iter().zip(y).all(|(x, y)| x.to_bits() == y.to_bits())
}

/// How many numbers the run of a result has.
pub fn result_length(kind: u32) -> usize {
    match kind {
        _ if is_update(kind) => 1,
        kinds::STATE => STATE,
        _ => 0,
    }
}
