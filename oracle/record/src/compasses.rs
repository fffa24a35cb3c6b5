//! Updates by several compasses with the original's answers: the filters, then the calls, of which each is made on one of them.
use crate::compass_cases::{Case, Made, CASES};
use crate::list::{digest, stored};
use crate::lists::{other_alphas_differ, started};
use inputs::{compasses, flown, one_alpha_log, spoil, Compasses, Flight, Manner, Numbers};
use original::places::{FILTER, MOST_READINGS, NORTH_NOISE, ONE_ALPHA, POSITION_ALPHA, READING};
use original::{update_compasses, Answer};

/// The places of a run in the file: one number, of readings one reading, more than the most that is taken.
const FILTER_ROOM: usize = FILTER + 1;
const READINGS_ROOM: usize = READING * (MOST_READINGS + 1);
const NORTH_NOISE_ROOM: usize = NORTH_NOISE + 1;

/// The numbers of the filters: a flight's, the same with a number that is not one, and the first of those in the manners of a log, all of them with one
/// alpha for all sensors; the flight's with three alphas, and with one that no direction uses and that is not finite.
const FLIGHT: usize = 0;
const BLANK: usize = 1;
const LOGS: usize = 2;
const THREE_ALPHAS: usize = LOGS + Manner::ALL.len();
const BLANK_ALPHA: usize = THREE_ALPHAS + 1;

/// How many calls the flight's filter has behind it.
const BEHIND: usize = 300;

/// The seed of the flight, and the first of those of the logs, found by trial: every case comes up on their filters.
const SEED: u64 = 432;

/// How many calls are tried to find one of each case.
const TRIALS: u64 = 5000;

/// A call on so many numbers of a filter.
#[derive(Clone)]
struct Call {
    filter: usize,
    length: usize,
    numbers: Compasses,
}

impl Call {
    fn new(filter: usize, numbers: Compasses) -> Self {
        Self { filter, length: FILTER, numbers }
    }

    fn run<'a>(&self, filters: &'a [Vec<f64>]) -> &'a [f64] {
        &filters[self.filter][..self.length]
    }

    /// Whether it is of a case.
    fn is(&self, (_, is_met): &Case, filters: &[Vec<f64>]) -> bool {
        Made::new(self.run(filters), &self.numbers).is_some_and(|made| is_met(&made))
    }

    /// The answer, the index times 2^32 plus how many were tried, and the filter as the call leaves it.
    fn answer(&self, filters: &[Vec<f64>]) -> (Answer, u64, Vec<f64>) {
        let mut run = self.run(filters).to_vec();
        let Compasses { readings, north_noise, budget } = &self.numbers;
        let (answer, counts) = match update_compasses(&mut run, readings, north_noise, *budget) {
            Ok(tries) => match tries.applied {
                Some((i, nis)) => (Answer::Nis(nis), (i << 32) + tries.made.len()),
                None => (Answer::Fine, tries.made.len()),
            },
            Err(number) => (Answer::Refused(number), 0),
        };
        (answer, counts as u64, run)
    }

    /// The call as it stands in the file, without its answer: the place of its filter, how many numbers of each run are lent, the budget, the runs.
    fn bytes(&self) -> Vec<u8> {
        let Compasses { readings, north_noise, budget } = &self.numbers;
        let place = 8 * FILTER_ROOM * self.filter;
        let head = [place, self.length, readings.len(), north_noise.len(), *budget];
        let mut bytes: Vec<u8> = head.iter().flat_map(|n| (*n as u64).to_le_bytes()).collect();
        bytes.extend(placed(readings, READINGS_ROOM));
        bytes.extend(placed(north_noise, NORTH_NOISE_ROOM));
        bytes
    }
}

/// The bytes of a run at the front of its room; the rest are 0.
fn placed(run: &[f64], room: usize) -> Vec<u8> {
    let mut numbers = run.to_vec();
    numbers.resize(room, 0.0);
    numbers.iter().flat_map(|x| x.to_le_bytes()).collect()
}

/// The filters, each with a 0 after it.
fn filters(flight: &mut Flight) -> Vec<Vec<f64>> {
    let mut run = started(flight, 0.5);
    for _ in 0..BEHIND {
        let (kind, numbers) = flight.next_call();
        original::call(kind, &mut run, &numbers, &mut vec![0.0; original::written_length(kind)]);
    }
    let mut blank = run.clone();
    blank[200] = f64::NAN;
    let mut three_alphas = run.clone();
    three_alphas[POSITION_ALPHA..].copy_from_slice(&[0.25, 0.5, 1.0]);
    let mut blank_alpha = run.clone();
    blank_alpha[POSITION_ALPHA] = f64::INFINITY;
    let logs = (SEED..).zip(Manner::ALL).map(|(seed, manner)| {
        let mut run = one_alpha_log(&mut Numbers::new(seed), manner, 0).run;
        run.resize(FILTER, run[POSITION_ALPHA]);
        run
    });
    let mut filters: Vec<Vec<f64>> = [run, blank].into_iter().chain(logs).chain([three_alphas, blank_alpha]).collect();
    filters.iter_mut().for_each(|run| run.push(0.0));
    filters
}

/// Each count of readings with each budget, in flight.
fn flying(flight: &mut Flight) -> Vec<Call> {
    let n = &mut Numbers::new(SEED);
    let mut calls = Vec::new();
    for count in 1..=MOST_READINGS {
        for budget in 0..=MOST_READINGS {
            let mut numbers = flown(flight, count, budget);
            spoil(n, &mut numbers);
            calls.push(Call::new(FLIGHT, numbers));
        }
    }
    calls
}

/// The first call of each case, on the filters of the logs.
fn telling(filters: &[Vec<f64>]) -> Vec<Call> {
    let mut drawn = (0..TRIALS).map(|seed| {
        let i = seed as usize % Manner::ALL.len();
        let run = &filters[LOGS + i][..FILTER];
        Call::new(LOGS + i, compasses(&mut Numbers::new(SEED + seed), Manner::ALL[i], run))
    });
    CASES.iter().map(|case| drawn.find(|call| call.is(case, filters)).expect(case.0)).collect()
}

/// Each count of readings on the filter with three alphas. Each update tells which it uses.
fn of_three_alphas(flight: &mut Flight, filters: &[Vec<f64>]) -> Vec<Call> {
    let mut checked = |count| {
        let call = Call::new(THREE_ALPHAS, flown(flight, count, count));
        let Compasses { readings, north_noise, budget } = &call.numbers;
        let update = |run: &mut [f64]| update_compasses(run, readings, north_noise, *budget);
        assert!(other_alphas_differ(call.run(filters), &call.answer(filters).2, update), "compasses, three alphas");
        call
    };
    (1..=MOST_READINGS).map(&mut checked).collect()
}

fn changed(call: &Call, change: impl FnOnce(&mut Call)) -> Call {
    let mut call = call.clone();
    change(&mut call);
    call
}

/// Calls with a run or the budget out of range, two of them on a filter that is not finite.
fn out_of_range(call: &Call) -> Vec<Call> {
    let filters = [ONE_ALPHA, FILTER - 1, FILTER + 1].map(|n| changed(call, |call| call.length = n));
    let readings = [0, 1, 2, 4, 23, 25, 26, READINGS_ROOM].map(|n| changed(call, |call| call.numbers.readings.resize(n, 0.5)));
    let norths = [0, NORTH_NOISE - 1, NORTH_NOISE_ROOM].map(|n| changed(call, |call| call.numbers.north_noise.resize(n, 0.5)));
    let budgets = [MOST_READINGS + 1, 1 << 32, usize::MAX].map(|n| changed(call, |call| call.numbers.budget = n));
    let blanks = [&readings[0], &budgets[0]].map(|call| changed(call, |call| call.filter = BLANK));
    [filters.as_slice(), &readings, &norths, &budgets, &blanks].concat()
}

/// Calls with a number that is not finite in the filter, in an alpha that they do not use, in north or in noise, two of them with no budget.
fn not_finite(call: &Call) -> Vec<Call> {
    let [filter, alpha] = [BLANK, BLANK_ALPHA].map(|blank| changed(call, |call| call.filter = blank));
    let places = [(0, f64::NAN), (2, f64::INFINITY), (3, f64::NEG_INFINITY), (NORTH_NOISE - 1, f64::NAN)];
    let norths = places.map(|(i, x)| changed(call, |call| call.numbers.north_noise[i] = x));
    let unfunded = [&filter, &norths[0]].map(|call| changed(call, |call| call.numbers.budget = 0));
    [[filter].as_slice(), &norths, &unfunded, &[alpha]].concat()
}

/// Calls that are all refused by a number.
fn refused(number: u32, calls: Vec<Call>, filters: &[Vec<f64>]) -> Vec<Call> {
    assert!(calls.iter().all(|call| matches!(call.answer(filters).0, Answer::Refused(n) if n == number)), "compasses, {number}");
    calls
}

const ANSWERS: [&str; 5] = ["chosen at 0", "chosen above 0", "none", "refused 1", "refused 2"];

/// The column of an answer.
fn column(answer: Answer, counts: u64) -> usize {
    match answer {
        Answer::Nis(_) if counts >> 32 == 0 => 0,
        Answer::Nis(_) => 1,
        Answer::Fine => 2,
        Answer::Refused(number) => 2 + number as usize,
    }
}

/// The filters, and each call with its answer. Every answer is given and every case comes up.
pub fn all() -> Vec<u8> {
    let mut flight = Flight::new(SEED);
    let filters = filters(&mut flight);
    let call = Call::new(FLIGHT, flown(&mut flight, 3, 2));
    let mut calls = flying(&mut flight);
    calls.extend(telling(&filters));
    calls.extend(of_three_alphas(&mut flight, &filters));
    calls.extend(refused(1, out_of_range(&call), &filters));
    calls.extend(refused(2, not_finite(&call), &filters));
    let mut bytes: Vec<u8> = filters.iter().flatten().flat_map(|x| x.to_le_bytes()).collect();
    let mut given = [0; ANSWERS.len()];
    for call in &calls {
        let (answer, counts, run) = call.answer(&filters);
        given[column(answer, counts)] += 1;
        bytes.extend(call.bytes());
        bytes.extend(stored(answer, counts, digest(&run)));
    }
    println!("compasses: {} calls", calls.len());
    let met = CASES.iter().map(|case| (case.0, calls.iter().filter(|call| call.is(case, &filters)).count()));
    for (name, count) in ANSWERS.into_iter().zip(given).chain(met) {
        println!("  {count:3} {name}");
        assert!(count > 0, "no call of compasses: {name}");
    }
    bytes
}
