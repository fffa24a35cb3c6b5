//! The calls on the port and on the original: the answer, and every lent number afterwards.
//!
//! A direction call that is refused 7 leaves the comparison, since the original makes it: the port is held to the reading of the checks alone, and to
//! leaving every lent number.
use crate::alphas::AlphaTally;
use crate::in_threads;
use crate::lent::{Lent, START};
use drifters_core::math::Vec3;
use inputs::norms::LEAST_NORMS;
use inputs::{biased, log, rounded_away, start, Flight, Manner, Numbers};
use original::kinds;
use original::places::{DIAGONAL_STEP, FILTER, GRAVITY, POSITION_ALPHA, SIGMA};
use original::{all_finite, filter_of, is_update, is_update_of_three, propagated_unedited, Call};

/// How many flights, and how many calls each has.
const FLIGHTS: u64 = 150;
const FLIGHT_CALLS: usize = 4000;
/// How many logs of other manners, and how many calls one has at most.
const LOGS: u64 = 180_000;
const LOG_CALLS: usize = 24;
/// How many logs of propagations with large biases.
const BIASED_LOGS: u64 = 100_000;

/// The names of the kinds in their order, and of a start.
const NAMES: [&str; START as usize] =
    ["propagate", "update_position", "update_velocity", "update_direction", "update", "nav_state", "update_scalar", "start"];

const ANSWERS: [&str; 8] = ["accepted", "refused 1", "2", "3", "4 raw", "4 infl.", "5", "7"];

/// The refusal of the calls that leave the comparison. Its number is its column too.
const NULL: u32 = 7;

#[derive(Default)]
struct Tally {
    seed: u64,
    /// How often each kind gave each answer.
    answers: [[u64; ANSWERS.len()]; NAMES.len()],
    /// How many calls differ, of those that are compared with the original and of those refused 7.
    differ: u64,
    null_differ: u64,
    /// How often a NIS was below 0.
    negative: u64,
    /// How many directions were accepted with a norm hardly above 0, and with an infinite one.
    short: u64,
    long: u64,
    /// How many updates of three numbers were made by the reading of `update` over the width too, and how many of them it made otherwise than the
    /// original.
    read: u64,
    misread: u64,
    /// Of the propagations that the original leaves finite with and without the edit: how many it leaves otherwise without, and by how much of
    /// itself a variance that is not 0 then differs at most. How many it leaves finite with the edit alone, and without it alone.
    edited: u64,
    most_edited: f64,
    with_alone: u64,
    without_alone: u64,
    alphas: AlphaTally,
}

impl Tally {
    fn add(&mut self, other: &Self) {
        for (row, other) in self.answers.as_flattened_mut().iter_mut().zip(other.answers.as_flattened()) {
            *row += other;
        }
        self.differ += other.differ;
        self.null_differ += other.null_differ;
        self.negative += other.negative;
        self.short += other.short;
        self.long += other.long;
        self.read += other.read;
        self.misread += other.misread;
        self.edited += other.edited;
        self.most_edited = self.most_edited.max(other.most_edited);
        self.with_alone += other.with_alone;
        self.without_alone += other.without_alone;
        self.alphas.add(&other.alphas);
    }

    fn differing(&self) -> u64 {
        self.differ + self.null_differ + self.misread
    }

    fn print(&self, title: &str) {
        println!("{title:<18} {}", ANSWERS.map(|answer| format!("{answer:>9}")).join(" "));
        for (name, row) in NAMES.iter().zip(self.answers).filter(|(_, row)| row.iter().any(|count| *count > 0)) {
            println!("{name:<18} {}", row.map(|count| format!("{count:>9}")).join(" "));
        }
        let null: u64 = self.answers.iter().map(|row| row[NULL as usize]).sum();
        let calls = self.answers.as_flattened().iter().sum::<u64>() - null;
        println!("{calls} calls, {} with a NIS below 0; {} differ", self.negative, self.differ);
        println!("{null} more refused 7 and left out of these: by the reading of the checks alone; {} differ", self.null_differ);
        println!("accepted directions: {} with a norm below {LEAST_NORMS:e}, {} with an infinite one", self.short, self.long);
        println!("{} updates of three numbers by the reading over the width; {} differ", self.read, self.misread);
        println!(
            "{} propagations that the original unedited leaves otherwise, a variance by at most {:e} of itself; {} left finite with the edit alone, {} without it alone",
            self.edited, self.most_edited, self.with_alone, self.without_alone
        );
    }

    /// Makes a call on both sides and compares. Gives the filter's run as the port leaves it.
    fn compare(&mut self, kind: u32, lent: Lent) -> Vec<f64> {
        let (mut ours, mut theirs) = (lent.clone(), lent.clone());
        let (code, expected) = (ours.on_port(kind), theirs.on_original(kind));
        let column = match expected {
            4 if Call::read(kind, &lent.numbers).has_raw_factor(&filter_of(kind, &lent.run)) => 5,
            5 => 6,
            _ => expected as usize,
        };
        self.answers[kind as usize - 1][column] += 1;
        if is_update(kind) && expected == 0 && theirs.result[0] < 0.0 {
            self.negative += 1;
        }
        if kind == kinds::DIRECTION && expected == 0 {
            self.count_norms(&lent.numbers);
        }
        if kind == kinds::PROPAGATE && matches!(expected, 0 | 5) {
            self.count_edited(&lent, expected == 0, &theirs.run);
        }
        if is_update_of_three(kind) && !matches!(expected, 1 | NULL) {
            self.read += 1;
            self.misread += u64::from(!Call::read(kind, &lent.numbers).is_read_alike(&filter_of(kind, &lent.run)));
        }
        if is_update(kind) && expected != 1 {
            self.alphas.count(kind, &lent.run, &lent.numbers, (expected == 0).then_some(theirs.run.as_slice()));
        }
        if code != expected || !ours.same(&theirs) {
            let differ = if expected == NULL { &mut self.null_differ } else { &mut self.differ };
            *differ += 1;
            if *differ == 1 {
                println!("seed {}, kind {kind}: port {code}, original {expected}; numbers {:?}", self.seed, lent.numbers);
            }
        }
        ours.run
    }

    /// Counts a propagation that the original unedited leaves otherwise, or that it leaves finite only with the edit, or only without.
    fn count_edited(&mut self, lent: &Lent, accepted: bool, after: &[f64]) {
        let unedited = propagated_unedited(&lent.run, &lent.numbers);
        let finite = all_finite(&unedited);
        self.with_alone += u64::from(accepted && !finite);
        self.without_alone += u64::from(!accepted && finite);
        if !accepted || !finite {
            return;
        }
        self.edited += u64::from(after.iter().zip(&unedited).any(|(x, y)| x.to_bits() != y.to_bits()));
        for at in (SIGMA..GRAVITY).step_by(DIAGONAL_STEP).filter(|at| after[*at] != 0.0) {
            self.most_edited = self.most_edited.max(((after[at] - unedited[at]) / after[at]).abs());
        }
    }

    /// Counts an accepted direction that has a norm hardly above 0, or an infinite one.
    fn count_norms(&mut self, numbers: &[f64]) {
        let norms = [0, 3].map(|at| Vec3::new(numbers[at], numbers[at + 1], numbers[at + 2]).norm());
        self.short += u64::from(norms.iter().any(|norm| *norm < LEAST_NORMS));
        self.long += u64::from(norms.contains(&f64::INFINITY));
    }
}

/// A flight from its start, with alphas of its own: every call is realistic and goes on from the last.
fn flight(tally: &mut Tally, seed: u64) {
    let mut flight = Flight::new(seed);
    let mut run = tally.compare(START, Lent::new(START, &[0.0; FILTER], &flight.start()));
    run[POSITION_ALPHA..].copy_from_slice(&flight.alphas());
    for _ in 0..FLIGHT_CALLS {
        let (kind, numbers) = flight.next_call();
        run = tally.compare(kind, Lent::new(kind, &run, &numbers));
    }
}

/// A log, with some starts beside it and now and then a run of another length.
fn any_log(tally: &mut Tally, seed: u64) {
    let n = &mut Numbers::new(seed);
    let manner = Manner::of(seed);
    let log = log(n, manner, LOG_CALLS);
    let mut run = log.run;
    for (kind, numbers) in &log.calls {
        if n.one_in(20) {
            let mut lent = Lent::new(*kind, &run, numbers);
            other_length(n, *kind, &mut lent);
            tally.compare(*kind, lent);
        }
        run = tally.compare(*kind, Lent::new(*kind, &run, numbers));
    }
    let mut lent = Lent::new(START, &run, &start(n, manner));
    if n.one_in(10) {
        other_length(n, START, &mut lent);
    } else if n.one_in(4) {
        lent.run.fill(f64::NAN);
    }
    tally.compare(START, lent);
}

/// Propagations with large biases, each on the filter that the last one left.
fn biased_log(tally: &mut Tally, seed: u64) {
    let log = biased(&mut Numbers::new(seed));
    let mut run = log.run;
    for (kind, numbers) in &log.calls {
        run = tally.compare(*kind, Lent::new(*kind, &run, numbers));
    }
}

/// The input of docs/DIFFERENCES.md that shows the edit: whether the first variance is 1 by the port and by the original, and 0 by that unedited.
fn shows_the_edit() -> bool {
    let log = rounded_away();
    let (kind, numbers) = &log.calls[0];
    let (mut ours, mut theirs) = (Lent::new(*kind, &log.run, numbers), Lent::new(*kind, &log.run, numbers));
    let accepted = ours.on_port(*kind) == 0 && theirs.on_original(*kind) == 0;
    let variances = [ours.run[SIGMA], theirs.run[SIGMA], propagated_unedited(&log.run, numbers)[SIGMA]];
    println!("a unit input that is rounded away: {variances:?} by the port, by the original, and by that unedited");
    accepted && variances == [1.0, 1.0, 0.0]
}

/// Gives one of the runs another length. Two numbers fewer are a filter with one alpha.
fn other_length(n: &mut Numbers, kind: u32, lent: &mut Lent) {
    let run = match n.below(3) {
        0 => &mut lent.run,
        1 if kind != kinds::STATE => &mut lent.numbers,
        _ if !lent.result.is_empty() => &mut lent.result,
        _ => &mut lent.run,
    };
    let length = n.one_of(&[0, run.len().saturating_sub(2), run.len() - 1, run.len() + 1, 2 * run.len()]);
    run.resize(length, 0.0);
}

/// Prints and gives the tally of the seeds below a count.
fn tally_of(title: &str, seeds: u64, one: fn(&mut Tally, u64)) -> Tally {
    let tallies = in_threads(seeds, |seeds| {
        let mut tally = Tally::default();
        for seed in seeds {
            tally.seed = seed;
            one(&mut tally, seed);
        }
        tally
    });
    let mut all = Tally::default();
    tallies.iter().for_each(|tally| all.add(tally));
    all.print(title);
    all
}

/// How many differ. Large biases at which the edit counts nowhere, and an example that does not show it, count as one each.
pub fn compare() -> u64 {
    let flights = tally_of("flights", FLIGHTS, flight);
    let logs = tally_of("logs", LOGS, any_log);
    let biased = tally_of("large biases", BIASED_LOGS, biased_log);
    let tallies = [&flights, &logs, &biased];
    let mut alphas = AlphaTally::default();
    tallies.iter().for_each(|tally| alphas.add(&tally.alphas));
    alphas.print();
    let differing: u64 = tallies.map(Tally::differing).iter().sum();
    differing + u64::from(biased.edited == 0) + u64::from(!shows_the_edit())
}
