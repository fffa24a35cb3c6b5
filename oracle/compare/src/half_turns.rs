//! The half turn (docs/MANUAL.md) on the compiled port: a log and the log read through a half turn give answers and filters that are each other's.
use crate::conversions::conversion;
use crate::in_threads;
use crate::lent::{same, Conversion, Lent, LentCompasses, LentConversion};
use drifters_eqf::linear::DIM;
use inputs::{biased, compasses, log, Compasses, Log, Manner, Numbers};
use original::places::{E, GAMMA, GENERAL_NOISE, GRAVITY, INNOVATION, MOST_READINGS, POSITION_ALPHA, SCALAR_INNOVATION, SIGMA, VELOCITY};
use original::{is_update_of_three, kinds};

const LOGS: u64 = 36_000;
const LOG_CALLS: usize = 24;
/// How many logs of propagations with large biases.
const BIASED_LOGS: u64 = 25_000;
/// How many logs have compasses, and how often their first filter meets some before the log's calls.
const COMPASS_LOGS: u64 = 6_000;
const STANDING_CALLS: usize = 4;
/// How many conversions there are, of both ways.
const CONVERSIONS: u64 = 60_000;

type Signs = [f64; 3];

const TURNS: [Signs; 3] = [[1.0, -1.0, -1.0], [-1.0, 1.0, -1.0], [-1.0, -1.0, 1.0]];

/// Multiplies the rows of a matrix, or the numbers of vectors of one column, by the signs.
fn turn_rows(s: &Signs, columns: usize, numbers: &mut [f64]) {
    for (i, row) in numbers.chunks_mut(columns).enumerate() {
        row.iter_mut().for_each(|x| *x *= s[i % 3]);
    }
}

/// Multiplies the rows and the columns of a matrix by the signs.
fn turn_both(s: &Signs, columns: usize, numbers: &mut [f64]) {
    turn_rows(s, columns, numbers);
    for row in numbers.chunks_mut(columns) {
        turn_rows(s, 1, row);
    }
}

fn turn_pose(s: &Signs, numbers: &mut [f64]) {
    turn_rows(s, 3, &mut numbers[..VELOCITY]);
    turn_rows(s, 1, &mut numbers[VELOCITY..GAMMA]);
}

fn turned_filter(s: &Signs, run: &[f64]) -> Vec<f64> {
    let mut run = run.to_vec();
    turn_pose(s, &mut run);
    turn_rows(s, 1, &mut run[GAMMA..E]);
    turn_rows(s, 3, &mut run[E..SIGMA]);
    turn_both(s, DIM, &mut run[SIGMA..GRAVITY]);
    turn_rows(s, 1, &mut run[GRAVITY..POSITION_ALPHA]);
    run
}

fn turned_call(s: &Signs, kind: u32, numbers: &[f64]) -> Vec<f64> {
    let mut turned = numbers.to_vec();
    match kind {
        kinds::POSITION | kinds::VELOCITY => turn_rows(s, 1, &mut turned[..3]),
        kinds::DIRECTION => turn_rows(s, 1, &mut turned[3..6]),
        kinds::GENERAL => {
            turn_both(s, DIM, &mut turned[..INNOVATION]);
            turn_rows(s, 1, &mut turned[INNOVATION..GENERAL_NOISE]);
        }
        kinds::SCALAR => turn_rows(s, 1, &mut turned[..SCALAR_INNOVATION]),
        _ => {}
    }
    if is_update_of_three(kind) {
        let noise = turned.len() - 9;
        turn_both(s, 3, &mut turned[noise..]);
    }
    turned
}

/// The readings stay: they are in the compass frame.
fn turned_compasses(s: &Signs, call: &Compasses) -> Compasses {
    let mut turned = call.clone();
    let (north, noise) = turned.north_noise.split_at_mut(3);
    turn_rows(s, 1, north);
    turn_both(s, 3, noise);
    turned
}

/// In a state answer only the pose turns, and a NIS does not.
fn turned_result(s: &Signs, kind: u32, result: &[f64]) -> Vec<f64> {
    let mut result = result.to_vec();
    if kind == kinds::STATE {
        turn_pose(s, &mut result);
    }
    result
}

/// Equal as the manual has it: both zeros are one, and so is what is not a number.
fn equal(x: &[f64], y: &[f64]) -> bool {
    x.len() == y.len() && x.iter().zip(y).all(|(x, y)| x == y || x.is_nan() && y.is_nan())
}

/// How many calls of logs were made, how many of them are scalar updates, how many were refused 7 as their twins were, and how many differ from the
/// turned logs'.
#[derive(Default)]
struct Tally {
    calls: u64,
    scalars: u64,
    null: u64,
    differ: u64,
}

impl Tally {
    fn add(self, other: Self) -> Self {
        Self {
            calls: self.calls + other.calls,
            scalars: self.scalars + other.scalars,
            null: self.null + other.null,
            differ: self.differ + other.differ,
        }
    }
}

/// The runs of a filter and of the one that a half turn makes of it.
#[derive(Clone)]
struct Twins<'a> {
    signs: &'a Signs,
    run: Vec<f64>,
    turned: Vec<f64>,
}

impl<'a> Twins<'a> {
    fn new(signs: &'a Signs, run: &[f64]) -> Self {
        Self { signs, run: run.to_vec(), turned: turned_filter(signs, run) }
    }

    /// Makes a call on the one and its twin on the other. Gives both codes, and whether answers and filters are each other's.
    fn call(&mut self, kind: u32, numbers: &[f64]) -> ((u32, u32), bool) {
        let mut lent = Lent::new(kind, &self.run, numbers);
        let mut turned = Lent::new(kind, &self.turned, &turned_call(self.signs, kind, numbers));
        let codes = (lent.on_port(kind), turned.on_port(kind));
        (self.run, self.turned) = (lent.run, turned.run);
        let same = codes.0 == codes.1 && self.are_twins() && equal(&turned_result(self.signs, kind, &lent.result), &turned.result);
        (codes, same)
    }

    /// The same for an update by several compasses. Gives its code and what was lent to it, and whether the twin chose the same.
    fn compasses(&mut self, call: Compasses) -> (u32, LentCompasses, bool) {
        let mut turned = LentCompasses::new(&self.turned, turned_compasses(self.signs, &call));
        let mut lent = LentCompasses::new(&self.run, call);
        let codes = (lent.on_port(), turned.on_port());
        (self.run, self.turned) = (lent.run.clone(), turned.run);
        let same = codes.0 == codes.1 && self.are_twins() && lent.counts == turned.counts && equal(&lent.nis, &turned.nis);
        (codes.0, lent, same)
    }

    /// The alphas have the same bits.
    fn are_twins(&self) -> bool {
        same(&self.run[POSITION_ALPHA..], &self.turned[POSITION_ALPHA..]) && equal(&turned_filter(self.signs, &self.run), &self.turned)
    }
}

fn compare_log(log: &Log, s: &Signs) -> Tally {
    let mut twins = Twins::new(s, &log.run);
    let mut tally = Tally::default();
    for (kind, numbers) in &log.calls {
        let (codes, same) = twins.call(*kind, numbers);
        let (scalars, null) = (u64::from(*kind == kinds::SCALAR), u64::from(codes == (7, 7)));
        tally = tally.add(Tally { calls: 1, scalars, null, differ: u64::from(!same) });
    }
    tally
}

/// How many updates by several compasses were made, how many chose a reading, how many of these with a NIS below 0, how many chose none, how many
/// were refused, and how many differ from the turned ones.
#[derive(Default)]
struct CompassTally {
    updates: u64,
    chosen: u64,
    below: u64,
    none: u64,
    refused: u64,
    differ: u64,
}

impl CompassTally {
    fn add(self, other: Self) -> Self {
        Self {
            updates: self.updates + other.updates,
            chosen: self.chosen + other.chosen,
            below: self.below + other.below,
            none: self.none + other.none,
            refused: self.refused + other.refused,
            differ: self.differ + other.differ,
        }
    }

    /// Makes an update and its twin, and counts it.
    fn compare(self, twins: &mut Twins, call: Compasses) -> Self {
        let (code, lent, same) = twins.compasses(call);
        let (accepted, none) = (code == 0, lent.counts[1] == MOST_READINGS);
        self.add(Self {
            updates: 1,
            chosen: u64::from(accepted && !none),
            below: u64::from(accepted && !none && lent.nis[0] < 0.0),
            none: u64::from(accepted && none),
            refused: u64::from(!accepted),
            differ: u64::from(!same),
        })
    }
}

/// Compasses on a log's first filter, each on the same, and after each call of the log, each going on from the last.
fn compare_compasses(seed: u64, s: &Signs) -> CompassTally {
    let n = &mut Numbers::new(seed);
    let manner = Manner::of(seed);
    let log = log(n, manner, LOG_CALLS);
    let mut twins = Twins::new(s, &log.run);
    let mut tally = CompassTally::default();
    for _ in 0..STANDING_CALLS {
        tally = tally.compare(&mut twins.clone(), compasses(n, manner, &log.run));
    }
    for (kind, numbers) in &log.calls {
        twins.call(*kind, numbers);
        let call = compasses(n, manner, &twins.run);
        tally = tally.compare(&mut twins, call);
    }
    tally
}

/// Prints what was found of compasses about an axis, and gives how many updates differ.
fn all_compasses(axis: &str, signs: &Signs) -> u64 {
    let one_thread = |seeds: &mut dyn Iterator<Item = u64>| {
        seeds.map(|seed| compare_compasses(seed, signs)).fold(CompassTally::default(), CompassTally::add)
    };
    let tallies = in_threads(COMPASS_LOGS, one_thread);
    let CompassTally { updates, chosen, below, none, refused, differ } =
        tallies.into_iter().fold(CompassTally::default(), CompassTally::add);
    let counts = format!("{chosen} chosen, {below} of them with a NIS below 0, {none} none, {refused} refused");
    println!("half turn about the {axis} axis, compasses: {COMPASS_LOGS} logs, {updates} updates, {counts}; {differ} differ");
    differ
}

/// How many conversions were made of a filter and of its twin, how many were accepted, and how many differ.
#[derive(Default)]
struct ConversionTally {
    made: u64,
    accepted: u64,
    differ: u64,
}

impl ConversionTally {
    fn add(self, other: Self) -> Self {
        Self { made: self.made + other.made, accepted: self.accepted + other.accepted, differ: self.differ + other.differ }
    }
}

/// A conversion of a filter, turned afterwards, and of the filter that was turned before: one and the same, bit for bit.
fn compare_conversion(lent: &LentConversion, way: Conversion, s: &Signs) -> ConversionTally {
    let turned = |lent: &LentConversion| LentConversion { read: turned_filter(s, &lent.read), written: turned_filter(s, &lent.written) };
    let (mut plain, mut twin) = (lent.clone(), turned(lent));
    let codes = (plain.on_port(way), twin.on_port(way));
    let same = codes.0 == codes.1 && turned(&plain).same(&twin);
    ConversionTally { made: 1, accepted: u64::from(codes == (0, 0)), differ: u64::from(!same) }
}

/// Prints what was found of conversions about an axis, and gives how many differ.
fn all_conversions(axis: &str, signs: &Signs) -> u64 {
    let one = |seed: u64| {
        let way = Conversion::ALL[seed as usize / 2 % 2];
        compare_conversion(&conversion(&mut Numbers::new(seed), way), way, signs)
    };
    let tallies = in_threads(CONVERSIONS, |seeds| seeds.map(one).fold(ConversionTally::default(), ConversionTally::add));
    let ConversionTally { made, accepted, differ } = tallies.into_iter().fold(ConversionTally::default(), ConversionTally::add);
    println!("half turn about the {axis} axis, {made} conversions, {accepted} accepted; {differ} differ");
    differ
}

/// The tally of the logs of so many seeds, each beside its twin that these signs turn.
fn all_logs(seeds: u64, log: impl Fn(u64) -> Log + Sync, signs: &Signs) -> Tally {
    let one_thread = |seeds: &mut dyn Iterator<Item = u64>| seeds.map(|seed| compare_log(&log(seed), signs)).fold(Tally::default(), Tally::add);
    in_threads(seeds, one_thread).into_iter().fold(Tally::default(), Tally::add)
}

pub fn compare() -> u64 {
    let mut wrong = 0;
    for (axis, signs) in ["first", "second", "third"].iter().zip(&TURNS) {
        let of_manners = |seed| log(&mut Numbers::new(seed), Manner::of(seed), LOG_CALLS);
        let Tally { calls, scalars, null, differ } = all_logs(LOGS, of_manners, signs);
        let counts = format!("{LOGS} logs, {calls} calls, {scalars} of them scalar updates, {null} refused 7");
        println!("half turn about the {axis} axis: {counts}; {differ} differ");
        let large = all_logs(BIASED_LOGS, |seed| biased(&mut Numbers::new(seed)), signs);
        println!("half turn about the {axis} axis, large biases: {} propagations; {} differ", large.calls, large.differ);
        wrong += differ + large.differ + all_compasses(axis, signs) + all_conversions(axis, signs);
    }
    wrong
}
