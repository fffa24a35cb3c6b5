//! Filters that are changed over in flight: the calls that follow on the port, beside the same calls on the original with the one alpha.
use crate::conversion_reading::with_three;
use crate::in_threads;
use crate::lent::{same, Conversion, Lent, LentCompasses, LentConversion};
use inputs::{compasses, flown, one_alpha_log, spoil, Compasses, Flight, Manner, Numbers};
use original::places::{FILTER, MOST_READINGS, ONE_ALPHA, POSITION_ALPHA};
use original::{all_finite, call_with, start, written_length, Alphas};

/// How many flights there are, how many calls each has before it is changed over, and how many after.
const FLIGHTS: u64 = 60;
const BEHIND: usize = 300;
const FLIGHT_CALLS: usize = 2000;
/// How many logs of other manners, and how many calls one has at most, all of them after.
const LOGS: u64 = 48_000;
const LOG_CALLS: usize = 24;

/// How many filters were changed over, and how many more were refused 2. Of what followed: how many calls and how many updates by several compasses were
/// made, how many of them were accepted and chose a reading; how often a filter was changed back and over again. How many of all these differ.
#[derive(Clone, Copy, Default)]
struct Tally {
    filters: u64,
    blank: u64,
    calls: u64,
    accepted: u64,
    updates: u64,
    chosen: u64,
    back: u64,
    differ: u64,
}

impl Tally {
    fn add(self, other: Self) -> Self {
        Self {
            filters: self.filters + other.filters,
            blank: self.blank + other.blank,
            calls: self.calls + other.calls,
            accepted: self.accepted + other.accepted,
            updates: self.updates + other.updates,
            chosen: self.chosen + other.chosen,
            back: self.back + other.back,
            differ: self.differ + other.differ,
        }
    }

    fn print(&self, title: &str) {
        let Self { filters, blank, calls, accepted, updates, chosen, back, differ } = self;
        let filters = format!("{filters} filters changed over and {blank} refused 2");
        let calls = format!("{calls} calls, {accepted} of them accepted");
        let updates = format!("{updates} updates by several compasses, {chosen} of them chosen");
        println!("{title}: {filters}; {calls}, {updates}; changed back and over again {back} times; {differ} differ");
    }
}

/// A filter as the original has it, with one alpha, and as the port has it since it was changed over.
struct Filter {
    theirs: Vec<f64>,
    ours: Vec<f64>,
    tally: Tally,
}

impl Filter {
    /// Changes a filter over.
    fn new(n: &mut Numbers, one_alpha: Vec<f64>) -> Self {
        let mut filter = Self { theirs: one_alpha, ours: Vec::new(), tally: Tally::default() };
        let is_blank = !all_finite(&filter.theirs);
        let (code, ours) = converted(n, Conversion::Upgrade, &filter.theirs);
        filter.ours = ours;
        filter.tally.filters += u64::from(code == 0);
        filter.tally.blank += u64::from(code == 2);
        filter.expect(if is_blank { code == 2 } else { code == 0 && filter.is_same() });
        filter
    }

    /// Counts what differs.
    fn expect(&mut self, is_same: bool) {
        self.tally.differ += u64::from(!is_same);
        if !is_same && self.tally.differ == 1 {
            println!("a filter that was changed over differs after {} calls", self.tally.calls);
        }
    }

    /// Whether the port's filter has the bits of the original's, and its alpha three times.
    fn is_same(&self) -> bool {
        same(&self.ours, &with_three(&self.theirs))
    }

    fn call(&mut self, kind: u32, numbers: &[f64]) {
        let (mut ours, mut theirs) = (Lent::new(kind, &self.ours, numbers), Lent::new(kind, &self.theirs, numbers));
        let (code, expected) = (ours.on_port(kind), theirs.on_original_with(Alphas::One, kind));
        (self.ours, self.theirs) = (ours.run, theirs.run);
        self.tally.calls += 1;
        self.tally.accepted += u64::from(expected == 0);
        self.expect(code == expected && same(&ours.result, &theirs.result) && self.is_same());
    }

    fn compasses(&mut self, call: Compasses) {
        let (mut ours, mut theirs) = (LentCompasses::new(&self.ours, call.clone()), LentCompasses::new(&self.theirs, call));
        let (code, expected) = (ours.on_port(), theirs.on_original_with(Alphas::One));
        (self.ours, self.theirs) = (ours.run, theirs.run);
        self.tally.updates += 1;
        self.tally.chosen += u64::from(expected.as_ref().is_ok_and(|tries| tries.applied.is_some()));
        let expected = expected.map_or_else(|number| number, |_| 0);
        self.expect(code == expected && ours.counts == theirs.counts && same(&ours.nis, &theirs.nis) && self.is_same());
    }

    /// Changes the port's filter back and over again. Between the two it is the original's.
    fn downgrade_and_upgrade(&mut self, n: &mut Numbers) {
        let (down, one_alpha) = converted(n, Conversion::Downgrade, &self.ours);
        let (up, ours) = converted(n, Conversion::Upgrade, &one_alpha);
        self.ours = ours;
        self.tally.back += 1;
        self.expect((down, up) == (0, 0) && same(&one_alpha, &self.theirs) && self.is_same());
    }
}

/// A conversion on the port of what is read to a run that held anything: its code, and the run.
fn converted(n: &mut Numbers, way: Conversion, read: &[f64]) -> (u32, Vec<f64>) {
    let held = f64::from_bits(n.bits());
    let mut lent = LentConversion { read: read.to_vec(), written: vec![held; way.lengths().1] };
    (lent.on_port(way), lent.written)
}

/// A flight that is changed over when it has calls behind it, made on the original with one alpha.
fn flight(seed: u64) -> Tally {
    let (n, mut flight) = (&mut Numbers::new(seed), Flight::new(seed));
    let mut run = vec![0.0; FILTER];
    start(&mut run, &flight.start());
    run.truncate(ONE_ALPHA);
    run[POSITION_ALPHA] = n.unit();
    for _ in 0..BEHIND {
        let (kind, numbers) = flight.next_call();
        call_with(Alphas::One, kind, &mut run, &numbers, &mut vec![0.0; written_length(kind)]);
    }
    let mut filter = Filter::new(n, run);
    for _ in 0..FLIGHT_CALLS {
        let (kind, numbers) = flight.next_call();
        filter.call(kind, &numbers);
        if n.one_in(4) {
            let mut call = flown(&mut flight, 1 + n.below(MOST_READINGS), n.below(MOST_READINGS + 1));
            spoil(n, &mut call);
            filter.compasses(call);
        }
        if n.one_in(16) {
            filter.downgrade_and_upgrade(n);
        }
    }
    filter.tally
}

/// A log whose filter is changed over at first. One that is refused has no calls.
fn any_log(seed: u64) -> Tally {
    let (n, manner) = (&mut Numbers::new(seed), Manner::of(seed));
    let log = one_alpha_log(n, manner, LOG_CALLS);
    let mut filter = Filter::new(n, log.run);
    if filter.tally.filters == 0 {
        return filter.tally;
    }
    for (kind, numbers) in &log.calls {
        filter.call(*kind, numbers);
        if n.one_in(4) {
            let call = compasses(n, manner, &filter.ours);
            filter.compasses(call);
        }
        if n.one_in(16) {
            filter.downgrade_and_upgrade(n);
        }
    }
    filter.tally
}

/// Prints what the seeds below a count give, and how many differ.
fn all(title: &str, seeds: u64, one: fn(u64) -> Tally) -> u64 {
    let tallies = in_threads(seeds, |seeds| seeds.map(one).fold(Tally::default(), Tally::add));
    let all = tallies.into_iter().fold(Tally::default(), Tally::add);
    all.print(title);
    all.differ
}

pub fn compare() -> u64 {
    all("flights changed over", FLIGHTS, flight) + all("logs changed over", LOGS, any_log)
}
