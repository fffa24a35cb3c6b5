//! Updates by several compasses on the port and by the reading over the original's direction call: the answer, and every lent number afterwards.
use crate::in_threads;
use crate::lent::{Lent, LentCompasses, START};
use inputs::{compasses, flown, log, spoil, Compasses, Flight, Manner, Numbers};
use original::places::{DIRECTION_ALPHA, FILTER, MOST_READINGS, ONE_ALPHA, POSITION_ALPHA, READING};
use original::{all_finite, Answer, Tries};

/// How many flights, how many calls each has before the first compasses, and how many with compasses after each.
const FLIGHTS: u64 = 60;
const BEHIND: usize = 300;
const FLIGHT_CALLS: usize = 1200;
/// How many logs of other manners: with compasses after each of their calls, and on a filter that stands.
const MOVING: u64 = 14_000;
const STANDING: u64 = 12_000;
const LOG_CALLS: usize = 24;
/// How many updates meet a filter that stands.
const STANDING_CALLS: usize = 12;

/// Each count of readings meets each budget at least so often.
const LEAST_OF_PAIR: u64 = 1000;
const BUDGETS: usize = MOST_READINGS + 1;

/// A call that was not refused as a whole, and what was tried in it.
struct Made<'a> {
    before: &'a LentCompasses,
    tries: &'a Tries,
}

impl Made<'_> {
    fn tried(&self) -> usize {
        self.tries.made.len()
    }

    /// The index of the reading that was applied.
    fn index(&self) -> Option<usize> {
        self.tries.applied.map(|(i, _)| i)
    }

    /// Whether a tried reading was refused, by its place beside the one that was applied.
    fn refused_where(&self, place: impl Fn(usize, usize) -> bool) -> bool {
        let refused = |i: usize| matches!(self.tries.made[i].answer, Answer::Refused(_));
        self.index().is_some_and(|chosen| (0..self.tried()).any(|i| refused(i) && place(i, chosen)))
    }

    fn has_refused(&self, number: u32) -> bool {
        self.tries.made.iter().any(|tried| matches!(tried.answer, Answer::Refused(n) if n == number))
    }

    /// Whether another accepted reading has the NIS that was applied, and a filter and this NIS that are as asked.
    fn has_equal(&self, asked: impl Fn(bool, f64) -> bool) -> bool {
        let Some((chosen, least)) = self.tries.applied else {
            return false;
        };
        let leaves_another = |i: usize| self.tries.made[i].left != self.tries.made[chosen].left;
        self.tries.accepted().any(|(i, nis)| i != chosen && nis == least && asked(leaves_another(i), nis))
    }

    fn nis_is(&self, asked: impl Fn(f64) -> bool) -> bool {
        self.tries.applied.is_some_and(|(_, nis)| asked(nis))
    }

    /// Whether two accepted readings have a NIS below 0, and not the same one.
    fn orders_below_zero(&self) -> bool {
        self.nis_is(|least| self.tries.accepted().any(|(_, nis)| least < nis && nis < 0.0))
    }

    /// The numbers of the readings that were not tried.
    fn left_out(&self) -> &[f64] {
        &self.before.call.readings[READING * self.tried()..]
    }
}

/// What is counted of the calls that were not refused as a whole.
type Case = (&'static str, fn(&Made) -> bool);

const CASES: [Case; 24] = [
    ("chosen", |made| made.index().is_some()),
    ("  the first reading", |made| made.index() == Some(0)),
    ("  a later one", |made| made.index() > Some(0)),
    ("  after a refused one", |made| made.refused_where(|refused, chosen| refused < chosen)),
    ("  before a refused one", |made| made.refused_where(|refused, chosen| refused > chosen)),
    ("  NIS below 0", |made| made.nis_is(|nis| nis < 0.0)),
    ("  NIS below 0, as another is", |made| made.orders_below_zero()),
    ("  NIS 0", |made| made.nis_is(|nis| nis == 0.0)),
    ("  earliest of equals", |made| made.has_equal(|_, _| true)),
    ("  of equals, filters differ", |made| made.has_equal(|leaves_another, _| leaves_another)),
    ("  of equals below 0", |made| made.has_equal(|_, nis| nis < 0.0)),
    ("  of equals 0", |made| made.has_equal(|_, nis| nis == 0.0)),
    ("  alpha outside 0..1", |made| made.index().is_some() && !(0.0..=1.0).contains(&made.before.run[DIRECTION_ALPHA])),
    ("none", |made| made.index().is_none()),
    ("  budget 0", |made| made.tried() == 0),
    ("  all tried refused", |made| made.tried() > 0 && made.index().is_none()),
    ("  two or more, all refused 7", |made| made.tried() > 1 && made.tries.made.iter().all(|tried| is_null(tried.answer))),
    ("a tried one refused 2", |made| made.has_refused(2)),
    ("  refused 3", |made| made.has_refused(3)),
    ("  refused 4", |made| made.has_refused(4)),
    ("  refused 5", |made| made.has_refused(5)),
    ("  refused 7", |made| made.has_refused(7)),
    ("readings past the tried", |made| !made.left_out().is_empty()),
    ("  not finite", |made| !all_finite(made.left_out())),
];

fn is_null(answer: Answer) -> bool {
    matches!(answer, Answer::Refused(7))
}

const REFUSALS: [&str; 3] = ["refused 1", "refused 2, filter", "refused 2, north or noise"];

/// The column of a call that was refused as a whole.
fn refusal(number: u32, lent: &LentCompasses) -> usize {
    match number {
        1 => 0,
        _ if all_finite(&lent.run) => 2,
        _ => 1,
    }
}

#[derive(Default)]
struct Tally {
    seed: u64,
    /// How many calls were refused as a whole.
    refused: [u64; REFUSALS.len()],
    /// How often each case was met.
    cases: [u64; CASES.len()],
    /// How often each count of readings met each budget.
    pairs: [[u64; BUDGETS]; MOST_READINGS],
    differ: u64,
}

impl Tally {
    fn add(&mut self, other: &Self) {
        add_each(&mut self.refused, &other.refused);
        add_each(&mut self.cases, &other.cases);
        add_each(self.pairs.as_flattened_mut(), other.pairs.as_flattened());
        self.differ += other.differ;
    }

    fn calls(&self) -> u64 {
        self.refused.iter().sum::<u64>() + self.pairs.as_flattened().iter().sum::<u64>()
    }

    /// Makes a call on both sides and compares. Gives the filter's run as the port leaves it.
    fn compare(&mut self, lent: LentCompasses) -> Vec<f64> {
        let (mut ours, mut theirs) = (lent.clone(), lent.clone());
        let (code, expected) = (ours.on_port(), theirs.on_original());
        match &expected {
            Ok(tries) => self.count(&Made { before: &lent, tries }),
            Err(number) => self.refused[refusal(*number, &lent)] += 1,
        }
        let expected = expected.map_or_else(|number| number, |_| 0);
        if code != expected || !ours.same(&theirs) {
            self.differ += 1;
            if self.differ == 1 {
                self.print_difference(&lent, (code, &ours), (expected, &theirs));
            }
        }
        ours.run
    }

    fn count(&mut self, made: &Made) {
        for (count, (_, is_met)) in self.cases.iter_mut().zip(CASES) {
            *count += u64::from(is_met(made));
        }
        let call = &made.before.call;
        self.pairs[call.readings.len() / READING - 1][call.budget] += 1;
    }

    fn print_difference(&self, lent: &LentCompasses, port: (u32, &LentCompasses), original: (u32, &LentCompasses)) {
        let answer = |(code, after): (u32, &LentCompasses)| format!("{code} {:?} {:?}", after.counts, after.nis);
        let Compasses { readings, north_noise, budget } = &lent.call;
        println!("seed {}, compasses: port {}, original {}", self.seed, answer(port), answer(original));
        println!("budget {budget}, readings {readings:?}, north and noise {north_noise:?}");
    }
}

fn add_each(to: &mut [u64], counts: &[u64]) {
    to.iter_mut().zip(counts).for_each(|(to, count)| *to += count);
}

/// Makes a call of a kind on the port. Gives the filter's run as it leaves it.
fn made(kind: u32, run: &[f64], numbers: &[f64]) -> Vec<f64> {
    let mut lent = Lent::new(kind, run, numbers);
    lent.on_port(kind);
    lent.run
}

/// A flight with compasses after each call, once the filter has converged: each goes on from the last.
fn flight(tally: &mut Tally, seed: u64) {
    let n = &mut Numbers::new(seed);
    let mut flight = Flight::new(seed);
    let mut run = made(START, &[0.0; FILTER], &flight.start());
    run[POSITION_ALPHA..].copy_from_slice(&flight.alphas());
    for i in 0..BEHIND + FLIGHT_CALLS {
        let (kind, numbers) = flight.next_call();
        run = made(kind, &run, &numbers);
        if i >= BEHIND {
            let mut call = flown(&mut flight, 1 + n.below(MOST_READINGS), n.below(BUDGETS));
            spoil(n, &mut call);
            run = tally.compare(LentCompasses::new(&run, call));
        }
    }
}

/// A log with compasses after each call: each goes on from the last.
fn moving(tally: &mut Tally, seed: u64) {
    let n = &mut Numbers::new(seed);
    let manner = Manner::of(seed);
    let log = log(n, manner, LOG_CALLS);
    let mut run = log.run;
    for (kind, numbers) in &log.calls {
        run = made(*kind, &run, numbers);
        run = tally.compare(LentCompasses::new(&run, compasses(n, manner, &run)));
    }
}

/// Compasses on a log's first filter, each on the same; now and then with a run of another length or a budget out of range.
fn standing(tally: &mut Tally, seed: u64) {
    let n = &mut Numbers::new(seed);
    let manner = Manner::of(seed);
    let run = log(n, manner, 0).run;
    for _ in 0..STANDING_CALLS {
        let mut lent = LentCompasses::new(&run, compasses(n, manner, &run));
        if n.one_in(8) {
            out_of_range(n, &mut lent);
        }
        tally.compare(lent);
    }
}

/// Gives one of the runs another length, or the budget a value out of range. Half of the time a number is not finite too: 1 comes before 2.
fn out_of_range(n: &mut Numbers, lent: &mut LentCompasses) {
    if n.one_in(2) {
        let run = if n.one_in(2) { &mut lent.run } else { &mut lent.call.north_noise };
        let place = n.below(run.len());
        run[place] = f64::NAN;
    }
    match n.below(6) {
        0 => lent.run.resize(n.one_of(&[0, 1, ONE_ALPHA, FILTER - 1, FILTER + 1, 2 * FILTER]), 0.0),
        1 => lent.call.readings.resize(n.one_of(&[0, 1, 2, 4, 5, 22, 23, 25, 26, 27, 28, 30, 48]), 0.5),
        2 => lent.call.north_noise.resize(n.one_of(&[0, 3, 11, 13, 15, 24]), 0.0),
        3 => lent.call.budget = n.one_of(&[9, 10, 255, 256, 1 << 32, (1 << 32) + 1, 1 << 63, usize::MAX]),
        4 => lent.counts.resize(n.one_of(&[0, 1, 3, 4]), 0),
        _ => lent.nis.resize(n.one_of(&[0, 2]), 0.0),
    }
}

fn tally(seeds: u64, one: fn(&mut Tally, u64)) -> Tally {
    let tallies = in_threads(seeds, |seeds| {
        let mut tally = Tally::default();
        for seed in seeds {
            tally.seed = seed;
            one(&mut tally, seed);
        }
        tally
    });
    let mut all = Tally::default();
    tallies.iter().for_each(|tally| all.add(tally));
    all
}

fn print(name: &str, tallies: &[Tally; 3], count: impl Fn(&Tally) -> u64) {
    println!("{name:<28} {}", tallies.each_ref().map(|tally| format!("{:>9}", count(tally))).join(" "));
}

pub fn compare() -> u64 {
    let tallies = [tally(FLIGHTS, flight), tally(MOVING, moving), tally(STANDING, standing)];
    println!("{:<28} {}", "compasses", ["flights", "moving", "standing"].map(|title| format!("{title:>9}")).join(" "));
    print("calls", &tallies, Tally::calls);
    for (i, name) in REFUSALS.iter().enumerate() {
        print(name, &tallies, |tally| tally.refused[i]);
    }
    for (i, (name, _)) in CASES.iter().enumerate() {
        print(name, &tallies, |tally| tally.cases[i]);
    }
    let mut all = Tally::default();
    tallies.iter().for_each(|tally| all.add(tally));
    let least = *all.pairs.as_flattened().iter().min().expect("a pair");
    println!("{} calls, each count with each budget in {least} or more of them; {} differ", all.calls(), all.differ);
    assert!(least >= LEAST_OF_PAIR && all.cases.iter().chain(&all.refused).all(|count| *count > 0), "a case was not met");
    all.differ
}
