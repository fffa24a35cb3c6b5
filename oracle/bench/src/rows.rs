//! What is measured: each call on both sides, updates by several compasses, and a sheet of 255.
use drifters_eqf::filter::EqFilter;
use drifters_eqf::group::State;
use drifters_eqf::linear::DIM;
use inputs::{flown, sheet, Compasses, Flight};
use original::kinds;
use original::places::{FILTER, GENERAL_NOISE, INNOVATION, MOST_READINGS, READING, STATE};
use original::{filter_of, plain_sheet, Answer, Call};
use std::hint::black_box;

/// A call to measure; it starts from the same filter each time.
pub type Measured = Box<dyn FnMut() + Send>;

pub struct Row {
    pub name: &'static str,
    pub port: Measured,
    pub original: Measured,
}

#[derive(Clone, Copy, PartialEq)]
pub enum Side {
    Port,
    Original,
}

impl Side {
    pub fn name(self) -> &'static str {
        match self {
            Self::Port => "port",
            Self::Original => "original",
        }
    }
}

/// How many calls the flight has behind it: the covariance is full and the biases are found.
const BEHIND: usize = 400;
/// How many calls the sheet has.
const CALLS: usize = 255;
/// How long the port's text may be.
const MOST_TEXT: usize = 5865;

const NAMES: [(u32, &str); 7] = [
    (kinds::PROPAGATE, "propagate"),
    (kinds::POSITION, "update_position"),
    (kinds::VELOCITY, "update_velocity"),
    (kinds::DIRECTION, "update_direction"),
    (kinds::GENERAL, "update"),
    (kinds::STATE, "nav_state"),
    (kinds::SCALAR, "update_scalar"),
];
/// A scalar update whose row has no zeros, as the rows of the general update have none.
const DENSE: &str = "update_scalar, dense row";
/// Updates by so many compasses, and as many tries.
const COMPASSES: [(usize, &str); 3] =
    [(1, "update_compasses, 1 reading"), (3, "update_compasses, 3 readings"), (MOST_READINGS, ALL_COMPASSES)];
/// The update that makes the most tries.
pub const ALL_COMPASSES: &str = "update_compasses, 8 readings";

/// A flight after some hundred calls, and its filter's run.
fn flight() -> (Flight, [f64; FILTER]) {
    let mut flight = Flight::new(1);
    let mut run = [0.0; FILTER];
    assert!(matches!(original::start(&mut run, &flight.start()), Answer::Fine));
    for _ in 0..BEHIND {
        let (kind, numbers) = flight.next_call();
        let mut written = vec![0.0; original::written_length(kind)];
        assert!(!matches!(original::call(kind, &mut run, &numbers, &mut written), Answer::Refused(_)));
    }
    (flight, run)
}

/// Sets a filter back. Not inlined, so that what it needs of the stack is not the measured call's.
#[inline(never)]
fn reset(filter: &mut EqFilter, first: &EqFilter) {
    *filter = first.clone();
}

/// The port's call on its run, which is set back before each call.
fn of_port(kind: u32, first: [f64; FILTER], numbers: Vec<f64>) -> Measured {
    let (mut run, mut state, mut nis) = (first, [0.0; STATE], [0.0]);
    match kind {
        kinds::PROPAGATE => Box::new(move || {
            run.copy_from_slice(&first);
            black_box(port::propagate(black_box(&mut run), black_box(&numbers)));
        }),
        kinds::STATE => Box::new(move || {
            black_box(port::nav_state(black_box(&run), black_box(&mut state)));
        }),
        _ => Box::new(move || {
            run.copy_from_slice(&first);
            black_box(port::update(kind, black_box(&mut run), black_box(&numbers), black_box(&mut nis)));
        }),
    }
}

/// The original's call on its filter, which is set back before each call. Its numbers stand ready as the original's vectors and matrices.
fn of_original(kind: u32, first: EqFilter, numbers: &[f64]) -> Measured {
    let (mut filter, mut state) = (first.clone(), State::default());
    let call = Call::read(kind, numbers);
    if let Call::State = call {
        return Box::new(move || {
            black_box(black_box(&call).make(black_box(&mut filter), black_box(&mut state)));
        });
    }
    Box::new(move || {
        reset(&mut filter, &first);
        black_box(black_box(&call).make(black_box(&mut filter), black_box(&mut state)));
    })
}

/// The port's update by compasses on its run, which is set back before each call.
fn compasses_of_port(first: [f64; FILTER], call: Compasses) -> Measured {
    let (mut run, mut counts, mut nis) = (first, [0; 2], [0.0]);
    let Compasses { readings, north_noise, budget } = call;
    Box::new(move || {
        run.copy_from_slice(&first);
        let (readings, north_noise) = (black_box(&readings), black_box(&north_noise));
        black_box(port::update_compasses(black_box(&mut run), readings, north_noise, budget, black_box(&mut counts), black_box(&mut nis)));
    })
}

/// The direction call by each reading that is tried.
fn directions(call: &Compasses) -> Vec<Call> {
    let direction = |reading: &[f64]| Call::read(kinds::DIRECTION, &[reading, &call.north_noise].concat());
    call.readings.chunks(READING).take(call.budget).map(direction).collect()
}

/// The original's direction call by each reading, on a filter that is set back before each update.
fn compasses_of_original(first: EqFilter, call: &Compasses) -> Measured {
    let (directions, mut filter) = (directions(call), first.clone());
    Box::new(move || {
        reset(&mut filter, &first);
        black_box(apply_best(black_box(&directions), black_box(&mut filter)));
    })
}

/// Makes each direction call on a copy of the filter, and stores the copy with the smallest NIS. Gives its index and its NIS.
fn apply_best(directions: &[Call], filter: &mut EqFilter) -> Option<(usize, f64)> {
    let (mut best, mut state) = (None, State::default());
    let first = filter.clone();
    for (i, direction) in directions.iter().enumerate() {
        let mut tried = first.clone();
        if let Answer::Nis(nis) = direction.make(&mut tried, &mut state) {
            if best.is_none_or(|(_, least)| nis < least) {
                best = Some((i, nis));
                *filter = tried;
            }
        }
    }
    best
}

/// Whether both sides apply the same reading, with the same NIS.
fn choose_alike(mut run: [f64; FILTER], call: &Compasses) -> bool {
    let applied = apply_best(&directions(call), &mut filter_of(kinds::DIRECTION, &run));
    let (mut counts, mut nis) = ([0; 2], [0.0]);
    let code = port::update_compasses(&mut run, &call.readings, &call.north_noise, call.budget, &mut counts, &mut nis);
    code == 0 && applied == Some((counts[1], nis[0]))
}

fn compasses_rows() -> Vec<Row> {
    let (mut flight, run) = flight();
    let row = |(count, name)| {
        let call = flown(&mut flight, count, count);
        assert!(choose_alike(run, &call));
        Row { name, original: compasses_of_original(filter_of(kinds::DIRECTION, &run), &call), port: compasses_of_port(run, call) }
    };
    COMPASSES.into_iter().map(row).collect()
}

/// A sheet of 255 calls of a flight, from its bytes to its text.
fn sheet_row(mut flight: Flight, run: [f64; FILTER]) -> Row {
    let calls: Vec<_> = (0..CALLS).map(|_| flight.next_call()).collect();
    let bytes = sheet(&run, &calls);
    let again = bytes.clone();
    let (mut text, mut length) = (vec![0; MOST_TEXT], [0]);
    assert_eq!(port::run_sheet(&bytes, &mut text, &mut length), 0);
    assert_eq!(&text[..length[0]], plain_sheet(&bytes).as_bytes());
    Row {
        name: "sheet of 255 calls",
        port: Box::new(move || {
            black_box(port::run_sheet(black_box(&bytes), black_box(&mut text), black_box(&mut length)));
        }),
        original: Box::new(move || {
            black_box(plain_sheet(black_box(&again)));
        }),
    }
}

/// The first of the three numbers that a general update measures, as a scalar update.
fn first_of(general: &[f64]) -> Vec<f64> {
    [&general[..DIM], &[general[INNOVATION], general[GENERAL_NOISE]]].concat()
}

pub fn all() -> Vec<Row> {
    let (mut flight, run) = flight();
    let mut calls: Vec<_> = NAMES.into_iter().map(|(kind, name)| (kind, name, flight.call(kind))).collect();
    calls.push((kinds::SCALAR, DENSE, first_of(&flight.call(kinds::GENERAL))));
    let row = |(kind, name, numbers): (u32, _, Vec<f64>)| Row {
        name,
        original: of_original(kind, filter_of(kind, &run), &numbers),
        port: of_port(kind, run, numbers),
    };
    let mut rows: Vec<Row> = calls.into_iter().map(row).collect();
    rows.push(sheet_row(flight, run));
    rows.extend(compasses_rows());
    rows
}

/// The row of a name.
pub fn named(name: &str) -> Row {
    all().into_iter().find(|row| row.name == name).expect("a row")
}
