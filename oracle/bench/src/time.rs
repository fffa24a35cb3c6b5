//! The median times of two calls, in turn.
use crate::rows::Measured;
use std::time::{Duration, Instant};

/// How many batches of each call are timed, and how long one is, about.
const BATCHES: usize = 601;
const BATCH: Duration = Duration::from_micros(500);

fn batch(call: &mut Measured, calls: u32) -> Duration {
    let start = Instant::now();
    (0..calls).for_each(|_| call());
    start.elapsed()
}

/// How many calls make a batch.
fn calls_of(call: &mut Measured) -> u32 {
    let mut calls = 1;
    while batch(call, calls) < BATCH {
        calls *= 2;
    }
    calls
}

/// The median times of two calls, in microseconds.
pub fn medians(one: &mut Measured, other: &mut Measured) -> (f64, f64) {
    let (calls_one, calls_other) = (calls_of(one), calls_of(other));
    let mut times = ([Duration::ZERO; BATCHES], [Duration::ZERO; BATCHES]);
    for i in 0..BATCHES {
        times.0[i] = batch(one, calls_one);
        times.1[i] = batch(other, calls_other);
    }
    (median(times.0, calls_one), median(times.1, calls_other))
}

fn median(mut times: [Duration; BATCHES], calls: u32) -> f64 {
    times.sort();
    times[BATCHES / 2].as_secs_f64() * 1e6 / f64::from(calls)
}
