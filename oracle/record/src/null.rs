//! Directions by vectors whose norm is 0, hardly above it, or infinite, and the order of the checks about them.
use crate::limit::{filter, IDENTITY};
use crate::list::List;
use inputs::norms::UNDERFLOWING;
use original::{kinds, Answer};

type Vector = [f64; 3];

/// Ordinary vectors, and the variance of each measured number.
const MEASURED: Vector = [0.5, 0.25, -0.1];
const NORTH: Vector = [0.4, 0.0, 0.9];
const VARIANCE: f64 = 0.04;

/// A variance at which no matrix has a factor.
const NEGATIVE: f64 = -100.0;

/// The least number whose square is above 0.
const LEAST: f64 = UNDERFLOWING.next_up();

const ZEROS: Vector = [0.0; 3];

/// Norm 0: zeros of both signs, subnormal numbers, and numbers up to the largest whose square rounds to 0.
const NULL: [Vector; 5] = [ZEROS, [-0.0; 3], [5e-324, -1e-310, 0.0], [0.0, 1e-200, -0.0], [UNDERFLOWING, -UNDERFLOWING, UNDERFLOWING]];

/// A norm above 0 by one number alone.
const SHORT: [Vector; 3] = [[LEAST, 0.0, 0.0], [UNDERFLOWING, -LEAST, UNDERFLOWING], [-0.0, 5e-324, LEAST]];

/// An infinite norm: the division gives zeros.
const LONG: [Vector; 3] = [[1e200, 0.0, 0.0], [-1e200, 1e200, 1e200], [f64::MAX; 3]];

/// A number that is not finite among zeros.
const BLANK: [Vector; 2] = [[f64::INFINITY, 0.0, 0.0], [0.0, 0.0, f64::NAN]];

fn is_null(answer: Answer) -> bool {
    matches!(answer, Answer::Refused(7))
}

fn is_blank(answer: Answer) -> bool {
    matches!(answer, Answer::Refused(2))
}

fn is_pivot(answer: Answer) -> bool {
    matches!(answer, Answer::Refused(4))
}

fn is_accepted(answer: Answer) -> bool {
    matches!(answer, Answer::Nis(nis) if nis > 0.0)
}

/// Accepted, and nothing measured.
fn is_zero(answer: Answer) -> bool {
    matches!(answer, Answer::Nis(0.0))
}

/// Adds a direction whose answer is to be an expected one.
fn add(list: &mut List, measured: Vector, north: Vector, variance: f64, is_expected: fn(Answer) -> bool) {
    let mut noise = [0.0; 9];
    noise.iter_mut().step_by(4).for_each(|x| *x = variance);
    let answer = list.add((kinds::DIRECTION, [measured.as_slice(), &north, &noise].concat()));
    assert!(is_expected(answer), "measured {measured:?}, north {north:?}, variance {variance}: {answer:?}");
}

/// Adds a direction with a vector as what is measured, and one with it as north.
fn add_both(list: &mut List, vector: Vector, variance: f64, is_expected: fn(Answer) -> bool) {
    add(list, vector, NORTH, variance, is_expected);
    add(list, MEASURED, vector, variance, is_expected);
}

pub fn list() -> List {
    let mut list = List::new("limit_null", &filter(IDENTITY, 0.0, 1.0));
    NULL.iter().for_each(|vector| add_both(&mut list, *vector, VARIANCE, is_null));
    SHORT.iter().for_each(|vector| add_both(&mut list, *vector, VARIANCE, is_accepted));
    LONG.iter().for_each(|vector| add_both(&mut list, *vector, VARIANCE, is_zero));
    BLANK.iter().for_each(|vector| add_both(&mut list, *vector, VARIANCE, is_blank));
    add(&mut list, ZEROS, ZEROS, VARIANCE, is_null);
    add(&mut list, ZEROS, LONG[0], VARIANCE, is_null);
    // Before 7 stands 2, after it 4.
    add_both(&mut list, ZEROS, f64::INFINITY, is_blank);
    add_both(&mut list, ZEROS, NEGATIVE, is_null);
    add(&mut list, MEASURED, NORTH, NEGATIVE, is_pivot);
    add(&mut list, MEASURED, NORTH, VARIANCE, is_accepted);
    list
}
