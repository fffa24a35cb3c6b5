//! Updates by one measured number: their bits, by hand and against a general update, and their refusals.
use super::*;
use crate::places::{coordinate, scalar};

/// A measurement of position's third coordinate.
fn down(innovation: f64, variance: f64) -> Scalar {
    let mut output = [0.0; STATES];
    output[coordinate::POSITION + 2] = -1.0;
    Scalar {
        output,
        innovation,
        variance,
    }
}

/// At the origin, with variance 0.02 on each coordinate.
fn doubtful() -> Filter {
    started(&State::default(), diagonal([0.02; STATES]))
}

/// The NIS is 0 + y ((y / l) / l) with l the root of the innovation's variance, the gain (c / l) / l with l the root of
/// the inflated one. A quotient by the variance itself has other bits here.
#[test]
fn bits_by_hand() {
    let (y, variance, sigma, alpha) = (0.07, 0.3, 0.02, 0.25);
    let mut filter = doubtful();
    filter.set_alphas(Alphas::all(alpha));
    let nis = filter.update_scalar(&down(y, variance).numbers()).unwrap();

    let solved = |x: f64, s: f64| x / s.sqrt() / s.sqrt();
    let raw = sigma + variance;
    assert_eq!(nis.to_bits(), (y * solved(y, raw)).to_bits());
    assert_ne!(nis.to_bits(), (y * y / raw).to_bits());

    let root = 1.0 + nis.sqrt();
    let beta = root * root / (1.0 + nis);
    let inflated = sigma * beta + y * y * (beta * alpha) + variance;
    let gain = solved(-sigma, inflated);
    assert_eq!(filter.position()[2].to_bits(), (gain * y).to_bits());
    assert_ne!((gain * y).to_bits(), (-sigma / inflated * y).to_bits());
}

/// A general update with the same row among two rows of zeros, and 1 on the unused diagonal of its noise.
#[test]
fn as_a_general_update_with_rows_of_zeros() {
    let (innovation, variance) = (0.07, 0.3);
    let row = core::array::from_fn(|i| 0.1 * i as f64 - 1.0);
    let first = started(&moving(), diagonal([0.02; STATES]));
    let mut alone = first.clone();
    let seen = Scalar {
        output: row,
        innovation,
        variance,
    };
    let nis = alone.update_scalar(&seen.numbers()).unwrap();
    assert_ne!(alone, first);
    for used in 0..3 {
        let mut seen = General {
            output: [[0.0; STATES]; 3],
            innovation: [0.0; 3],
            noise: diagonal([1.0; 3]),
        };
        seen.output[used] = row;
        seen.innovation[used] = innovation;
        seen.noise[used][used] = variance;
        let mut among_zeros = first.clone();
        assert_eq!(among_zeros.update(&seen.numbers()), Ok(nis));
        assert_eq!(among_zeros, alone);
    }
}

#[track_caller]
fn assert_refused(first: &Filter, numbers: &[f64; SCALAR_LENGTH], refusal: Refusal) {
    let mut filter = first.clone();
    assert_eq!(filter.update_scalar(numbers), Err(refusal));
    assert_eq!(filter, *first);
}

#[test]
fn blanks_are_refused() {
    for place in 0..SCALAR_LENGTH {
        for x in [f64::NAN, f64::INFINITY, f64::NEG_INFINITY] {
            let mut numbers = down(0.1, 1.0).numbers();
            numbers[place] = x;
            assert_refused(&doubtful(), &numbers, Refusal::Blank);
        }
    }
}

/// It is the innovation's variance that must be above 0: the filter's, 0.02 or 0, and the measurement's.
#[test]
fn variances_that_are_not_above_zero_are_refused() {
    assert_refused(&doubtful(), &down(0.0, -0.02).numbers(), Refusal::Pivot);
    assert_refused(&doubtful(), &down(0.0, -1.0).numbers(), Refusal::Pivot);
    assert_refused(&whole_case(), &down(0.0, 0.0).numbers(), Refusal::Pivot);
    assert!(doubtful()
        .update_scalar(&down(0.0, -0.01).numbers())
        .is_ok());
    assert!(whole_case()
        .update_scalar(&down(0.0, 1.0).numbers())
        .is_ok());
}

/// The inflated variance overflows, the raw one does not.
#[test]
fn an_inflated_variance_that_overflows_is_refused() {
    assert_refused(&doubtful(), &down(1e200, 1.0).numbers(), Refusal::Pivot);
}

/// A correction of the attitude by more than 8 rad. At alpha 0 the gain is -0.02 / 0.04 where all else is zero.
#[test]
fn turns_above_8_are_refused() {
    let mut filter = doubtful();
    filter.set_alphas(Alphas::all(0.0));
    let turning = |innovation| {
        let mut numbers = [0.0; SCALAR_LENGTH];
        numbers[scalar::OUTPUT + coordinate::ATTITUDE] = -1.0;
        numbers[scalar::INNOVATION] = innovation;
        numbers
    };
    assert!(filter.clone().update_scalar(&turning(15.9)).is_ok());
    assert_refused(&filter, &turning(16.1), Refusal::Turn);
}

/// The NIS overflows.
#[test]
fn a_result_out_of_range_is_refused() {
    let mut filter = whole_case();
    filter.set_alphas(Alphas::all(0.0));
    assert_refused(&filter, &down(1e150, 1e-20).numbers(), Refusal::Range);
}

/// A run of another length for the NIS, and a refused update: what was there stays.
#[test]
fn the_nis_run() {
    let mut filter = doubtful();
    let call = down(0.1, 1.0).numbers();
    let mut two = [7.0, 7.0];
    assert_eq!(exported::update_scalar(&mut filter.0, &call, &mut []), 1);
    assert_eq!(exported::update_scalar(&mut filter.0, &call, &mut two), 1);
    assert_eq!(two, [7.0, 7.0]);
    let mut one = [7.0];
    let refused = down(0.1, -1.0).numbers();
    assert_eq!(
        exported::update_scalar(&mut filter.0, &refused, &mut one),
        4
    );
    assert_eq!(one, [7.0]);
    assert_eq!(filter, doubtful());
}
