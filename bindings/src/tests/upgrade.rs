//! A filter with one alpha, changed over to one with an alpha for each sensor, and back.
use super::all_calls::{calls, refused_calls};
use super::*;
use std::vec;

const ALPHA: usize = places::one_alpha::ALPHA;

/// The numbers of a filter with one alpha. No two are alike but for the alpha; among them are zeros of both signs, the
/// largest number and the smallest in size. Whether they mean something does not matter.
fn one_alpha(alpha: f64) -> [f64; ONE_ALPHA_LENGTH] {
    let mut run = core::array::from_fn(|i| 1.0 / (i as f64 - 200.5));
    run[..4].copy_from_slice(&[0.0, -0.0, f64::MAX, -5e-324]);
    run[ALPHA] = alpha;
    run
}

/// The same with an alpha for each sensor.
fn three_alphas(alphas: [f64; 3]) -> [f64; FILTER_LENGTH] {
    let mut run = [0.0; FILTER_LENGTH];
    run[..ALPHA].copy_from_slice(&one_alpha(0.0)[..ALPHA]);
    run[ALPHA..].copy_from_slice(&alphas);
    run
}

/// What a run that is only written may hold before.
const BEFORE: [f64; 4] = [0.0, 7.0, f64::NAN, f64::NEG_INFINITY];

/// Zeros of both signs, and alphas inside of 0 to 1 and outside.
const ALPHA_VALUES: [f64; 6] = [0.0, -0.0, 0.3, -3.0, 5e-324, f64::MAX];

#[test]
fn the_alpha_is_copied() {
    for alpha in ALPHA_VALUES {
        let expected = bits(&three_alphas([alpha; 3]));
        for x in BEFORE {
            let (run, mut written) = (one_alpha(alpha), [x; FILTER_LENGTH]);
            assert_eq!(exported::upgrade(&run, &mut written), 0);
            assert_eq!(bits(&written), expected);
            assert_eq!(bits(&run), bits(&one_alpha(alpha)));
        }
    }
}

#[test]
fn equal_alphas_become_one() {
    for alpha in ALPHA_VALUES {
        let expected = bits(&one_alpha(alpha));
        for x in BEFORE {
            let (run, mut written) = (three_alphas([alpha; 3]), [x; ONE_ALPHA_LENGTH]);
            assert_eq!(exported::downgrade(&run, &mut written), 0);
            assert_eq!(bits(&written), expected);
            assert_eq!(bits(&run), bits(&three_alphas([alpha; 3])));
        }
    }
}

/// The forms of the crate.
#[test]
fn by_arrays_and_by_slices() {
    let (old, new) = (one_alpha(0.3), Filter(three_alphas([0.3; 3])));
    assert_eq!(Filter::upgrade(&old), Ok(new.clone()));
    assert_eq!(Filter::upgrade_slice(&old), Ok(new.clone()));
    assert_eq!(new.downgrade(), Ok(old));
    let mut written = [7.0; ONE_ALPHA_LENGTH];
    assert_eq!(new.downgrade_slice(&mut written), Ok(()));
    assert_eq!(written, old);
    for n in [477, 479, 480] {
        let run = vec![0.5; n];
        assert_eq!(Filter::upgrade_slice(&run), Err(Refusal::Length));
        let mut written = vec![7.0; n];
        assert_eq!(new.downgrade_slice(&mut written), Err(Refusal::Length));
        assert!(written.iter().all(|&x| x == 7.0));
    }
    let unequal = Filter(three_alphas([0.3, 0.3, 0.4]));
    assert_eq!(unequal.downgrade(), Err(Refusal::Unequal));
    assert_eq!(unequal.downgrade_slice(&mut written), Err(Refusal::Unequal));
    assert_eq!(written, old);
    let blank = one_alpha(f64::NAN);
    assert_eq!(Filter::upgrade(&blank), Err(Refusal::Blank));
    assert_eq!(Filter::upgrade_slice(&blank), Err(Refusal::Blank));
}

/// A conversion by its exported function: of a run that is read to one that is written.
type Conversion = fn(&[f64], &mut [f64]) -> u32;

const CONVERSIONS: [Conversion; 2] = [exported::upgrade, exported::downgrade];

/// The code of a conversion that changes neither run.
#[track_caller]
fn refused(by: Conversion, read: &[f64], written: &mut [f64]) -> u32 {
    let before = (bits(read), bits(written));
    let code = by(read, written);
    assert_eq!((bits(read), bits(written)), before);
    code
}

/// Of all lengths about the two, one pair is taken. Another is refused by 1, be it that a number is blank, or that the
/// alphas are unequal too.
#[test]
fn lengths_come_first() {
    for (by, stated) in CONVERSIONS.into_iter().zip([
        (ONE_ALPHA_LENGTH, FILTER_LENGTH),
        (FILTER_LENGTH, ONE_ALPHA_LENGTH),
    ]) {
        for read in 477..=481 {
            for written in 477..=481 {
                let mut room = vec![7.0; written];
                if (read, written) == stated {
                    assert_eq!(by(&vec![0.5; read], &mut room), 0);
                    assert!(room.iter().all(|&x| x == 0.5));
                    continue;
                }
                let mut numbers = vec![0.5; read];
                for x in [0.5, -0.0, f64::NAN] {
                    numbers[read - 1] = x;
                    let code = refused(by, &numbers, &mut room);
                    assert_eq!(code, 1, "{x}: {read} numbers to {written}");
                }
            }
        }
        assert_eq!(refused(by, &[], &mut []), 1);
    }
}

/// Wherever a number is not finite that is read; and before unequal alphas are.
#[test]
fn blanks_come_before_unequal() {
    for x in [f64::NAN, f64::INFINITY, f64::NEG_INFINITY] {
        for place in 0..ONE_ALPHA_LENGTH {
            let mut run = one_alpha(0.5);
            run[place] = x;
            let mut written = [7.0; FILTER_LENGTH];
            assert_eq!(refused(exported::upgrade, &run, &mut written), 2);
        }
        for place in 0..FILTER_LENGTH {
            for alphas in [[0.5; 3], [0.1, 0.2, 0.3]] {
                let mut run = three_alphas(alphas);
                run[place] = x;
                let mut written = [7.0; ONE_ALPHA_LENGTH];
                assert_eq!(refused(exported::downgrade, &run, &mut written), 2);
            }
        }
        let mut written = [7.0; ONE_ALPHA_LENGTH];
        let run = three_alphas([x; 3]);
        assert_eq!(refused(exported::downgrade, &run, &mut written), 2);
    }
}

/// One alpha that differs in its last bit, or a zero in its sign, is enough, wherever it stands.
#[test]
fn unequal_alphas_are_refused() {
    let above = f64::from_bits(0.5_f64.to_bits() + 1);
    for (a, b) in [
        (0.5, above),
        (0.0, -0.0),
        (0.0, 5e-324),
        (-3.0, 0.0),
        (1.0, 7.0),
    ] {
        for (a, b) in [(a, b), (b, a)] {
            for alphas in [[a, b, b], [b, a, b], [b, b, a]] {
                for x in BEFORE {
                    let mut written = [x; ONE_ALPHA_LENGTH];
                    let run = three_alphas(alphas);
                    let code = refused(exported::downgrade, &run, &mut written);
                    assert_eq!(code, 8, "{alphas:?}");
                }
            }
        }
    }
}

/// The filter as it is after changing back and over.
fn changed_back_and_over(filter: &Filter) -> Filter {
    Filter::upgrade(&filter.downgrade().unwrap()).unwrap()
}

/// A flight of calls of all kinds, several compasses and refused calls among them, whose filter is changed back and over
/// after each call.
#[test]
fn back_and_over_after_each_call_of_a_flight_keeps_the_bits() {
    for alpha in [0.0, -0.0, 0.01, 0.5, 7.0] {
        let mut filter = started(&moving(), diagonal([0.02; STATES]));
        filter.set_alphas(Alphas::all(alpha));
        let calls = [calls(0.7), refused_calls(), calls(-0.4)];
        for call in calls.into_iter().flatten() {
            assert_eq!(call.on(&mut filter.0).0, call.code, "{}", call.name);
            let before = bits(&filter.0);
            filter = changed_back_and_over(&filter);
            assert_eq!(bits(&filter.0), before, "{}", call.name);
        }
    }
}
