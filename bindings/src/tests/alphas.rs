//! An alpha for each sensor: which call takes which, how it is taken, and that no call changes one.
use super::all_calls::{calls, refused_calls};
use super::*;

/// The places of the alphas.
const PLACES: [usize; 3] = [
    filter::POSITION_ALPHA,
    filter::VELOCITY_ALPHA,
    filter::DIRECTION_ALPHA,
];

/// A turned filter with these alphas, in the order of their places.
fn filter_with([position, velocity, direction]: [f64; 3]) -> Filter {
    let mut filter = started(&moving(), diagonal([0.02; STATES]));
    filter.set_alphas(Alphas {
        position,
        velocity,
        direction,
    });
    filter
}

#[test]
fn a_start_sets_each_to_a_half() {
    let filter = started(&moving(), diagonal([0.02; STATES]));
    assert_eq!(filter.alphas(), Alphas::all(0.5));
    assert_eq!(filter, filter_with([0.5; 3]));
}

#[test]
fn they_are_stored_at_their_places() {
    let mut filter = filter_with([0.5; 3]);
    filter.set_alphas(Alphas {
        position: -3.0,
        velocity: f64::INFINITY,
        direction: -0.0,
    });
    let mut expected = filter_with([0.5; 3]).0;
    expected[477..].copy_from_slice(&[-3.0, f64::INFINITY, -0.0]);
    assert_eq!(bits(&filter.0), bits(&expected));
    let alphas = filter.alphas();
    assert_eq!(
        bits(&[alphas.position, alphas.velocity, alphas.direction]),
        bits(&expected[477..])
    );
}

/// A filter with an alpha for each sensor does as one whose three alphas are the one that the call takes, to the last
/// bit, and not as one whose three are another of them.
#[test]
fn each_call_takes_its_own() {
    let alphas = [0.05, 0.3, 0.8];
    for call in calls(0.7) {
        let mut filter = filter_with(alphas);
        let answer = call.on(&mut filter.0);
        assert_eq!(answer.0, call.code, "{}", call.name);
        let left = bits(&filter.0[..filter::POSITION_ALPHA]);
        for (place, alpha) in PLACES.into_iter().zip(alphas) {
            let mut equal = filter_with([alpha; 3]);
            assert_eq!(call.on(&mut equal.0), answer, "{}", call.name);
            let as_left = bits(&equal.0[..filter::POSITION_ALPHA]) == left;
            let taken = call.alpha.map_or(true, |own| own == place);
            assert_eq!(as_left, taken, "{}, the alpha at {place}", call.name);
        }
    }
}

/// Accepted or refused; out of 0 to 1, or a zero with a sign, they are kept as they are.
#[test]
fn no_call_changes_them() {
    for alphas in [[0.05, 0.3, 0.8], [-3.0, -0.0, 7.0], [7.0, 5e-324, 0.0]] {
        for call in calls(0.7).into_iter().chain(refused_calls()) {
            let mut filter = filter_with(alphas);
            assert_eq!(call.on(&mut filter.0).0, call.code, "{}", call.name);
            let left = bits(&filter.0[filter::POSITION_ALPHA..]);
            assert_eq!(left, bits(&alphas), "{}", call.name);
        }
    }
}

/// Each is taken as 0 where it is below, and as 1 where it is above.
#[test]
fn they_are_clamped() {
    for (alpha, taken) in [(-3.0, 0.0), (-0.0, 0.0), (7.0, 1.0)] {
        for call in calls(0.7) {
            let (mut given, mut clamped) = (filter_with([alpha; 3]), filter_with([taken; 3]));
            let answer = call.on(&mut given.0);
            assert_eq!(answer, call.on(&mut clamped.0), "{}", call.name);
            clamped.set_alphas(Alphas::all(alpha));
            assert_eq!(bits(&given.0), bits(&clamped.0), "{}", call.name);
        }
    }
}

/// One that is not finite is refused by every call, be it that the call takes another or none.
#[test]
fn one_that_is_not_finite_is_refused() {
    for alpha in [f64::NAN, f64::INFINITY, f64::NEG_INFINITY] {
        for place in PLACES {
            for call in calls(0.7) {
                let mut filter = filter_with([0.5; 3]);
                filter.0[place] = alpha;
                let before = bits(&filter.0);
                assert_eq!(call.on(&mut filter.0).0, 2, "{}", call.name);
                assert_eq!(bits(&filter.0), before, "{}", call.name);
            }
        }
    }
}

/// At the origin, an antenna position 10 m off, some 60 standard deviations: the projected variance 0.02 is doubled, and
/// twice alpha times the squared innovation is added to it.
#[test]
fn alpha_weighs_surprises() {
    for alpha in [0.0, 0.5, 1.0] {
        let mut filter = started(&State::default(), diagonal([0.01; STATES]));
        filter.set_alphas(Alphas::all(alpha));
        let nis = filter.update_position(&position(10.0, 0.01)).unwrap();
        assert_close(&[nis], &[10.0 * 10.0 / 0.03], 1e-9);
        let expected = 10.0 * 0.01 / (2.0 * 0.02 + 2.0 * alpha * 10.0 * 10.0 + 0.01);
        assert_close(&[filter.position()[0]], &[expected], 1e-12);
    }
}
