//! The parts that are read from a filter.
use super::*;
use std::panic::catch_unwind;

/// A filter whose numbers count up from 0.
fn counting() -> Filter {
    Filter(core::array::from_fn(|i| i as f64))
}

#[test]
fn parts_by_their_places() {
    let filter = counting();
    assert_eq!(
        filter.attitude(),
        [[0.0, 1.0, 2.0], [3.0, 4.0, 5.0], [6.0, 7.0, 8.0]]
    );
    assert_eq!(filter.velocity(), [9.0, 10.0, 11.0]);
    assert_eq!(filter.position(), [12.0, 13.0, 14.0]);
    assert_eq!(filter.sigma()[..], filter.0[33..474]);
    assert_eq!(filter.gravity(), [474.0, 475.0, 476.0]);
    let alphas = Alphas {
        position: 477.0,
        velocity: 478.0,
        direction: 479.0,
    };
    assert_eq!(filter.alphas(), alphas);
}

#[test]
fn entries_of_sigma() {
    let filter = counting();
    assert_eq!(filter.sigma_at(0, 0), 33.0);
    assert_eq!(filter.sigma_at(0, 20), 53.0);
    assert_eq!(filter.sigma_at(1, 0), 54.0);
    assert_eq!(filter.sigma_at(20, 20), 473.0);
    for (row, column) in [(0, 21), (21, 0), (usize::MAX, 0)] {
        assert!(catch_unwind(|| counting().sigma_at(row, column)).is_err());
    }
}

/// Attitude, velocity and position are the estimate's; gamma, delta and E are not its biases, lever arm and
/// calibration.
#[test]
fn parts_are_the_estimate() {
    let filter = started(&moving(), diagonal([0.01; STATES]));
    let estimate = filter.nav_state().unwrap();
    assert_eq!(filter.attitude(), estimate.attitude);
    assert_eq!(filter.velocity(), estimate.velocity);
    assert_eq!(filter.position(), estimate.position);
    let same = |place: usize, part: &[f64]| filter.0[place..place + part.len()] == *part;
    assert!(!same(filter::GAMMA, &estimate.gyro_bias));
    assert!(!same(filter::GAMMA + 3, &estimate.accel_bias));
    assert!(!same(filter::DELTA, &estimate.lever));
    assert!(!same(filter::E, estimate.mag.as_flattened()));
    assert_eq!(filter.gravity(), [0.0, 0.0, 9.81]);
    assert_eq!(filter.alphas(), Alphas::all(0.5));
}
