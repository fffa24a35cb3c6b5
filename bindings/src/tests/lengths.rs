//! Lengths, places and kinds, by their numbers.
use super::*;
use std::format;

#[test]
fn lengths() {
    assert_eq!(FILTER_LENGTH, 480);
    assert_eq!(ONE_ALPHA_LENGTH, 478);
    assert_eq!(STATE_LENGTH, 33);
    assert_eq!(START_LENGTH, 477);
    assert_eq!(PROPAGATE_LENGTH, 25);
    assert_eq!(POSITION_LENGTH, 12);
    assert_eq!(VELOCITY_LENGTH, 15);
    assert_eq!(DIRECTION_LENGTH, 15);
    assert_eq!(UPDATE_LENGTH, 75);
    assert_eq!(SCALAR_LENGTH, 23);
    assert_eq!([READING_LENGTH, MOST_READINGS], [3, 8]);
    assert_eq!(COMPASSES_LENGTH, 12);
    assert_eq!(TEXT_LENGTH, 5865);
}

#[test]
fn places_of_a_filter() {
    use places::filter::*;
    let all = [A, VELOCITY, POSITION, GAMMA, DELTA, E, SIGMA, GRAVITY];
    assert_eq!(all, [0, 9, 12, 15, 21, 24, 33, 474]);
    assert_eq!(
        [POSITION_ALPHA, VELOCITY_ALPHA, DIRECTION_ALPHA],
        [477, 478, 479]
    );
    assert_eq!(places::one_alpha::ALPHA, 477);
}

#[test]
fn places_of_a_state_and_a_start() {
    use places::state::*;
    let all = [
        ATTITUDE, VELOCITY, POSITION, GYRO_BIAS, ACCEL_BIAS, LEVER, MAG,
    ];
    assert_eq!(all, [0, 9, 12, 15, 18, 21, 24]);
    use places::start::*;
    assert_eq!([STATE, SIGMA, GRAVITY], [0, 33, 474]);
}

#[test]
fn places_of_a_propagation() {
    use places::propagate::*;
    assert_eq!([OMEGA, ACCEL, DT], [0, 3, 6]);
    assert_eq!([GYRO_DENSITY, ACCEL_DENSITY], [7, 10]);
    assert_eq!([GYRO_BIAS_DENSITY, ACCEL_BIAS_DENSITY], [13, 16]);
    assert_eq!([LEVER_DENSITY, MAG_DENSITY], [19, 22]);
}

#[test]
fn places_of_the_updates() {
    assert_eq!([places::position::ANTENNA, places::position::NOISE], [0, 3]);
    use places::velocity;
    assert_eq!(
        [velocity::ANTENNA, velocity::OMEGA, velocity::NOISE],
        [0, 3, 6]
    );
    use places::direction;
    assert_eq!(
        [direction::MEASURED, direction::NORTH, direction::NOISE],
        [0, 3, 6]
    );
    use places::update;
    assert_eq!(
        [update::OUTPUT, update::INNOVATION, update::NOISE],
        [0, 63, 66]
    );
    use places::scalar;
    assert_eq!(
        [scalar::OUTPUT, scalar::INNOVATION, scalar::VARIANCE],
        [0, 21, 22]
    );
    use places::compasses;
    assert_eq!([compasses::NORTH, compasses::NOISE], [0, 3]);
}

#[test]
fn coordinates() {
    use places::coordinate::*;
    let all = [
        ATTITUDE, VELOCITY, POSITION, GYRO_BIAS, ACCEL_BIAS, LEVER, MAG,
    ];
    assert_eq!(all, [0, 3, 6, 9, 12, 15, 18]);
}

#[test]
fn kinds() {
    use kind::*;
    let all = [
        FILTER, PROPAGATE, POSITION, VELOCITY, DIRECTION, GENERAL, STATE, SCALAR,
    ];
    assert_eq!(all, [0, 1, 2, 3, 4, 5, 6, 7]);
}

/// The crate and the header are of one version.
#[test]
fn version() {
    let header = include_str!("../../../include/drifters_eqf.h");
    assert!(header.contains(&format!("#define DRIFTERS_VERSION \"{VERSION}\"\n")));
}
