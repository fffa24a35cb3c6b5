//! Frames and signs of the inputs, as their docs say them: at a turned, moving, displaced state, with the library.
use super::*;
use crate::places::coordinate;

const OMEGA: [f64; 3] = [0.3, -0.2, 0.5];

fn doubtful() -> Filter {
    started(&moving(), diagonal([0.01; STATES]))
}

/// R' = R (omega - gyro_bias)^, v' = R (accel - accel_bias) + gravity, p' = v.
#[test]
fn a_step_follows_the_equations() {
    let (dt, accel, state) = (1e-6, [0.5, 1.0, -9.0], moving());
    let mut filter = doubtful();
    let imu = Imu {
        omega: OMEGA,
        accel,
        dt,
    };
    filter
        .propagate(&imu.numbers(&Densities::default()))
        .unwrap();
    let rate = |after: [f64; 3], before| minus(after, before).map(|x| x / dt);

    let turned = minus(OMEGA, state.gyro_bias);
    let columns = transposed(state.attitude);
    let after = transposed(filter.attitude());
    for (j, unit) in diagonal([1.0; 3]).into_iter().enumerate() {
        let expected = times(state.attitude, cross(turned, unit));
        assert_close(&rate(after[j], columns[j]), &expected, 1e-4);
    }
    let pushed = times(state.attitude, minus(accel, state.accel_bias));
    let expected = plus(pushed, [0.0, 0.0, 9.81]);
    assert_close(&rate(filter.velocity(), state.velocity), &expected, 1e-4);
    assert_close(
        &rate(filter.position(), state.position),
        &state.velocity,
        1e-4,
    );
}

/// What the estimate predicts, p + R t, has no innovation; without the lever arm it has.
#[test]
fn position_is_that_of_the_antenna() {
    let state = moving();
    let nis = |antenna| {
        let fix = Fix {
            antenna,
            noise: diagonal([0.01; 3]),
        };
        doubtful().update_position(&fix.numbers()).unwrap()
    };
    assert!(nis(plus(state.position, times(state.attitude, state.lever))) < 1e-20);
    assert!(nis(state.position) > 1e-3);
}

/// v + R (omega x t), with omega as it is given.
#[test]
fn velocity_is_that_of_the_antenna() {
    let state = moving();
    let nis = |antenna| {
        let fix = VelocityFix {
            antenna,
            omega: OMEGA,
            noise: diagonal([0.01; 3]),
        };
        doubtful().update_velocity(&fix.numbers()).unwrap()
    };
    let swing = times(state.attitude, cross(OMEGA, state.lever));
    assert!(nis(plus(state.velocity, swing)) < 1e-20);
    assert!(nis(state.velocity) > 1e-3);
}

/// S^T R^T north, both of any length.
#[test]
fn direction_is_seen_by_the_compass() {
    let (state, north) = (moving(), [20.0, -1.0, 40.0]);
    let nis = |measured| {
        let field = Direction {
            measured,
            north,
            noise: diagonal([0.01; 3]),
        };
        doubtful().update_direction(&field.numbers()).unwrap()
    };
    let body = times(transposed(state.attitude), north);
    assert!(nis(times(transposed(state.mag), body)) < 1e-20);
    assert!(nis(body) > 1e-3);
}

/// A general update by the sensor's own position, p: predicted less measured, with its derivative -(d(p)) = -position
/// + p x attitude. To first order it does what an update by position does where the lever arm is known to be zero.
#[test]
fn a_general_update_is_predicted_less_measured() {
    let state = State {
        lever: [0.0; 3],
        ..moving()
    };
    let deviations = Deviations {
        attitude: [0.02; 3],
        velocity: [0.1; 3],
        position: [0.5; 3],
        ..Deviations::default()
    };
    let first = started(&state, deviations.sigma(&state));
    let off = [0.001, -0.002, 0.0015];
    let noise = diagonal([0.04; 3]);

    let mut output = [[0.0; STATES]; 3];
    for (j, unit) in diagonal([1.0; 3]).into_iter().enumerate() {
        let turned = cross(state.position, unit);
        for (i, row) in output.iter_mut().enumerate() {
            row[coordinate::ATTITUDE + j] = turned[i];
            row[coordinate::POSITION + j] = -unit[i];
        }
    }
    let (mut by_position, mut general) = (first.clone(), first.clone());
    let fix = Fix {
        antenna: plus(state.position, off),
        noise,
    };
    by_position.update_position(&fix.numbers()).unwrap();
    let seen = General {
        output,
        innovation: off.map(|x| -x),
        noise,
    };
    general.update(&seen.numbers()).unwrap();

    let moved = minus(general.position(), state.position);
    assert!(
        moved[0] > 0.0004 && moved[1] < -0.0008 && moved[2] > 0.0006,
        "{moved:?}"
    );
    assert_close(
        &general.0[..filter::SIGMA],
        &by_position.0[..filter::SIGMA],
        1e-6,
    );
}

/// The height of the sensor, as docs/MANUAL.md has its row, moves the filter as an update by position does that says
/// nothing of north and east, where the lever arm is known to be zero.
#[test]
fn a_height_is_the_third_axis_of_a_position() {
    let state = State {
        lever: [0.0; 3],
        ..moving()
    };
    let deviations = Deviations {
        attitude: [0.02; 3],
        velocity: [0.1; 3],
        position: [0.5; 3],
        ..Deviations::default()
    };
    let first = started(&state, deviations.sigma(&state));
    let (p, off, variance) = (state.position, 0.3, 0.04);

    let (mut by_height, mut by_position) = (first.clone(), first.clone());
    let mut output = [0.0; STATES];
    output[coordinate::ATTITUDE] = -p[1];
    output[coordinate::ATTITUDE + 1] = p[0];
    output[coordinate::POSITION + 2] = -1.0;
    let seen = Scalar {
        output,
        innovation: -off,
        variance,
    };
    let nis = by_height.update_scalar(&seen.numbers()).unwrap();
    let fix = Fix {
        antenna: plus(p, [0.0, 0.0, off]),
        noise: diagonal([1e12, 1e12, variance]),
    };
    let expected = by_position.update_position(&fix.numbers()).unwrap();

    assert_close(&[nis], &[expected], 1e-10);
    assert_close(&by_height.0, &by_position.0, 1e-10);
    let moved = minus(by_height.position(), p);
    assert!(moved[2] > 0.1 && moved[2] < off, "{moved:?}");
}

/// The covariance of turned axes that have these variances: R D R^T.
fn turned(r: [[f64; 3]; 3], variances: [f64; 3]) -> [[f64; 3]; 3] {
    product(product(r, diagonal(variances)), transposed(r))
}

/// Over a short step each density adds itself times dt to the covariance of its own coordinates, turned from its frame.
#[test]
fn densities_by_coordinate_and_frame() {
    let (dt, state, none, part) = (1e-6, moving(), Densities::default(), [2.0, 3.0, 4.0]);
    let (body, compass) = (state.attitude, product(state.attitude, state.mag));
    let cases = [
        (Densities { gyro: part, ..none }, coordinate::ATTITUDE, body),
        (
            Densities {
                accel: part,
                ..none
            },
            coordinate::VELOCITY,
            body,
        ),
        (
            Densities {
                gyro_bias: part,
                ..none
            },
            coordinate::GYRO_BIAS,
            body,
        ),
        (
            Densities {
                accel_bias: part,
                ..none
            },
            coordinate::ACCEL_BIAS,
            body,
        ),
        (
            Densities {
                lever: part,
                ..none
            },
            coordinate::LEVER,
            body,
        ),
        (Densities { mag: part, ..none }, coordinate::MAG, compass),
    ];
    for (densities, at, frame) in cases {
        let mut filter = started(&state, diagonal([0.0; STATES]));
        let imu = Imu {
            omega: OMEGA,
            accel: [0.5, 1.0, -9.0],
            dt,
        };
        filter.propagate(&imu.numbers(&densities)).unwrap();
        let added: [[f64; 3]; 3] = core::array::from_fn(|i| {
            core::array::from_fn(|j| filter.sigma_at(at + i, at + j) / dt)
        });
        assert_close(
            added.as_flattened(),
            turned(frame, part).as_flattened(),
            1e-4,
        );
    }
}
