//! The numbers of each named input: each part holds its own places, so that the whole counts up from 0.
use super::*;

/// 0, 1, 2 and so on.
fn counting<const N: usize>() -> [f64; N] {
    counting_from(0)
}

fn counting_from<const N: usize>(first: usize) -> [f64; N] {
    core::array::from_fn(|i| (first + i) as f64)
}

fn rows_from<const ROWS: usize, const COLUMNS: usize>(first: usize) -> [[f64; COLUMNS]; ROWS] {
    core::array::from_fn(|row| counting_from(first + row * COLUMNS))
}

fn counting_state() -> State {
    State {
        attitude: rows_from(0),
        velocity: counting_from(9),
        position: counting_from(12),
        gyro_bias: counting_from(15),
        accel_bias: counting_from(18),
        lever: counting_from(21),
        mag: rows_from(24),
    }
}

#[test]
fn numbers_of_a_state() {
    assert_eq!(counting_state().numbers(), counting());
    assert_eq!(State::from_numbers(&counting()), counting_state());
}

#[test]
fn numbers_of_a_start() {
    let start = Start {
        state: counting_state(),
        sigma: rows_from(33),
        gravity: counting_from(474),
    };
    assert_eq!(start.numbers(), counting());
}

#[test]
fn numbers_of_a_propagation() {
    let imu = Imu {
        omega: counting_from(0),
        accel: counting_from(3),
        dt: 6.0,
    };
    let densities = Densities {
        gyro: counting_from(7),
        accel: counting_from(10),
        gyro_bias: counting_from(13),
        accel_bias: counting_from(16),
        lever: counting_from(19),
        mag: counting_from(22),
    };
    assert_eq!(imu.numbers(&densities), counting());
}

#[test]
fn numbers_of_the_updates() {
    let fix = Fix {
        antenna: counting_from(0),
        noise: rows_from(3),
    };
    assert_eq!(fix.numbers(), counting());
    let fix = VelocityFix {
        antenna: counting_from(0),
        omega: counting_from(3),
        noise: rows_from(6),
    };
    assert_eq!(fix.numbers(), counting());
    let field = Direction {
        measured: counting_from(0),
        north: counting_from(3),
        noise: rows_from(6),
    };
    assert_eq!(field.numbers(), counting());
    let compasses = Compasses {
        north: counting_from(0),
        noise: rows_from(3),
    };
    assert_eq!(compasses.numbers(), counting());
    let seen = General {
        output: rows_from(0),
        innovation: counting_from(63),
        noise: rows_from(66),
    };
    assert_eq!(seen.numbers(), counting());
    let seen = Scalar {
        output: counting_from(0),
        innovation: 21.0,
        variance: 22.0,
    };
    assert_eq!(seen.numbers(), counting());
}

#[test]
fn defaults() {
    let mut level = [0.0; STATE_LENGTH];
    level[..9].copy_from_slice(&IDENTITY);
    level[24..].copy_from_slice(&IDENTITY);
    assert_eq!(State::default().numbers(), level);
    let still = Imu {
        omega: [0.0; 3],
        accel: [0.0; 3],
        dt: 0.0,
    };
    assert_eq!(
        still.numbers(&Densities::default()),
        [0.0; PROPAGATE_LENGTH]
    );
    assert_eq!(
        Deviations::default().sigma(&moving()),
        [[0.0; STATES]; STATES]
    );
}

#[test]
fn diagonals() {
    assert_eq!(diagonal([1.0; 3]).as_flattened(), IDENTITY);
    assert_eq!(diagonal([1.0, 2.0, 3.0])[1], [0.0, 2.0, 0.0]);
}
