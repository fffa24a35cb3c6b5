//! The first covariance, against known entries and against differences of filters that the library starts.
use super::*;
use crate::deviations::coordinates;
use crate::places::coordinate::{ATTITUDE, MAG};
use crate::runs::{matrix, put, vector};

fn some() -> Deviations {
    Deviations {
        attitude: [0.1, 0.2, 0.3],
        velocity: [0.4, 0.5, 0.6],
        position: [2.0, 3.0, 4.0],
        gyro_bias: [0.01, 0.02, 0.03],
        accel_bias: [0.04, 0.05, 0.06],
        lever: [0.07, 0.08, 0.09],
        mag: [0.15, 0.25, 0.35],
    }
}

/// The deviations in the order of the coordinates.
fn listed(d: &Deviations) -> [[f64; 3]; 7] {
    [
        d.attitude,
        d.velocity,
        d.position,
        d.gyro_bias,
        d.accel_bias,
        d.lever,
        d.mag,
    ]
}

#[test]
fn symmetric() {
    let sigma = some().sigma(&moving());
    for (i, row) in sigma.iter().enumerate() {
        for (j, entry) in row.iter().enumerate() {
            assert_eq!(*entry, sigma[j][i]);
        }
    }
}

/// At rest at the origin the squares stand on the diagonal; only the calibration goes with the attitude.
#[test]
fn at_rest_at_the_origin() {
    let d = some();
    let mut expected = [[0.0; STATES]; STATES];
    for (k, x) in listed(&d).as_flattened().iter().enumerate() {
        expected[k][k] = x * x;
    }
    for (i, x) in d.attitude.iter().enumerate() {
        expected[MAG + i][MAG + i] += x * x;
        expected[MAG + i][ATTITUDE + i] = x * x;
        expected[ATTITUDE + i][MAG + i] = x * x;
    }
    let sigma = d.sigma(&State::default());
    assert_close(sigma.as_flattened(), expected.as_flattened(), 1e-15);
}

/// The k-th of the d's, of size h.
fn error(k: usize, h: f64) -> [[f64; 3]; 7] {
    let mut error = [[0.0; 3]; 7];
    error[k / 3][k % 3] = h;
    error
}

/// The truth where an estimate is wrong by these d's.
fn truth(estimate: &State, d: [[f64; 3]; 7]) -> State {
    State {
        attitude: product(turn(d[0]), estimate.attitude),
        velocity: plus(estimate.velocity, d[1]),
        position: plus(estimate.position, d[2]),
        gyro_bias: plus(estimate.gyro_bias, d[3]),
        accel_bias: plus(estimate.accel_bias, d[4]),
        lever: plus(estimate.lever, d[5]),
        mag: product(turn(d[6]), estimate.mag),
    }
}

/// The rotation vector of a small rotation, to first order.
fn small_turn(r: [[f64; 3]; 3]) -> [f64; 3] {
    [r[2][1] - r[1][2], r[0][2] - r[2][0], r[1][0] - r[0][1]].map(|x| x / 2.0)
}

/// The coordinates of Z = Q X^-1, to first order, from the numbers of the filters Q and X.
fn difference(q: &Filter, x: &Filter) -> [f64; STATES] {
    use crate::places::coordinate::*;
    let part = |f: &Filter, at: usize| vector(&f.0, at);
    let a = product(q.attitude(), transposed(x.attitude()));
    let e = product(matrix(&q.0, filter::E), transposed(matrix(&x.0, filter::E)));
    let v = minus(q.velocity(), times(a, x.velocity()));
    let omega = times(a, part(x, filter::GAMMA));
    let nu = plus(times(a, part(x, filter::GAMMA + 3)), cross(v, omega));
    let delta = times(a, part(x, filter::DELTA));
    let mut z = [0.0; STATES];
    put(&mut z, ATTITUDE, &small_turn(a));
    put(&mut z, VELOCITY, &v);
    put(
        &mut z,
        POSITION,
        &minus(q.position(), times(a, x.position())),
    );
    put(&mut z, GYRO_BIAS, &minus(part(q, filter::GAMMA), omega));
    put(&mut z, ACCEL_BIAS, &minus(part(q, filter::GAMMA + 3), nu));
    put(&mut z, LEVER, &minus(part(q, filter::DELTA), delta));
    put(&mut z, MAG, &small_turn(e));
    z
}

/// The derivative of the coordinates in the k-th of the d's, by differences to both sides.
fn column(k: usize, estimate: &State) -> [f64; STATES] {
    let h = 1e-4;
    let start = |state: &State| started(state, diagonal([0.0; STATES]));
    let x = start(estimate);
    let at = |h: f64| difference(&start(&truth(estimate, error(k, h))), &x);
    let (above, below) = (at(h), at(-h));
    core::array::from_fn(|i| (above[i] - below[i]) / (2.0 * h))
}

/// Each column of J, and J P J^T of these columns.
#[test]
fn as_the_library_has_it() {
    let d = some();
    let mut expected = [[0.0; STATES]; STATES];
    for (k, deviation) in listed(&d).as_flattened().iter().enumerate() {
        let column = column(k, &moving());
        assert_close(&coordinates(&error(k, 1.0), &moving()), &column, 1e-6);
        for i in 0..STATES {
            for j in 0..STATES {
                expected[i][j] += deviation * deviation * column[i] * column[j];
            }
        }
    }
    let sigma = d.sigma(&moving());
    assert_close(sigma.as_flattened(), expected.as_flattened(), 1e-5);
}
