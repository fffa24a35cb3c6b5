//! The numbers of a scalar update in a log: an output row, an innovation and a variance.
use crate::log::{axis, near, Manner, Parts};
use crate::Numbers;
use drifters_core::math::Matrix;
use original::places::{GRAVITY, SCALAR_INNOVATION, SIGMA};

type Row = [f64; SCALAR_INNOVATION];

/// Adds the numbers of a scalar update. `run` is a filter that it may meet.
pub fn scalar(n: &mut Numbers, manner: Manner, run: &[f64], parts: &mut Parts) {
    match manner {
        Manner::Turning => return turning(n, parts),
        Manner::Scaled if n.one_in(4) => return largest_nis(n, parts),
        _ => {}
    }
    let row = row(n);
    parts.matrix(n, &row);
    let size = n.one_of(&[1.0, 1.0, 1.0, 30.0, 0.0]);
    parts.vector(n, 1, size);
    let variance = variance(n, manner, &row, run);
    parts.matrix(n, &[variance]);
}

/// A row of zeros of both signs.
fn zeros(n: &mut Numbers) -> Row {
    core::array::from_fn(|_| n.one_of(&[0.0, -0.0]))
}

/// An output row: of zeros, with one entry, or dense.
fn row(n: &mut Numbers) -> Row {
    match n.below(8) {
        0 => zeros(n),
        1 | 2 => {
            let mut row = zeros(n);
            row[n.below(SCALAR_INNOVATION)] = n.one_of(&[1.0, -1.0, 0.3, 1e-170, 1e-310]);
            row
        }
        _ => n.withins(1.0),
    }
}

/// A variance: zero, negative, hardly positive, at which the variance of the innovation is 0 or beside it, or of ordinary size.
fn variance(n: &mut Numbers, manner: Manner, row: &Row, run: &[f64]) -> f64 {
    match n.below(if manner == Manner::Singular { 4 } else { 24 }) {
        0 => n.one_of(&[0.0, -0.0, -1.0, 1e-300, 1e-320, 5e-324, -5e-324]),
        1 | 2 => {
            let zero = -projected(row, run);
            n.one_of(&[zero, zero.next_up(), zero.next_down()])
        }
        _ => n.unit() + n.one_of(&[0.1, 1e-3, 10.0]),
    }
}

/// What a row sees of the covariance of a filter.
fn projected(row: &Row, run: &[f64]) -> f64 {
    let row = Matrix::from_rows([*row]);
    let mut sigma = Matrix::<SCALAR_INNOVATION, SCALAR_INNOVATION>::zeros();
    sigma.data.as_flattened_mut().copy_from_slice(&run[SIGMA..GRAVITY]);
    row.matmul(&sigma).mul_transpose(&row)[(0, 0)]
}

/// With the covariance 2 I, no variance and alpha 0 the gain is half of a row of norm 1: an innovation of 16 corrects by a turn of 8.
fn turning(n: &mut Numbers, parts: &mut Parts) {
    let mut row = [0.0; SCALAR_INNOVATION];
    let at = n.one_of(&[0, 18]);
    row[at..at + 3].copy_from_slice(&axis(n).to_array());
    let innovation = near(n, 16.0) * n.one_of(&[1.0, -1.0]);
    parts.numbers.extend(row);
    parts.numbers.extend([innovation, 0.0]);
}

/// A NIS at the largest number and beside it: the root of the variance is a power of 2, and the row sees nothing. Where the variance is 1 the
/// square of the innovation overflows as the NIS does; where it is less the NIS alone does.
fn largest_nis(n: &mut Numbers, parts: &mut Parts) {
    let root = n.one_of(&[1.0, 0.5, 2f64.powi(-50), 2f64.powi(-300)]);
    let mut row = zeros(n);
    row[n.below(SCALAR_INNOVATION)] = n.one_of(&[0.0, 1e-200]);
    let innovation = near(n, f64::MAX.sqrt()) * root * n.one_of(&[1.0, -1.0]);
    parts.numbers.extend(row);
    parts.numbers.extend([innovation, root * root]);
}
