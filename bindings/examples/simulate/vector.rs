//! Vectors and 3 by 3 matrices of the simulation.
use drifters_port::{diagonal, sin_cos, sqrt};
use std::array::from_fn;
use std::f64::consts::TAU;

pub type Vector = [f64; 3];
pub type Matrix = [[f64; 3]; 3];

pub fn sum(a: Vector, b: Vector) -> Vector {
    from_fn(|i| a[i] + b[i])
}

pub fn difference(a: Vector, b: Vector) -> Vector {
    from_fn(|i| a[i] - b[i])
}

pub fn cross(a: Vector, b: Vector) -> Vector {
    [
        a[1] * b[2] - a[2] * b[1],
        a[2] * b[0] - a[0] * b[2],
        a[0] * b[1] - a[1] * b[0],
    ]
}

pub fn dot(a: Vector, b: Vector) -> f64 {
    a[0] * b[0] + a[1] * b[1] + a[2] * b[2]
}

pub fn norm(a: Vector) -> f64 {
    sqrt(dot(a, a))
}

pub fn transpose(m: &Matrix) -> Matrix {
    from_fn(|i| from_fn(|j| m[j][i]))
}

pub fn rotate(m: &Matrix, v: Vector) -> Vector {
    m.map(|row| dot(row, v))
}

pub fn product(a: &Matrix, b: &Matrix) -> Matrix {
    let columns = transpose(b);
    a.map(|row| columns.map(|column| dot(row, column)))
}

/// Sine and cosine of any angle: the library's take 0 to 8.
pub fn sine_cosine(angle: f64) -> (f64, f64) {
    sin_cos(angle.rem_euclid(TAU))
}

/// The rotation by the angle |v| about v.
pub fn rotation(v: Vector) -> Matrix {
    let angle = norm(v);
    if angle == 0.0 {
        return diagonal([1.0; 3]);
    }
    let [x, y, z] = v.map(|c| c / angle);
    let (s, c) = sine_cosine(angle);
    let axis = [x, y, z];
    let skew = [[0.0, -z, y], [z, 0.0, -x], [-y, x, 0.0]];
    from_fn(|i| {
        from_fn(|j| if i == j { c } else { 0.0 } + s * skew[i][j] + (1.0 - c) * axis[i] * axis[j])
    })
}

/// The angle of a rotation, in degrees.
pub fn angle_of(m: &Matrix) -> f64 {
    let cosine = 0.5 * (m[0][0] + m[1][1] + m[2][2] - 1.0);
    cosine.clamp(-1.0, 1.0).acos().to_degrees()
}
