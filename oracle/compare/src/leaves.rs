//! The leaves on the port and on the original, infinities and not-a-numbers included.
//!
//! Two numbers agree where their bits do, or where both are not numbers. Sine and cosine have no original here (the crate `libm` is not
//! at hand): they are held to std's within 2^-49.
use crate::in_threads;
use drifters_core::math::{Cholesky, Mat3, Matrix, Quat, Real, Vec3};
use drifters_eqf::gcu::beta;
use drifters_eqf::lie::{integrated_adjoint, left_jacobian, Se3Tangent};
use inputs::norms::{long, null, short};
use inputs::{beside, Numbers};
use std::sync::atomic::{AtomicU64, Ordering};

type Mat21 = Matrix<21, 21>;
type Flat21 = [f64; 441];

extern "C" {
    fn drifters_normalized(v: &[f64; 3], out: &mut [f64; 3]) -> bool;
    fn drifters_amax(v: &[f64; 3]) -> f64;
    fn drifters_rotation(phi: &[f64; 3], q: &mut [f64; 4], dcm: &mut [f64; 9]);
    fn drifters_mul_diagonal_21_18(a: &[f64; 378], d: &[f64; 18], out: &mut [f64; 378]);
    fn drifters_symmetrize21(m: &mut Flat21);
    fn drifters_amax21(m: &Flat21) -> f64;
    fn drifters_cholesky3(a: &[f64; 9], lower: &mut [f64; 9]) -> bool;
    fn drifters_solve3(lower: &[f64; 9], b: &[f64; 63], out: &mut [f64; 63]);
    fn drifters_integrated_adjoint(v: &[f64; 6], out: &mut [f64; 36]);
    fn drifters_left_jacobian(omega: &[f64; 3], out: &mut [f64; 9]);
    fn drifters_beta(r: f64) -> f64;
}

/// What a run that a leaf may leave holds before.
const UNTOUCHED: f64 = 1.5;

fn same(x: f64, y: f64) -> bool {
    x.to_bits() == y.to_bits() || x.is_nan() && y.is_nan()
}

fn all_same(x: &[f64], y: &[f64]) -> bool {
    x.len() == y.len() && x.iter().zip(y).all(|(x, y)| same(*x, *y))
}

fn rows<const R: usize, const C: usize>(flat: &[f64]) -> Matrix<R, C> {
    let mut m = Matrix::zeros();
    for i in 0..R {
        m.data[i].copy_from_slice(&flat[i * C..(i + 1) * C]);
    }
    m
}

/// How many cases share a seed.
const BATCH: u64 = 1000;

/// Counts the cases in which a test fails, and prints them. Each fourth case may be damaged.
fn leaf(name: &str, cases: u64, agrees: impl Fn(&mut Numbers, bool) -> bool + Sync) -> u64 {
    let wrong: u64 = in_threads(cases / BATCH, |seeds| {
        seeds
            .map(|seed| {
                let mut numbers = Numbers::new(seed);
                (0..BATCH).filter(|k| !agrees(&mut numbers, k % 4 == 3)).count() as u64
            })
            .sum::<u64>()
    })
    .iter()
    .sum();
    println!("{name:<24} {cases:>9} cases {wrong:>6} differ");
    wrong
}

/// The entries of a matrix; of a damaged one, half the time, just one that is not finite, which may meet a zero of the other factor.
fn entries<const N: usize>(n: &mut Numbers, damaged: bool) -> [f64; N] {
    if !damaged || n.one_in(2) {
        return n.array(damaged);
    }
    let mut m = n.array(false);
    m[n.below(N)] = n.one_of(&[f64::INFINITY, f64::NEG_INFINITY, f64::NAN]);
    m
}

/// Compares a product of the port, at its shape, with the original's.
macro_rules! products {
    ($($name:literal, $port:ident, $method:ident, $r:literal x $c:literal, $r2:literal x $c2:literal, $cells:literal;)*) => {
        extern "C" {
            $(fn $port(a: &[f64; $r * $c], b: &[f64; $r2 * $c2], out: &mut [f64; $cells]);)*
        }

        fn products() -> u64 {
            let mut wrong = 0;
            $(wrong += leaf($name, 40_000, |n, damaged| {
                let (a, b) = (entries(n, damaged), entries(n, damaged));
                let mut out = [0.0; $cells];
                // SAFETY: the port's function takes every number, and writes only `out`.
                unsafe { $port(&a, &b, &mut out) };
                all_same(&out, rows::<$r, $c>(&a).$method(&rows::<$r2, $c2>(&b)).data.as_flattened())
            });)*
            wrong
        }
    };
}

products! {
    "matmul 3x3, 3x3", drifters_matmul_3_3_3, matmul, 3 x 3, 3 x 3, 9;
    "matmul 6x6, 6x6", drifters_matmul_6_6_6, matmul, 6 x 6, 6 x 6, 36;
    "matmul 6x6, 6x1", drifters_matmul_6_6_1, matmul, 6 x 6, 6 x 1, 6;
    "matmul 21x21, 21x21", drifters_matmul_21_21_21, matmul, 21 x 21, 21 x 21, 441;
    "matmul 3x21, 21x21", drifters_matmul_3_21_21, matmul, 3 x 21, 21 x 21, 63;
    "matmul 21x3, 3x1", drifters_matmul_21_3_1, matmul, 21 x 3, 3 x 1, 21;
    "matmul 21x3, 3x3", drifters_matmul_21_3_3, matmul, 21 x 3, 3 x 3, 63;
    "matmul 21x3, 3x21", drifters_matmul_21_3_21, matmul, 21 x 3, 3 x 21, 441;
    "matmul 21x18, 18x18", drifters_matmul_21_18_18, matmul, 21 x 18, 18 x 18, 378;
    "mul_transpose 21x21", drifters_mul_transpose_21_21_21, mul_transpose, 21 x 21, 21 x 21, 441;
    "mul_transpose 3x21", drifters_mul_transpose_3_21_3, mul_transpose, 3 x 21, 3 x 21, 9;
    "mul_transpose 21x3", drifters_mul_transpose_21_3_21, mul_transpose, 21 x 3, 21 x 3, 441;
    "mul_transpose 21x18", drifters_mul_transpose_21_18_21, mul_transpose, 21 x 18, 21 x 18, 441;
    "mul_transpose 3x1", drifters_mul_transpose_3_1_3, mul_transpose, 3 x 1, 3 x 1, 9;
}

/// The port's pair, or two numbers that no angle has where it refuses.
fn sin_cos(theta: f64) -> (f64, f64) {
    let mut out = [2.0; 2];
    port::sin_cos(theta, &mut out);
    (out[0], out[1])
}

/// A tangent vector whose largest number is near a halving's limit, or any; damaged ones too.
fn tangent(n: &mut Numbers, damaged: bool) -> [f64; 6] {
    if n.one_in(3) {
        return n.array(damaged);
    }
    let largest = n.one_of(&[0.0625, 0.125, 1.0, 8.0, 2f64.powi(60), 2f64.powi(61), 1e154, f64::INFINITY]);
    let mut v = n.withins::<6>(1.0).map(|x| x * largest.min(f64::MAX));
    let places = n.one_of(&[0, 0, -1, 1]);
    let place = n.below(6);
    v[place] = beside(largest, places) * n.one_of(&[1.0, -1.0]);
    if damaged && n.one_in(4) {
        v[n.below(6)] = f64::NAN;
    }
    v
}

/// A rotation vector whose squared angle is near the series' limit, or any.
fn turn(n: &mut Numbers, damaged: bool) -> [f64; 3] {
    match n.below(4) {
        0 => n.array(damaged),
        1 => n.withins(5.0),
        2 => {
            let unit = Vec3::from_array(n.withins(1.0)).normalized();
            (unit * beside(0.01, n.below(9) as i64 - 4)).to_array()
        }
        _ => {
            let mut v = [0.0, -0.0, 0.0];
            v[n.below(3)] = beside(0.01, n.below(9) as i64 - 4);
            v
        }
    }
}

/// A vector to be normalised: of any norm, of one that is 0, hardly above it or infinite, or with a number that is not finite among such ones.
fn vector(n: &mut Numbers, damaged: bool) -> [f64; 3] {
    let mut v = match n.below(8) {
        0 => null(n),
        1 => short(n),
        2 => long(n),
        _ => return n.array(damaged),
    };
    if damaged {
        v[n.below(3)] = n.one_of(&[f64::INFINITY, f64::NEG_INFINITY, f64::NAN]);
    }
    v
}

/// `Vec3::normalized`: the port has a vector exactly where the original's norm is above 0, and then the original's; else it leaves what it was lent.
fn normalized() -> u64 {
    let (zero, blank) = (AtomicU64::new(0), AtomicU64::new(0));
    let wrong = leaf("Vec3::normalized", 1_000_000, |n, damaged| {
        let v = vector(n, damaged);
        let (mut out, original) = ([UNTOUCHED; 3], Vec3::from_array(v));
        // SAFETY: the port's function takes every number, and writes only `out`.
        let given = unsafe { drifters_normalized(&v, &mut out) };
        let norm = original.norm();
        if norm > 0.0 {
            return given && all_same(&out, &original.normalized().to_array());
        }
        let without = if norm == 0.0 { &zero } else { &blank };
        without.fetch_add(1, Ordering::Relaxed);
        !given && out == [UNTOUCHED; 3]
    });
    println!("of these without one: {} of norm 0, {} of a norm that is not a number", zero.into_inner(), blank.into_inner());
    wrong
}

pub fn compare() -> u64 {
    // SAFETY, below: each function of the port takes every number, and writes only what it is lent.
    let mut wrong = leaf("sqrt, any bits", 4_000_000, |n, _| {
        let x = f64::from_bits(n.bits());
        same(port::sqrt(x), Real::sqrt(x))
    });
    wrong += leaf("sqrt, near squares", 1_000_000, |n, _| {
        let r = f64::from_bits(n.bits() % (1 << 52) | 0x3ff << 52);
        let x = f64::from_bits((r * r).to_bits() - 1 + n.bits() % 3);
        same(port::sqrt(x), Real::sqrt(x))
    });
    wrong += leaf("sin_cos", 2_000_000, |n, edge| {
        let theta = if edge { 8.0 - n.unit() / (1u64 << 40) as f64 } else { 8.0 * n.unit() };
        let (sin, cos) = sin_cos(theta);
        let bound = 2.0 / (1u64 << 50) as f64;
        (sin - theta.sin()).abs() <= bound && (cos - theta.cos()).abs() <= bound
    });
    wrong += leaf("sin_cos outside 0..8", 1_000_000, |n, _| {
        let theta = f64::from_bits(n.bits());
        let (sin, cos) = sin_cos(theta);
        let inside = (0.0..=8.0).contains(&theta);
        sin.is_nan() != inside && cos.is_nan() != inside
    });
    wrong += normalized();
    wrong += leaf("Vec3::amax", 1_000_000, |n, damaged| {
        let v = n.array(damaged);
        same(unsafe { drifters_amax(&v) }, Vec3::from_array(v).amax())
    });
    wrong += leaf("Quat, rotation", 1_000_000, |n, damaged| {
        let mut phi = n.array(damaged);
        if n.one_in(3) {
            phi = phi.map(|x: f64| x * 1e-11);
        }
        let (mut q, mut dcm) = ([0.0; 4], [0.0; 9]);
        unsafe { drifters_rotation(&phi, &mut q, &mut dcm) };
        let original = Quat::from_rotation_vector(Vec3::from_array(phi));
        all_same(&q, &original.to_array()) && all_same(&dcm, original.to_dcm().data.as_flattened())
    });
    wrong += products();
    wrong += leaf("mul by a diagonal 21x18", 40_000, |n, damaged| {
        let (a, d) = (entries(n, damaged), entries(n, damaged));
        let mut out = [0.0; 378];
        unsafe { drifters_mul_diagonal_21_18(&a, &d, &mut out) };
        let original = rows::<21, 18>(&a).matmul(&Matrix::<18, 18>::from_diagonal(&d));
        all_same(&out, original.data.as_flattened())
    });
    wrong += leaf("Matrix::symmetrize", 100_000, |n, damaged| {
        let m: Flat21 = n.array(damaged);
        let mut original: Mat21 = rows(&m);
        original.symmetrize();
        let mut out = m;
        unsafe { drifters_symmetrize21(&mut out) };
        all_same(&out, original.data.as_flattened())
    });
    wrong += leaf("Matrix::amax", 100_000, |n, damaged| {
        let m: Flat21 = n.array(damaged);
        same(unsafe { drifters_amax21(&m) }, rows::<21, 21>(&m).amax())
    });
    wrong += leaf("Cholesky", 1_000_000, |n, damaged| {
        let g: Mat3 = rows(&n.array::<9>(damaged));
        let mut a = g.mul_transpose(&g);
        if n.one_in(2) {
            a = a + rows(&n.array::<9>(damaged)) * 1e-3;
        }
        let mut flat = [0.0; 9];
        flat.copy_from_slice(a.data.as_flattened());
        let mut lower = [0.0; 9];
        let definite = unsafe { drifters_cholesky3(&flat, &mut lower) };
        let b = n.array(damaged);
        match Cholesky::new(&a) {
            None => !definite,
            Some(original) => {
                let mut x = [0.0; 63];
                unsafe { drifters_solve3(&lower, &b, &mut x) };
                definite
                    && all_same(&lower, original.lower().data.as_flattened())
                    && all_same(&x, original.solve(&rows::<3, 21>(&b)).data.as_flattened())
            }
        }
    });
    wrong += leaf("integrated_adjoint", 200_000, |n, damaged| {
        let v = tangent(n, damaged);
        let mut out = [0.0; 36];
        unsafe { drifters_integrated_adjoint(&v, &mut out) };
        all_same(&out, integrated_adjoint(Se3Tangent::from_array(v)).data.as_flattened())
    });
    wrong += leaf("left_jacobian", 1_000_000, |n, damaged| {
        let omega = turn(n, damaged);
        let mut out = [0.0; 9];
        unsafe { drifters_left_jacobian(&omega, &mut out) };
        all_same(&out, left_jacobian(Vec3::from_array(omega)).data.as_flattened())
    });
    wrong += leaf("beta", 1_000_000, |n, damaged| {
        let r = match n.below(4) {
            0 => beside(1.0, n.below(9) as i64 - 4) * n.one_of(&[1.0, -1.0]),
            1 => f64::from_bits(n.bits()),
            2 => 2.0 * n.unit(),
            _ => n.number(damaged),
        };
        same(unsafe { drifters_beta(r) }, beta(r))
    });
    wrong
}
