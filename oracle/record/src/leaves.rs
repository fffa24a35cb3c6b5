//! Functions of six numbers below the calls, with their results in 36 places.
use crate::list::bits_of;
use drifters_core::math::{Matrix, Vec3, Vector};
use drifters_eqf::lie::{integrated_adjoint, Se3, Se3Tangent};
use inputs::Numbers;

type Six = [f64; 6];
type Result = [f64; 36];

fn tangent(v: Six) -> Se3Tangent {
    Se3Tangent { omega: Vec3::new(v[0], v[1], v[2]), nu: Vec3::new(v[3], v[4], v[5]) }
}

/// Numbers at the front of a result; the rest are 0.
fn front(numbers: &[f64]) -> Result {
    let mut out = [0.0; 36];
    out[..numbers.len()].copy_from_slice(numbers);
    out
}

fn adjoint(v: Six) -> Result {
    front(integrated_adjoint(tangent(v)).data.as_flattened())
}

/// The original's `integrated_adjoint` with another bound of halvings and another last term; its own are 64 and 15.
fn adjoint_with(v: Six, most: usize, last: i32) -> Result {
    let (mut w, mut halvings) = (tangent(v), 0);
    while w.omega.amax().max(w.nu.amax()) > 0.0625 && halvings < most {
        w = Se3Tangent::new(w.omega * 0.5, w.nu * 0.5);
        halvings += 1;
    }
    let mut term = Matrix::<6, 6>::identity();
    let mut psi = term;
    for k in 1..=last {
        term = term.matmul(&w.ad()).scaled(1.0 / f64::from(k + 1));
        psi += &term;
    }
    for _ in 0..halvings {
        psi = (Matrix::<6, 6>::identity() + Se3::exp(w).adjoint()).matmul(&psi).scaled(0.5);
        w = Se3Tangent::new(w.omega * 2.0, w.nu * 2.0);
    }
    front(psi.data.as_flattened())
}

fn same(a: Result, b: Result) -> bool {
    a.map(bits_of) == b.map(bits_of)
}

/// The first eight of the inputs at which each of the other bounds of halvings and last terms gives other bits.
fn telling(inputs: impl Iterator<Item = Six>, others: &[(usize, i32)]) -> Vec<Six> {
    let differs = |v: &Six, (most, last): (usize, i32)| !same(adjoint_with(*v, most, last), adjoint(*v));
    let found: Vec<Six> = inputs.take(100_000).filter(|v| others.iter().all(|other| differs(v, *other))).take(8).collect();
    assert!(found.len() == 8 && !found.iter().any(|v| differs(v, (64, 15))));
    found
}

/// Inputs whose larger amax is `amax`, at which the other bound of halvings tells. The rotation is so small that 64 halvings leave only a few
/// of its bits: else the doublings back cover what one halving more or less changes.
fn halved(seed: u64, amax: f64, other: usize) -> Vec<Six> {
    let mut n = Numbers::new(seed);
    let inputs = std::iter::repeat_with(|| {
        let [x, y, z]: [f64; 3] = n.withins(1e-302);
        [x, y, z, amax, n.within(4.0), n.within(4.0)]
    });
    telling(inputs, &[(other, 15)])
}

/// Inputs at which 14 and 16 terms tell: nu stands at right angles to omega, so that the first terms cancel to a rounding error in some places.
fn cancelling(seed: u64) -> Vec<Six> {
    let mut n = Numbers::new(seed);
    let inputs = std::iter::repeat_with(|| {
        let [x, y, z]: [f64; 3] = n.withins(0.0625);
        let t = n.one_of(&[1.0, 0.5, 1e-3]);
        [x, y, z, 0.0, -t * z, t * y]
    });
    telling(inputs, &[(64, 14), (64, 16)])
}

/// Six numbers out of zeros, infinities, what is not a number, and ordinary ones.
fn strange(seed: u64) -> Vec<Six> {
    let mut n = Numbers::new(seed);
    (0..24).map(|_| std::array::from_fn(|_| n.one_of(&[0.0, -0.0, f64::INFINITY, f64::NEG_INFINITY, f64::NAN, 1.5, -2.0]))).collect()
}

/// Inputs of every size up to a turn of 8, and beyond.
fn ordinary(seed: u64) -> Vec<Six> {
    let mut n = Numbers::new(seed);
    (0..24)
        .map(|i| {
            let size = [1e-12, 0.01, 0.0625, 0.1, 1.0, 10.0][i % 6];
            n.withins(size)
        })
        .collect()
}

fn records(inputs: &[Six], value: fn(Six) -> Result) -> Vec<u8> {
    inputs.iter().flat_map(|v| v.iter().copied().chain(value(*v))).flat_map(|x| bits_of(x).to_le_bytes()).collect()
}

fn mul_transpose(v: Six) -> Result {
    let [a, b]: [Vector<3>; 2] = [tangent(v).omega.into(), tangent(v).nu.into()];
    front(a.mul_transpose(&b).data.as_flattened())
}

fn amax(v: Six) -> Result {
    front(&[tangent(v).omega.amax()])
}

fn matrix_amax(v: Six) -> Result {
    let mut m = Matrix::<21, 21>::zeros();
    m.data[0][..6].copy_from_slice(&v);
    front(&[m.amax()])
}

pub fn all() -> [(&'static str, Vec<u8>); 7] {
    [
        ("adjoint", records(&ordinary(80), adjoint)),
        ("adjoint60", records(&halved(81, 2f64.powi(60), 63), adjoint)),
        ("adjoint61", records(&halved(82, 2f64.powi(61), 65), adjoint)),
        ("adjoint_terms", records(&cancelling(86), adjoint)),
        ("mul_transpose", records(&strange(83), mul_transpose)),
        ("amax", records(&strange(84), amax)),
        ("matrix_amax", records(&strange(85), matrix_amax)),
    ]
}
