//! Logs: a filter's run and calls on it, in manners that reach every answer.
use crate::alphas::{alphas, one_alpha, BLANKS};
use crate::norms::{long, null, short};
use crate::scalar::scalar;
use crate::{beside, Numbers};
use drifters_core::math::{Mat3, Matrix, Quat, Vec3};
use original::places::{DELTA, E, GAMMA, GENERAL_NOISE, INNOVATION, POSITION, POSITION_ALPHA};
use original::{is_update_of_three, kinds};

/// The kinds that a log's calls are drawn from. A direction stands twice, since many have a vector at the limits of the norm; so does a scalar
/// update, which has no call of the original's own.
const DRAWN: [u32; 9] = [
    kinds::PROPAGATE,
    kinds::POSITION,
    kinds::VELOCITY,
    kinds::DIRECTION,
    kinds::DIRECTION,
    kinds::GENERAL,
    kinds::STATE,
    kinds::SCALAR,
    kinds::SCALAR,
];

/// How a log's numbers are.
#[derive(Clone, Copy, PartialEq)]
pub enum Manner {
    /// Of ordinary size.
    Ordinary,
    /// Each part of a filter or call times a power of ten of its own, down to subnormal and up to overflowing numbers.
    Scaled,
    /// Here and there a zero of either sign, a very small or a very large number.
    Sprinkled,
    /// As sprinkled, and now and then an infinity or what is not a number.
    Damaged,
    /// Turns at 8, and the numbers beside it.
    Turning,
    /// Noise without a factor, or hardly with one.
    Singular,
}

impl Manner {
    pub const ALL: [Self; 6] = [Self::Ordinary, Self::Scaled, Self::Sprinkled, Self::Damaged, Self::Turning, Self::Singular];

    /// The manner of a seed: each comes in turn, for two seeds, so that two threads that share the seeds have all.
    pub fn of(seed: u64) -> Self {
        Self::ALL[seed as usize / 2 % Self::ALL.len()]
    }
}

/// The sizes of velocity, position, both halves of gamma or of the bias, and delta or lever.
const SIZES: [f64; 5] = [2.0, 2.0, 0.1, 0.1, 1.0];

pub struct Log {
    /// The first filter.
    pub run: Vec<f64>,
    pub calls: Vec<(u32, Vec<f64>)>,
}

/// A log of at most so many calls of any kind.
pub fn log(n: &mut Numbers, manner: Manner, most: usize) -> Log {
    let Log { mut run, calls } = one_alpha_log(n, manner, most);
    run.truncate(POSITION_ALPHA);
    run.extend(alphas(n, manner));
    Log { run, calls }
}

/// A log whose filter has one alpha.
pub fn one_alpha_log(n: &mut Numbers, manner: Manner, most: usize) -> Log {
    let run = filter(n, manner);
    let calls = if manner == Manner::Turning { most.min(2) } else { n.below(most + 1) };
    let call = |_| {
        let kind = n.one_of(&DRAWN);
        (kind, call(n, manner, kind, &run))
    };
    let calls = (0..calls).map(call).collect();
    Log { run, calls }
}

/// The numbers of a start.
pub fn start(n: &mut Numbers, manner: Manner) -> Vec<f64> {
    let mut parts = Parts::new(manner);
    for size in SIZES {
        parts.vector(n, 3, size);
    }
    let mut numbers = rotation(n).to_vec();
    numbers.extend(parts.numbers);
    overflowing(n, manner, &mut numbers[DELTA..E]);
    numbers.extend(rotation(n));
    numbers.extend(covariance(n, manner));
    numbers.extend([0.0, 0.0, 9.81]);
    sprinkle(n, manner, &mut numbers);
    numbers
}

/// The numbers of a filter with one alpha.
fn filter(n: &mut Numbers, manner: Manner) -> Vec<f64> {
    let mut parts = Parts::new(manner);
    let straight = manner == Manner::Turning;
    let (a, e) = if straight { (IDENTITY, IDENTITY) } else { (rotation(n), rotation(n)) };
    parts.matrix(n, &a);
    for size in SIZES {
        parts.vector(n, 3, if straight { 0.0 } else { size });
    }
    parts.matrix(n, &e);
    let mut run = parts.numbers;
    overflowing(n, manner, &mut run[POSITION..GAMMA]);
    run.extend(covariance(n, manner));
    run.extend(if n.one_in(2) { [0.0, 0.0, 9.81] } else { n.withins(10.0) });
    run.push(one_alpha(n, manner));
    sprinkle(n, manner, &mut run);
    run
}

/// The numbers of a call of a kind. `run` is a filter that it may meet.
pub fn call(n: &mut Numbers, manner: Manner, kind: u32, run: &[f64]) -> Vec<f64> {
    let mut parts = Parts::new(manner);
    match kind {
        kinds::PROPAGATE => propagation(n, manner, &mut parts),
        kinds::POSITION => parts.vector(n, 3, 3.0),
        kinds::VELOCITY => {
            parts.vector(n, 3, 3.0);
            parts.vector(n, 3, 1.0);
        }
        kinds::DIRECTION => {
            direction(n, &mut parts);
            direction(n, &mut parts);
        }
        kinds::GENERAL if manner == Manner::Scaled && n.one_in(4) => return infinite_nis(n),
        kinds::GENERAL if manner == Manner::Turning => turning_update(n, &mut parts),
        kinds::GENERAL if manner == Manner::Singular && n.one_in(2) => {
            let (innovation, noise) = match n.below(8) {
                0 => MINUS_ONE,
                1 | 2 => zero_innovation(n),
                _ => cancelling(n),
            };
            // So small that only the noise counts.
            parts.vector(n, INNOVATION, 1e-30);
            parts.numbers.extend(innovation);
            parts.numbers.extend(noise.data.as_flattened());
            return parts.numbers;
        }
        kinds::GENERAL => {
            parts.vector(n, INNOVATION, 1.0);
            let size = n.one_of(&[1.0, 1.0, 30.0]);
            parts.vector(n, 3, size);
        }
        kinds::SCALAR => scalar(n, manner, run, &mut parts),
        _ => {}
    }
    if is_update_of_three(kind) {
        let noise = if kind == kinds::GENERAL && manner == Manner::Turning { [0.0; 9] } else { noise(n, manner) };
        parts.matrix(n, &noise);
    }
    let mut numbers = parts.numbers;
    sprinkle(n, manner, &mut numbers);
    numbers
}

const IDENTITY: [f64; 9] = [1.0, 0.0, 0.0, 0.0, 1.0, 0.0, 0.0, 0.0, 1.0];

/// Numbers that are gathered part by part.
pub struct Parts {
    manner: Manner,
    pub numbers: Vec<f64>,
}

impl Parts {
    fn new(manner: Manner) -> Self {
        Self { manner, numbers: Vec::new() }
    }

    fn scale(&self, n: &mut Numbers) -> f64 {
        if self.manner == Manner::Scaled && n.one_in(4) {
            10f64.powi(n.below(630) as i32 - 322)
        } else {
            1.0
        }
    }

    pub fn vector(&mut self, n: &mut Numbers, length: usize, size: f64) {
        let scale = self.scale(n);
        self.numbers.extend((0..length).map(|_| n.within(size) * scale));
    }

    pub fn matrix(&mut self, n: &mut Numbers, m: &[f64]) {
        let scale = self.scale(n);
        self.numbers.extend(m.iter().map(|x| x * scale));
    }
}

pub fn rotation(n: &mut Numbers) -> [f64; 9] {
    let dcm = Quat::from_rotation_vector(Vec3::from_array(n.withins(2.0))).to_dcm();
    dcm.data.as_flattened().try_into().expect("nine numbers")
}

/// Now and then a vector of scaled numbers is one that a rotation can make infinite.
fn overflowing(n: &mut Numbers, manner: Manner, vector: &mut [f64]) {
    if manner == Manner::Scaled && n.one_in(4) {
        vector.fill_with(|| n.one_of(&[1.7e308, -1.7e308]));
    }
}

/// Now and then a number is replaced by one that is not of ordinary size.
fn sprinkle(n: &mut Numbers, manner: Manner, numbers: &mut [f64]) {
    if numbers.is_empty() || !matches!(manner, Manner::Sprinkled | Manner::Damaged) || n.one_in(4) {
        return;
    }
    for _ in 0..1 + numbers.len() * n.below(4) / 100 {
        numbers[n.below(numbers.len())] = match n.below(8) {
            0 => 0.0,
            1 => -0.0,
            2 => n.finite(),
            3 => n.one_of(&[f64::MAX, f64::MIN, 1e300, -1e160, 1.4e154, -1e77]),
            4 => n.one_of(&[5e-324, -5e-324, 1e-310, -2.3e-308, 1e-300, 1e-162]),
            _ => n.within(100.0),
        };
    }
    if manner == Manner::Damaged && n.one_in(8) {
        numbers[n.below(numbers.len())] = n.one_of(&BLANKS);
    }
}

/// A covariance: positive, a diagonal, zero, a little unmirrored, or any numbers.
pub fn covariance(n: &mut Numbers, manner: Manner) -> Vec<f64> {
    if manner == Manner::Turning {
        let mut sigma = Matrix::<21, 21>::identity() * 2.0;
        // So that a direction, which sees only the last three, turns the attitude too.
        sigma.set_block(18, 0, &(Mat3::identity() * n.one_of(&[0.0, 0.0, 10.0, 100.0])));
        return sigma.data.as_flattened().to_vec();
    }
    let mut g = Matrix::<21, 21>::zeros();
    g.data.as_flattened_mut().fill_with(|| n.within(0.2));
    let mut sigma = g.mul_transpose(&g);
    match n.below(8) {
        0 => sigma = g,
        1 => sigma = sigma + g * 1e-3,
        2 => sigma = Matrix::zeros(),
        3 | 4 => {
            sigma = Matrix::zeros();
            (0..21).for_each(|i| sigma[(i, i)] = n.unit());
        }
        _ => {}
    }
    let scale = if manner == Manner::Singular { n.one_of(&[0.0, 1e-30, 1e-300, 1.0]) } else { Parts::new(manner).scale(n) };
    (sigma * scale).data.as_flattened().to_vec()
}

/// The nine numbers of a noise.
fn noise(n: &mut Numbers, manner: Manner) -> [f64; 9] {
    let mut m = Mat3::zeros();
    let g = Mat3::from_rows([n.withins(1.0), n.withins(1.0), n.withins(1.0)]);
    match n.below(if manner == Manner::Singular { 6 } else { 24 }) {
        0 => m = g,
        1 => (0..3).for_each(|i| m[(i, i)] = n.one_of(&[1.0, 0.25, 0.0, -0.0, -1.0, 1e-320])),
        2 => m = nearly_singular(n),
        3 => m = hardly_positive(n),
        4 => (0..9).for_each(|i| m.data.as_flattened_mut()[i] = n.one_of(&[0.0, -0.0])),
        _ => m = g.mul_transpose(&g) + Mat3::identity() * n.one_of(&[0.1, 1e-3, 10.0]),
    }
    m.data.as_flattened().try_into().expect("nine numbers")
}

/// A vector's product with itself, its numbers moved a little: its factor stands or falls with the last bits.
fn nearly_singular(n: &mut Numbers) -> Mat3 {
    let v = Mat3::from_rows([n.withins(4.0).map(f64::round), [0.0; 3], [0.0; 3]]).transpose();
    let mut m = v.mul_transpose(&v);
    for x in m.data.as_flattened_mut() {
        *x *= 1.0 + n.one_of(&[0.0, 1.0, -1.0, 2.0, 4.0]) * f64::EPSILON;
    }
    m + Mat3::identity() * n.one_of(&[0.0, 1e-16, 1e-15, 1e-12])
}

/// A matrix that only its lower triangle makes positive, with lengths far apart.
fn hardly_positive(n: &mut Numbers) -> Mat3 {
    let mut m = Mat3::from_rows([n.withins(1.0), n.withins(1.0), n.withins(1.0)]);
    let scale: f64 = n.one_of(&[1e8, 1e16, 1e150]);
    (0..3).for_each(|i| m[(i, i)] = n.unit() * scale.powi(i as i32 - 1));
    m
}

/// An innovation and a noise at which the terms of the NIS cancel but for their last bits, so that it can be below 0: the second and third pivots
/// are as small as the numbers allow, and the innovation is the factor times a vector of ordinary size.
pub fn cancelling(n: &mut Numbers) -> ([f64; 3], Mat3) {
    let (a, b) = (1.75 + n.within(1.25), n.within(0.01));
    let second = least_above(a * a, |s| s - a * a);
    let l22 = (second - a * a).sqrt();
    let below = b * a + (1.38 + n.within(0.03)) * l22;
    let l32 = (below - b * a) / l22;
    let third = least_above(b * b + l32 * l32, |s| s - b * b - l32 * l32);
    let l33 = (third - b * b - l32 * l32).sqrt();
    let (first, last) = (1.0 + n.within(0.2), n.one_of(&[1.0, -1.0]) + n.within(0.2));
    let innovation = [first, a * first, b * first + l33 * last];
    (innovation, Mat3::from_rows([[1.0, a, b], [a, second, below], [b, below, third]]))
}

/// An innovation and a noise whose NIS is -1 exactly, so that beta is infinite.
const MINUS_ONE: ([f64; 3], Mat3) = {
    let (a, below) = (1.402, 2.872894618360936e-8);
    let noise = Mat3::from_rows([[1.0, a, 0.0], [a, 1.965604, below], [0.0, below, 3.717056530598372]]);
    ([1.46, 2.0469199999999996, -2.1073424255447017e-8], noise)
};

/// The least number from `first` on at which a pivot is above 0.
fn least_above(first: f64, pivot: impl Fn(f64) -> f64) -> f64 {
    let mut s = first;
    while pivot(s) <= 0.0 {
        s = beside(s, 1);
    }
    s
}

/// An output, an innovation and a noise that give an infinite NIS and a finite filter.
fn infinite_nis(n: &mut Numbers) -> Vec<f64> {
    let mut numbers = vec![0.0; GENERAL_NOISE];
    numbers[n.below(21)] = 1e-200;
    numbers[INNOVATION] = 1e10 * (1.0 + n.unit());
    numbers.extend((Mat3::identity() * 1e-300).data.as_flattened());
    numbers
}

/// An innovation of zeros of both signs, and a noise with signs of both kinds beside its diagonal.
fn zero_innovation(n: &mut Numbers) -> ([f64; 3], Mat3) {
    let mut noise = Mat3::identity();
    for (i, j) in [(0, 1), (0, 2), (1, 2)] {
        let x = n.one_of(&[0.25, -0.25, 0.0]);
        (noise[(i, j)], noise[(j, i)]) = (x, x);
    }
    (core::array::from_fn(|_| n.one_of(&[-0.0, -0.0, 0.0])), noise)
}

fn propagation(n: &mut Numbers, manner: Manner, parts: &mut Parts) {
    let dt = match n.below(16) {
        0 => n.one_of(&[0.0, -0.0]),
        1 => n.one_of(&[1.0, -1.0, 4.0, 1e10, 5e-324]),
        _ => n.within(0.02),
    };
    if manner == Manner::Turning {
        let dt = n.one_of(&[1.0, -1.0, 0.5, 4.0]);
        let omega = near_length(n, 8.0 / dt);
        parts.matrix(n, &omega);
        parts.vector(n, 3, 10.0);
        parts.matrix(n, &[dt]);
    } else {
        let rate = n.one_of(&[1.0, 1.0, 1.0, 500.0]);
        parts.vector(n, 3, rate);
        parts.vector(n, 3, 10.0);
        parts.matrix(n, &[dt]);
    }
    let sign = n.one_of(&[1.0, 1.0, -1.0, 0.0]);
    let densities: [f64; 18] = core::array::from_fn(|_| n.unit() * 1e-3 * sign);
    parts.matrix(n, &densities);
}

/// A number, or one that is a few places beside it.
pub fn near(n: &mut Numbers, x: f64) -> f64 {
    beside(x, n.below(9) as i64 - 4)
}

/// A vector of norm 1, along an axis or not.
pub fn axis(n: &mut Numbers) -> Vec3 {
    let axis = match n.below(4) {
        0 => Vec3::from_array(n.withins(1.0)),
        1 => Vec3::new(0.6, 0.0, -0.8),
        _ => n.one_of(&[Vec3::new(1.0, 0.0, 0.0), Vec3::new(0.0, -1.0, 0.0), Vec3::new(0.0, 0.0, 1.0)]),
    };
    axis.normalized()
}

/// A vector along an axis or not, of a length or a few numbers beside it.
fn near_length(n: &mut Numbers, length: f64) -> [f64; 3] {
    let length = near(n, length);
    (axis(n) * length).to_array()
}

/// With the covariance 2 I, no noise and alpha 0 the gain is one half: an innovation of 16 corrects by a turn of 8.
fn turning_update(n: &mut Numbers, parts: &mut Parts) {
    let mut output = Matrix::<3, 21>::zeros();
    output.set_block(0, n.one_of(&[0, 18]), &Mat3::identity());
    parts.matrix(n, output.data.as_flattened());
    let innovation = near_length(n, 16.0);
    parts.matrix(n, &innovation);
}

/// What is measured, or north; now and then a vector whose norm is 0, hardly above it, or infinite.
fn direction(n: &mut Numbers, parts: &mut Parts) {
    let vector = match n.below(24) {
        0 | 1 => null(n),
        2 => short(n),
        3 => long(n),
        _ => return parts.vector(n, 3, 1.0),
    };
    parts.numbers.extend(vector);
}
