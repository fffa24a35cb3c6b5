//! A flight of a swinging camera mount: its true motion, and the calls that its sensors give.
use crate::Numbers;
use drifters_core::math::{Mat3, Quat, Vec3};
use original::kinds;
use original::places::{ALPHAS, INNOVATION, SCALAR, SCALAR_INNOVATION, VARIANCE};

const DT: f64 = 0.01;
const GRAVITY: Vec3 = Vec3::new(0.0, 0.0, 9.81);
const NORTH: Vec3 = Vec3::new(0.43, 0.02, 0.9);

/// The variances of a start: attitude, velocity, position, both biases, lever, magnetometer.
const START_VARIANCE: [f64; 7] = [1e-2, 1e-1, 1.0, 1e-4, 1e-2, 1e-1, 1e-2];
/// The coordinate of the position along z.
const POSITION_Z: usize = 8;
/// The densities of the process noise.
const DENSITY: [f64; 6] = [1e-6, 1e-4, 1e-10, 1e-8, 1e-10, 1e-10];

pub struct Flight {
    numbers: Numbers,
    calls: usize,
    time: f64,
    attitude: Mat3,
    gyro_bias: Vec3,
    accel_bias: Vec3,
    lever: Vec3,
    mag: Mat3,
    /// The swing's size and rate along each axis.
    swing: [(f64, f64); 3],
}

fn rotation(phi: [f64; 3]) -> Mat3 {
    Quat::from_rotation_vector(Vec3::from_array(phi)).to_dcm()
}

impl Flight {
    pub fn new(seed: u64) -> Self {
        let mut n = Numbers::new(seed);
        Self {
            calls: 0,
            time: 0.0,
            attitude: rotation(n.withins(0.5)),
            gyro_bias: Vec3::from_array(n.withins(0.01)),
            accel_bias: Vec3::from_array(n.withins(0.1)),
            lever: Vec3::from_array(n.withins(0.5)),
            mag: rotation(n.withins(0.1)),
            swing: core::array::from_fn(|_| (5.0 + n.within(4.0), 0.5 + n.within(0.4))),
            numbers: n,
        }
    }

    /// The derivative of the swing of an order at the time: each one is a quarter turn on, and once more times the rate.
    fn derivative(&self, order: i32) -> Vec3 {
        let at = |(size, rate): (f64, f64)| {
            size * rate.powi(order) * (rate * self.time + f64::from(order) * std::f64::consts::FRAC_PI_2).sin()
        };
        Vec3::from_array(self.swing.map(at))
    }

    fn position(&self) -> Vec3 {
        self.derivative(0)
    }

    fn velocity(&self) -> Vec3 {
        self.derivative(1)
    }

    fn acceleration(&self) -> Vec3 {
        self.derivative(2)
    }

    fn rate(&self) -> Vec3 {
        self.derivative(1) * 0.05
    }

    fn error(&mut self, size: f64) -> Vec3 {
        Vec3::from_array(self.numbers.withins(size))
    }

    /// The numbers that a filter starts from: an estimate that is off the truth, with full noise on its diagonal.
    pub fn start(&mut self) -> Vec<f64> {
        let attitude = self.attitude.matmul(&rotation(self.numbers.withins(0.1)));
        let mut start = attitude.data.as_flattened().to_vec();
        start.extend((self.velocity() + self.error(0.3)).to_array());
        start.extend((self.position() + self.error(1.0)).to_array());
        start.extend([0.0; 9]);
        start.extend(Mat3::identity().data.as_flattened());
        for i in 0..21 {
            start.extend((0..21).map(|j| if i == j { START_VARIANCE[i / 3] } else { 0.0 }));
        }
        start.extend(GRAVITY.to_array());
        start
    }

    /// Alphas for its sensors: one for all, or one for each.
    pub fn alphas(&mut self) -> [f64; ALPHAS] {
        if self.numbers.one_in(4) {
            [self.numbers.unit(); ALPHAS]
        } else {
            core::array::from_fn(|_| self.numbers.unit())
        }
    }

    fn noise(&self, variance: f64) -> [f64; 9] {
        let v = variance;
        [v, 0.1 * v, 0.0, 0.1 * v, 1.2 * v, -0.05 * v, 0.0, -0.05 * v, 2.0 * v]
    }

    /// The next call: 100 propagations a second, fixes of position and of velocity, directions, heights, states and a few general updates.
    pub fn next_call(&mut self) -> (u32, Vec<f64>) {
        self.calls += 1;
        let kind = match self.calls % 30 {
            3 | 13 | 23 => kinds::POSITION,
            6 | 16 | 26 => kinds::VELOCITY,
            1 | 9 | 14 | 19 | 24 | 28 => kinds::DIRECTION,
            20 if self.calls % 90 == 20 => kinds::GENERAL,
            10 => kinds::STATE,
            12 | 27 => kinds::SCALAR,
            _ => kinds::PROPAGATE,
        };
        (kind, self.call(kind))
    }

    /// A call of a kind. A propagation takes the flight on by its step.
    pub fn call(&mut self, kind: u32) -> Vec<f64> {
        match kind {
            kinds::PROPAGATE => self.propagate(),
            kinds::POSITION => {
                let antenna = self.position() + self.attitude * self.lever + self.error(0.05);
                [antenna.to_array().as_slice(), &self.noise(2.5e-3)].concat()
            }
            kinds::VELOCITY => {
                let omega = self.rate();
                let antenna = self.velocity() + self.attitude * omega.cross(self.lever) + self.error(0.05);
                [antenna.to_array().as_slice(), &omega.to_array(), &self.noise(2.5e-3)].concat()
            }
            kinds::DIRECTION => {
                let measured = self.mag.transpose() * (self.attitude.transpose() * NORTH) + self.error(0.01);
                [measured.to_array().as_slice(), &NORTH.to_array(), &self.noise(1e-4)].concat()
            }
            kinds::GENERAL => {
                let output: [f64; INNOVATION] = self.numbers.withins(0.1);
                let innovation: [f64; 3] = self.numbers.withins(0.01);
                [output.as_slice(), &innovation, &self.noise(0.1)].concat()
            }
            kinds::SCALAR => self.height(),
            _ => Vec::new(),
        }
    }

    /// The height of a pressure gauge beside the inertial sensor: the third row of a position's output matrix without a lever, where the
    /// estimate is near the truth.
    fn height(&mut self) -> Vec<f64> {
        let m = self.position();
        let mut numbers = vec![0.0; SCALAR];
        (numbers[0], numbers[1], numbers[POSITION_Z]) = (-m.y, m.x, -1.0);
        numbers[SCALAR_INNOVATION] = self.numbers.within(0.3);
        numbers[VARIANCE] = 0.1;
        numbers
    }

    fn propagate(&mut self) -> Vec<f64> {
        let omega = self.rate() + self.gyro_bias + self.error(1e-3);
        let accel = self.attitude.transpose() * (self.acceleration() - GRAVITY) + self.accel_bias + self.error(1e-2);
        self.attitude = self.attitude.matmul(&rotation((self.rate() * DT).to_array()));
        self.time += DT;
        let densities: Vec<f64> = (0..18).map(|i| DENSITY[i / 3] * (1.0 + 0.1 * (i % 3) as f64)).collect();
        [omega.to_array().as_slice(), &accel.to_array(), &[DT], &densities].concat()
    }
}
