//! One flight: the sensors' readings of the true motion, the filter's calls, and how far the estimate is off.
use crate::motion::Motion;
use crate::random::Random;
use crate::vector::{
    angle_of, cross, difference, norm, product, rotate, rotation, sum, transpose, Matrix, Vector,
};
use drifters_port::{
    diagonal, Alphas, Densities, Deviations, Direction, Filter, Fix, Imu, Refusal, Start, State,
    VelocityFix, STATES,
};
use std::array::from_fn;

const DT: f64 = 0.02;
const STEPS: usize = 6_000;
/// The updates after this step, in the last half minute, count for the mean NIS.
const SETTLED: usize = STEPS / 4 * 3;
/// The first minute ends with this step.
const FIRST_MINUTE: usize = STEPS / 2;
/// Steps between two fixes of the antenna, and between two directions.
const FIX_STEPS: usize = 50;
const DIRECTION_STEPS: usize = 5;

/// In a fault the antenna's position is this far off, from one step to another.
const FAULT: Vector = [50.0, 0.0, 0.0];
const FAULT_STEPS: std::ops::Range<usize> = 4_000..5_000;

const GRAVITY: Vector = [0.0, 0.0, 9.81];
/// The field's direction, of length 1.
const NORTH: Vector = [0.48, 0.0, 0.8773825623];
const LEVER: Vector = [0.5, -0.3, -1.2];

/// Standard deviations of the readings.
const GYRO: f64 = 1e-3;
const ACCEL: f64 = 1e-2;
const POSITION: f64 = 0.5;
const VELOCITY: f64 = 0.1;
const DIRECTION: f64 = 0.01;

/// Standard deviations of the first estimate.
const FIRST: Deviations = Deviations {
    attitude: [0.1; 3],
    velocity: [0.5; 3],
    position: [2.0; 3],
    gyro_bias: [0.005; 3],
    accel_bias: [0.05; 3],
    lever: [0.5; 3],
    mag: [0.05; 3],
};

/// White noise of the readings; the biases wander little, lever and calibration not at all.
const DENSITIES: Densities = Densities {
    gyro: [GYRO * GYRO * DT; 3],
    accel: [ACCEL * ACCEL * DT; 3],
    gyro_bias: [1e-12; 3],
    accel_bias: [1e-10; 3],
    lever: [0.0; 3],
    mag: [0.0; 3],
};

/// How the first covariance is filled.
#[derive(Clone, Copy)]
pub enum FirstSigma {
    /// From the deviations, as the manual says.
    Deviations,
    /// The squared deviations on the diagonal and zero elsewhere.
    Diagonal,
}

#[derive(Clone, Copy)]
pub struct Case {
    pub first_sigma: FirstSigma,
    /// Where the flight begins.
    pub from: Vector,
    /// Of each sensor, in the first minute, and after it.
    pub alpha: f64,
    pub alpha_later: f64,
    pub fault: bool,
}

pub struct Outcome {
    /// At the end, m.
    pub position_error: f64,
    /// At the end, degrees.
    pub attitude_error: f64,
    /// The mean NIS of each kind of update in the last half minute.
    pub nis_position: f64,
    pub nis_velocity: f64,
    pub nis_direction: f64,
    /// The largest while the fault lasts, m.
    pub position_error_in_fault: f64,
}

/// What is true of the sensors of one flight.
struct Sensors {
    gyro_bias: Vector,
    accel_bias: Vector,
    mag: Matrix,
}

impl Sensors {
    fn new(random: &mut Random) -> Sensors {
        Sensors {
            gyro_bias: random.vector(FIRST.gyro_bias[0]),
            accel_bias: random.vector(FIRST.accel_bias[0]),
            mag: rotation(random.vector(FIRST.mag[0])),
        }
    }

    /// A sample of the inertial sensor.
    fn imu(&self, motion: &Motion, random: &mut Random) -> Imu {
        let force = rotate(
            &transpose(&motion.attitude),
            difference(motion.acceleration, GRAVITY),
        );
        Imu {
            omega: sum(sum(motion.omega, self.gyro_bias), random.vector(GYRO)),
            accel: sum(sum(force, self.accel_bias), random.vector(ACCEL)),
            dt: DT,
        }
    }

    fn fix(&self, motion: &Motion, fault: bool, random: &mut Random) -> Fix {
        let antenna = sum(motion.position, rotate(&motion.attitude, LEVER));
        let off = if fault { FAULT } else { [0.0; 3] };
        Fix {
            antenna: sum(sum(antenna, off), random.vector(POSITION)),
            noise: diagonal([POSITION * POSITION; 3]),
        }
    }

    fn velocity_fix(&self, motion: &Motion, random: &mut Random) -> VelocityFix {
        let by_the_lever = rotate(&motion.attitude, cross(motion.omega, LEVER));
        VelocityFix {
            antenna: sum(sum(motion.velocity, by_the_lever), random.vector(VELOCITY)),
            omega: motion.omega,
            noise: diagonal([VELOCITY * VELOCITY; 3]),
        }
    }

    fn direction(&self, motion: &Motion, random: &mut Random) -> Direction {
        let body = rotate(&transpose(&motion.attitude), NORTH);
        Direction {
            measured: sum(
                rotate(&transpose(&self.mag), body),
                random.vector(DIRECTION),
            ),
            north: NORTH,
            noise: diagonal([DIRECTION * DIRECTION; 3]),
        }
    }
}

/// A first estimate, off the truth by errors of the deviations. Biases and calibration are not known: zero and the identity.
fn first_estimate(truth: &Motion, random: &mut Random) -> State {
    State {
        attitude: product(&rotation(random.vector(FIRST.attitude[0])), &truth.attitude),
        velocity: sum(truth.velocity, random.vector(FIRST.velocity[0])),
        position: sum(truth.position, random.vector(FIRST.position[0])),
        lever: sum(LEVER, random.vector(FIRST.lever[0])),
        ..State::default()
    }
}

/// The squared deviations on the diagonal, and zero elsewhere.
fn plain_sigma() -> [[f64; STATES]; STATES] {
    let d = &FIRST;
    let parts = [
        d.attitude,
        d.velocity,
        d.position,
        d.gyro_bias,
        d.accel_bias,
        d.lever,
        d.mag,
    ];
    diagonal(from_fn(|k| parts[k / 3][k % 3] * parts[k / 3][k % 3]))
}

/// A filter for a case at its first estimate.
fn started(case: Case, state: State) -> Result<Filter, Refusal> {
    let sigma = match case.first_sigma {
        FirstSigma::Deviations => FIRST.sigma(&state),
        FirstSigma::Diagonal => plain_sigma(),
    };
    let mut filter = Filter::start(
        &Start {
            state,
            sigma,
            gravity: GRAVITY,
        }
        .numbers(),
    )?;
    filter.set_alphas(Alphas::all(case.alpha));
    Ok(filter)
}

/// The mean NIS of the updates of a kind, once the flight has settled.
#[derive(Default)]
struct Mean {
    sum: f64,
    count: f64,
}

impl Mean {
    fn add(&mut self, step: usize, nis: f64) {
        if step > SETTLED {
            self.sum += nis;
            self.count += 1.0;
        }
    }

    fn value(&self) -> f64 {
        self.sum / self.count
    }
}

struct Flight {
    case: Case,
    random: Random,
    sensors: Sensors,
    filter: Filter,
    position: Mean,
    velocity: Mean,
    direction: Mean,
    position_error_in_fault: f64,
}

impl Flight {
    fn new(case: Case, seed: u64) -> Result<Flight, Refusal> {
        let mut random = Random::new(seed);
        let sensors = Sensors::new(&mut random);
        let estimate = first_estimate(&Motion::at(0.0, case.from), &mut random);
        Ok(Flight {
            case,
            random,
            sensors,
            filter: started(case, estimate)?,
            position: Mean::default(),
            velocity: Mean::default(),
            direction: Mean::default(),
            position_error_in_fault: 0.0,
        })
    }

    fn truth(&self, step: usize) -> Motion {
        Motion::at(step as f64 * DT, self.case.from)
    }

    /// One sample of the inertial sensor. It holds for the interval before the step, so it is read at the interval's middle.
    fn propagate(&mut self, step: usize) -> Result<(), Refusal> {
        let middle = Motion::at((step as f64 - 0.5) * DT, self.case.from);
        let imu = self.sensors.imu(&middle, &mut self.random);
        self.filter.propagate(&imu.numbers(&DENSITIES))
    }

    /// The updates that are due at a step.
    fn update(&mut self, step: usize, fault: bool) -> Result<(), Refusal> {
        let truth = self.truth(step);
        if step % FIX_STEPS == 0 {
            let fix = self.sensors.fix(&truth, fault, &mut self.random);
            self.position
                .add(step, self.filter.update_position(&fix.numbers())?);
            let fix = self.sensors.velocity_fix(&truth, &mut self.random);
            self.velocity
                .add(step, self.filter.update_velocity(&fix.numbers())?);
        }
        if step % DIRECTION_STEPS == 0 {
            let direction = self.sensors.direction(&truth, &mut self.random);
            self.direction
                .add(step, self.filter.update_direction(&direction.numbers())?);
        }
        Ok(())
    }

    fn position_error(&self, step: usize) -> f64 {
        norm(difference(
            self.filter.position(),
            self.truth(step).position,
        ))
    }

    fn step(&mut self, step: usize) -> Result<(), Refusal> {
        let fault = self.case.fault && FAULT_STEPS.contains(&step);
        self.propagate(step)?;
        self.update(step, fault)?;
        if step == FIRST_MINUTE {
            self.filter.set_alphas(Alphas::all(self.case.alpha_later));
        }
        if fault {
            self.position_error_in_fault =
                self.position_error_in_fault.max(self.position_error(step));
        }
        Ok(())
    }

    fn outcome(&self) -> Outcome {
        let off = product(
            &self.truth(STEPS).attitude,
            &transpose(&self.filter.attitude()),
        );
        Outcome {
            position_error: self.position_error(STEPS),
            attitude_error: angle_of(&off),
            nis_position: self.position.value(),
            nis_velocity: self.velocity.value(),
            nis_direction: self.direction.value(),
            position_error_in_fault: self.position_error_in_fault,
        }
    }
}

/// A flight of two minutes. A refused call ends it: the refusal is then the answer.
pub fn fly(case: Case, seed: u64) -> Result<Outcome, Refusal> {
    let mut flight = Flight::new(case, seed)?;
    for step in 1..=STEPS {
        flight.step(step)?;
    }
    Ok(flight.outcome())
}
