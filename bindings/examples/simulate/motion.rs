//! The true motion of the mount: it drifts with the wind, climbs, sways and turns.
use crate::vector::{product, sine_cosine, Matrix, Vector};

/// The drift along each axis, m/s.
const WIND: Vector = [8.0, 3.0, -4.0];
/// The sway along each axis: its size in m and its rate in rad/s.
const SWAY: [(f64, f64); 3] = [(3.0, 0.9), (2.0, 0.7), (0.5, 0.4)];

pub struct Motion {
    pub attitude: Matrix,
    pub velocity: Vector,
    pub position: Vector,
    /// The derivative of the velocity.
    pub acceleration: Vector,
    /// The body rate, in the body frame.
    pub omega: Vector,
}

/// An angle that swings about a steady turn, and its rate.
fn angle_at(time: f64, steady: f64, size: f64, rate: f64) -> (f64, f64) {
    let (s, c) = sine_cosine(rate * time);
    (steady * time + size * s, steady + size * rate * c)
}

impl Motion {
    /// The motion at a time, from a first place.
    pub fn at(time: f64, from: Vector) -> Motion {
        let (mut position, mut velocity, mut acceleration) = (from, WIND, [0.0; 3]);
        for (i, (size, rate)) in SWAY.into_iter().enumerate() {
            let (s, c) = sine_cosine(rate * time);
            position[i] += WIND[i] * time + size * s;
            velocity[i] += size * rate * c;
            acceleration[i] = -size * rate * rate * s;
        }
        let (attitude, omega) = turn_at(time);
        Motion {
            attitude,
            velocity,
            position,
            acceleration,
            omega,
        }
    }
}

/// The attitude by roll, pitch and yaw, and the body rate.
fn turn_at(time: f64) -> (Matrix, Vector) {
    let (roll, roll_rate) = angle_at(time, 0.0, 0.15, 0.9);
    let (pitch, pitch_rate) = angle_at(time, 0.0, 0.1, 0.7);
    let (yaw, yaw_rate) = angle_at(time, 0.05, 1.2, 0.1);
    let (sr, cr) = sine_cosine(roll);
    let (sp, cp) = sine_cosine(pitch);
    let (sy, cy) = sine_cosine(yaw);
    let about_x = [[1.0, 0.0, 0.0], [0.0, cr, -sr], [0.0, sr, cr]];
    let about_y = [[cp, 0.0, sp], [0.0, 1.0, 0.0], [-sp, 0.0, cp]];
    let about_z = [[cy, -sy, 0.0], [sy, cy, 0.0], [0.0, 0.0, 1.0]];
    let omega = [
        roll_rate - yaw_rate * sp,
        pitch_rate * cr + yaw_rate * cp * sr,
        yaw_rate * cp * cr - pitch_rate * sr,
    ];
    (product(&about_z, &product(&about_y, &about_x)), omega)
}
