//! The library's sine, cosine and square root.
use crate::exported;
use crate::refusal::checked;

/// Sine and cosine of an angle from 0 to 8 rad; for any other both are not a number.
///
/// ```
/// assert_eq!(drifters_port::sin_cos(0.0), (0.0, 1.0));
/// ```
pub fn sin_cos(theta: f64) -> (f64, f64) {
    let mut both = [0.0; 2];
    checked(exported::sin_cos(theta, &mut both)).expect("the run has its length");
    (both[0], both[1])
}

/// The square root, rounded to nearest; of a number below 0 it is not a number.
///
/// ```
/// assert_eq!(drifters_port::sqrt(4.0), 2.0);
/// ```
pub fn sqrt(x: f64) -> f64 {
    exported::sqrt(x)
}
