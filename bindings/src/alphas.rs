//! The alphas of a filter.

/// An alpha for each sensor. It says how an update takes a surprising measurement: at 0 with half its plain weight or
/// more, at 1 with the least. docs/MANUAL.md has more.
///
/// [`Filter::set_alphas`](crate::Filter::set_alphas) stores any numbers. A call takes one below 0 as 0 and one above 1
/// as 1, and refuses one that is not finite by [`Refusal::Blank`](crate::Refusal::Blank), be it of another sensor.
///
/// ```
/// use drifters_port::Alphas;
///
/// let alphas = Alphas { direction: 0.1, ..Alphas::all(0.01) };
/// assert_eq!([alphas.position, alphas.velocity, alphas.direction], [0.01, 0.01, 0.1]);
/// ```
#[derive(Clone, Copy, Debug, PartialEq)]
pub struct Alphas {
    /// Of updates by position, of general ones, and of those by one measured number.
    pub position: f64,
    /// Of updates by velocity.
    pub velocity: f64,
    /// Of updates by direction, and by several compasses.
    pub direction: f64,
}

impl Alphas {
    /// The same alpha for each sensor.
    pub fn all(alpha: f64) -> Alphas {
        Alphas {
            position: alpha,
            velocity: alpha,
            direction: alpha,
        }
    }
}
