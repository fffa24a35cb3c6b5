//! What a choice among several good compasses does to a filter: the table of docs/MANUAL.md.
use super::*;
use crate::places::coordinate;
use std::format;
use std::vec::Vec;

/// Numbers that are spread like a bell of deviation 1, the same in each run: sums of twelve of a linear congruence.
struct Noise(u64);

impl Noise {
    fn next(&mut self) -> f64 {
        let mut sum = -6.0;
        for _ in 0..12 {
            self.0 = self
                .0
                .wrapping_mul(6364136223846793005)
                .wrapping_add(1442695040888963407);
            sum += (self.0 >> 11) as f64 / (1u64 << 53) as f64;
        }
        sum
    }
}

/// How many calls a flight has, and the deviation of each compass, rad.
const CALLS: usize = 200;
const DEVIATION: f64 = 0.01;

/// A mount at rest, whose attitude is known to 0.1 rad, with so many good compasses. Gives the mean NIS, the squared
/// error of the field's direction afterwards, and what the covariance says of it.
fn flight(count: usize, noise: &mut Noise) -> [f64; 3] {
    let compasses = Compasses {
        north: [0.6, 0.0, 0.8],
        noise: diagonal([DEVIATION * DEVIATION; 3]),
    };
    let north = compasses.north;
    let attitude = turn(core::array::from_fn(|_| 0.1 * noise.next()));
    let seen = times(transposed(attitude), north);
    let deviations = Deviations {
        attitude: [0.1; 3],
        ..Deviations::default()
    };
    let mut filter = started(&State::default(), deviations.sigma(&State::default()));
    filter.set_alphas(Alphas::all(0.01));
    let mut mean = 0.0;
    for _ in 0..CALLS {
        let readings: Vec<[f64; 3]> = (0..count)
            .map(|_| seen.map(|x| x + DEVIATION * noise.next()))
            .collect();
        match filter.update_compasses(&readings, &compasses.numbers(), MOST_READINGS) {
            Ok(CompassesAnswer::Chosen { nis, .. }) => mean += nis / CALLS as f64,
            other => panic!("{other:?}"),
        }
    }
    let error = cross(north, times(filter.attitude(), seen));
    let sigma: [[f64; 3]; 3] = core::array::from_fn(|i| {
        core::array::from_fn(|j| filter.sigma_at(coordinate::MAG + i, coordinate::MAG + j))
    });
    // across north: along it nothing is measured
    let said = sigma[0][0] + sigma[1][1] + sigma[2][2] - dot(north, times(sigma, north));
    [mean, dot(error, error), said]
}

/// Over 60 flights: the mean NIS, and how many times larger the error is than the covariance says.
fn flights(count: usize) -> (f64, f64) {
    let mut noise = Noise(1);
    let sums = (0..60).fold([0.0; 3], |sums, _| plus(sums, flight(count, &mut noise)));
    (sums[0] / 60.0, (sums[1] / sums[2]).sqrt())
}

/// The rows of docs/MANUAL.md on a choice among good compasses: the NIS is smaller, and the filter surer than it may be.
#[test]
fn a_choice_among_good_compasses() {
    let manual = include_str!("../../../docs/MANUAL.md");
    for count in [1, 2, 4, 8] {
        let (nis, ratio) = flights(count);
        let row = format!("\n| {count} | {nis:.1} | {ratio:.0} |\n");
        assert!(manual.contains(&row), "{row}");
    }
}
