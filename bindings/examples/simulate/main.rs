//! Simulated flights with several first covariances and alphas: prints the table of docs/MANUAL.md. It reads nothing, and it prints the
//! same on every machine: its random numbers are its own, its sines and roots the library's.
mod flight;
mod motion;
mod random;
mod vector;

use drifters_port::Refusal;
use flight::{fly, Case, FirstSigma, Outcome};
use vector::Vector;

/// How many flights each row of the table has; they differ in their random numbers.
const FLIGHTS: u64 = 3;

const FAR_AWAY: Vector = [3000.0, -2000.0, -8000.0];

/// The first covariance, and where the flight begins.
const CASES: [(&str, FirstSigma, Vector); 4] = [
    (
        "deviations, at the origin",
        FirstSigma::Deviations,
        [0.0; 3],
    ),
    ("deviations, 9 km away", FirstSigma::Deviations, FAR_AWAY),
    ("diagonal, at the origin", FirstSigma::Diagonal, [0.0; 3]),
    ("diagonal, 9 km away", FirstSigma::Diagonal, FAR_AWAY),
];

/// In the first minute, and after it.
const ALPHAS: [(f64, f64); 5] = [(0.0, 0.0), (0.01, 0.01), (0.1, 0.1), (0.5, 0.5), (0.5, 0.0)];

const HEADING: &str = "\
| first covariance | alpha | position error, m | attitude error, degrees | NIS, position | velocity | direction | position error in a fault, m |
|---|---|---|---|---|---|---|---|";

/// The flights of a case.
fn outcomes(case: Case) -> Result<Vec<Outcome>, Refusal> {
    (1..=FLIGHTS).map(|seed| fly(case, seed)).collect()
}

/// The largest of a number over the flights.
fn largest(outcomes: &[Outcome], of: fn(&Outcome) -> f64) -> f64 {
    outcomes.iter().map(of).fold(0.0, f64::max)
}

/// The mean of a number over the flights.
fn mean(outcomes: &[Outcome], of: fn(&Outcome) -> f64) -> f64 {
    outcomes.iter().map(of).sum::<f64>() / FLIGHTS as f64
}

fn alpha_text(case: Case) -> String {
    if case.alpha == case.alpha_later {
        return case.alpha.to_string();
    }
    format!("{}, after a minute {}", case.alpha, case.alpha_later)
}

/// A row of the table: the flights without a fault, then what the fault does.
fn row(name: &str, case: Case) -> Result<String, Refusal> {
    let good = outcomes(case)?;
    let faulty = outcomes(Case {
        fault: true,
        ..case
    })?;
    Ok(format!(
        "| {name} | {} | {:.1} | {:.1} | {:.1} | {:.1} | {:.1} | {:.1} |",
        alpha_text(case),
        largest(&good, |o| o.position_error),
        largest(&good, |o| o.attitude_error),
        mean(&good, |o| o.nis_position),
        mean(&good, |o| o.nis_velocity),
        mean(&good, |o| o.nis_direction),
        largest(&faulty, |o| o.position_error_in_fault),
    ))
}

fn main() -> Result<(), Refusal> {
    println!("{HEADING}");
    for (name, first_sigma, from) in CASES {
        for (alpha, alpha_later) in ALPHAS {
            let case = Case {
                first_sigma,
                from,
                alpha,
                alpha_later,
                fault: false,
            };
            println!("{}", row(name, case)?);
        }
    }
    Ok(())
}
