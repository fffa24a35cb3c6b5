//! Inputs for the comparison and the measurements, from fixed seeds: numbers, flights, logs of calls, propagations with large biases, compasses and call sheets.
mod alphas;
mod biased;
mod compasses;
mod flight;
mod log;
pub mod norms;
mod numbers;
mod scalar;
mod sheet;

pub use alphas::{one_alpha, BLANKS};
pub use biased::{biased, rounded_away};
pub use compasses::{compasses, flown, spoil, Compasses};
pub use flight::Flight;
pub use log::{call, log, one_alpha_log, start, Log, Manner};
pub use numbers::{beside, Numbers};
pub use sheet::sheet;
