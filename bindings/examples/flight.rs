//! A short flight: start, a propagation, each update, a change to one alpha and back, a refused update, the estimate,
//! and a call sheet. flight.c is the same in C.
use std::array::from_fn;
use std::process::ExitCode;

use drifters_port::places::coordinate;
use drifters_port::{diagonal, kind, run_sheet_into};
use drifters_port::{Alphas, CompassesAnswer, Filter, Refusal, State};
use drifters_port::{
    Compasses, Densities, Deviations, Direction, Fix, General, Imu, Scalar, Start, VelocityFix,
};
use drifters_port::{FILTER_LENGTH, MOST_READINGS, POSITION_LENGTH, STATES, TEXT_LENGTH};

/// A number by its bits and in decimal.
fn print_number(x: f64) {
    println!(" {:016X} {x:.9}", x.to_bits());
}

fn print_update(name: &str, answer: Result<f64, Refusal>) {
    match answer {
        Ok(nis) => {
            print!("{name}");
            print_number(nis);
        }
        Err(refusal) => println!("{name} refused {}", refusal.number()),
    }
}

/// Level and at rest at the origin, with some doubt in every direction. Each alpha is 0.5 after a start, too much for
/// most flights: docs/MANUAL.md says why.
fn start() -> Result<Filter, Refusal> {
    let state = State::default();
    let deviations = Deviations {
        attitude: [0.1; 3],
        velocity: [0.1; 3],
        position: [0.1; 3],
        gyro_bias: [0.1; 3],
        accel_bias: [0.1; 3],
        lever: [0.1; 3],
        mag: [0.1; 3],
    };
    let start = Start {
        state,
        sigma: deviations.sigma(&state),
        gravity: [0.0, 0.0, 9.81],
    };
    let mut filter = Filter::start(&start.numbers())?;
    filter.set_alphas(Alphas::all(0.01));
    println!("start ok");
    Ok(filter)
}

/// Ten milliseconds of a slow turn under thrust.
fn propagate(filter: &mut Filter) -> Result<(), Refusal> {
    let imu = Imu {
        omega: [0.01, -0.02, 0.03],
        accel: [0.5, 0.0, -9.81],
        dt: 0.01,
    };
    let densities = Densities {
        gyro: [0.001; 3],
        accel: [0.001; 3],
        gyro_bias: [0.00001; 3],
        accel_bias: [0.00001; 3],
        ..Densities::default()
    };
    filter.propagate(&imu.numbers(&densities))?;
    println!("propagate ok");
    Ok(())
}

/// An antenna position with the given variance on each axis.
fn update_position(filter: &mut Filter, variance: f64) {
    let fix = Fix {
        antenna: [0.25, -0.5, 0.125],
        noise: diagonal([variance; 3]),
    };
    print_update("update_position", filter.update_position(&fix.numbers()));
}

fn update_velocity(filter: &mut Filter) {
    let fix = VelocityFix {
        antenna: [0.0625, 0.0, -0.03125],
        omega: [0.01, -0.02, 0.03],
        noise: diagonal([0.04; 3]),
    };
    print_update("update_velocity", filter.update_velocity(&fix.numbers()));
}

fn update_direction(filter: &mut Filter) {
    let field = Direction {
        measured: [0.875, 0.125, 0.5],
        north: [1.0, 0.0, 0.5],
        noise: diagonal([0.01; 3]),
    };
    print_update(
        "update_direction",
        filter.update_direction(&field.numbers()),
    );
}

/// The position of the sensor itself, as a tracker on the ground sees it: predicted minus measured. m^ stands on the
/// attitude's columns, where m is halfway between the two.
fn update(filter: &mut Filter) {
    let tracked = [0.125, 0.0, -0.25];
    let predicted = filter.position();
    let m: [f64; 3] = from_fn(|i| (predicted[i] + tracked[i]) * 0.5);
    let mut output = [[0.0; STATES]; 3];
    for (i, row) in output.iter_mut().enumerate() {
        let (j, k) = ((i + 1) % 3, (i + 2) % 3);
        row[coordinate::ATTITUDE + j] = -m[k];
        row[coordinate::ATTITUDE + k] = m[j];
        row[coordinate::POSITION + i] = -1.0;
    }
    let seen = General {
        output,
        innovation: from_fn(|i| predicted[i] - tracked[i]),
        noise: diagonal([0.5; 3]),
    };
    print_update("update", filter.update(&seen.numbers()));
}

/// The height of the sensor, as a pressure gauge has it: the third row of the update above, with the m that is
/// predicted, since north and east are not measured.
fn update_scalar(filter: &mut Filter) {
    let height = 0.0625;
    let predicted = filter.position();
    let mut output = [0.0; STATES];
    output[coordinate::ATTITUDE] = -predicted[1];
    output[coordinate::ATTITUDE + 1] = predicted[0];
    output[coordinate::POSITION + 2] = -1.0;
    let seen = Scalar {
        output,
        innovation: predicted[2] - -height,
        variance: 0.25,
    };
    print_update("update_scalar", filter.update_scalar(&seen.numbers()));
}

/// Three compasses: one is switched off, one is beside a magnet, and the third is applied.
fn update_compasses(filter: &mut Filter) -> Result<(), Refusal> {
    let readings = [[0.0; 3], [0.5, 0.75, 0.25], [0.875, 0.0625, 0.5]];
    let compasses = Compasses {
        north: [1.0, 0.0, 0.5],
        noise: diagonal([0.01; 3]),
    };
    match filter.update_compasses(&readings, &compasses.numbers(), MOST_READINGS)? {
        CompassesAnswer::None { tried } => println!("update_compasses, {tried} tried, none"),
        CompassesAnswer::Chosen { index, nis, tried } => {
            print!("update_compasses, {tried} tried, compass {index}");
            print_number(nis);
        }
    }
    Ok(())
}

fn print_change(before: &Filter, after: &Filter) {
    let word = if after == before {
        "unchanged"
    } else {
        "changed"
    };
    println!("filter {word}");
}

/// To a filter with one alpha, as version 0.6.0 takes it, and back. The alphas are equal, so nothing is lost.
fn change_over(filter: &Filter) -> Result<(), Refusal> {
    let one_alpha = filter.downgrade()?;
    println!("downgrade ok");
    let again = Filter::upgrade(&one_alpha)?;
    println!("upgrade ok");
    print_change(filter, &again);
    Ok(())
}

/// A variance below 0: no such matrix has a Cholesky factor. The refused update changes nothing.
fn refused_update(filter: &mut Filter) {
    let before = filter.clone();
    update_position(filter, -1.0);
    print_change(&before, filter);
}

fn print_state(filter: &Filter) -> Result<(), Refusal> {
    let state = filter.nav_state()?;
    println!("nav_state");
    for x in state.numbers() {
        print_number(x);
    }
    Ok(())
}

fn put_u32(bytes: &mut Vec<u8>, n: u32) {
    bytes.extend(n.to_le_bytes());
}

fn put_numbers(bytes: &mut Vec<u8>, numbers: &[f64]) {
    for x in numbers {
        bytes.extend(x.to_le_bytes());
    }
}

/// A position call of the sheet: an antenna at (x, 0, 0), the same variance on each axis.
fn position(x: f64, variance: f64) -> [f64; POSITION_LENGTH] {
    let fix = Fix {
        antenna: [x, 0.0, 0.0],
        noise: diagonal([variance; 3]),
    };
    fix.numbers()
}

/// The sheet of a filter and position calls: a count, a kind and an offset for each entry, then the numbers.
fn sheet(filter: &Filter, calls: &[[f64; POSITION_LENGTH]]) -> Vec<u8> {
    let entries = 1 + calls.len();
    let table_bytes = 4 + 8 * entries;
    let mut bytes = Vec::new();
    put_u32(&mut bytes, entries as u32);
    put_u32(&mut bytes, kind::FILTER);
    put_u32(&mut bytes, table_bytes as u32);
    for i in 0..calls.len() {
        let offset = table_bytes + 8 * (FILTER_LENGTH + i * POSITION_LENGTH);
        put_u32(&mut bytes, kind::POSITION);
        put_u32(&mut bytes, offset as u32);
    }
    put_numbers(&mut bytes, &filter.0);
    put_numbers(&mut bytes, calls.as_flattened());
    bytes
}

/// Three position calls on a filter that is certain of all and knows no gravity.
fn run_sheet() -> Result<(), Refusal> {
    let start = Start {
        state: State::default(),
        sigma: diagonal([0.0; STATES]),
        gravity: [0.0; 3],
    };
    let filter = Filter::start(&start.numbers())?;
    let calls = [position(0.0, 1.0), position(1.0, 1.0), position(0.0, -1.0)];
    let mut text = [0; TEXT_LENGTH];
    println!("run_sheet");
    print!("{}", run_sheet_into(&sheet(&filter, &calls), &mut text));
    Ok(())
}

fn flight() -> Result<(), Refusal> {
    let mut filter = start()?;
    propagate(&mut filter)?;
    update_position(&mut filter, 0.25);
    update_velocity(&mut filter);
    update_direction(&mut filter);
    update(&mut filter);
    update_scalar(&mut filter);
    update_compasses(&mut filter)?;
    change_over(&filter)?;
    refused_update(&mut filter);
    print_state(&filter)?;
    run_sheet()
}

fn main() -> ExitCode {
    match flight() {
        Ok(()) => ExitCode::SUCCESS,
        Err(refusal) => {
            eprintln!("flight: {refusal}");
            ExitCode::FAILURE
        }
    }
}
