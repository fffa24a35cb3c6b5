//! Time, instructions and stack of the port's calls and of the original's, on the same inputs, as a Markdown table.
//!
//! `bench count ROW SIDE CALLS` only makes CALLS calls: so the instructions are counted from outside, at two counts.
mod count;
mod rows;
mod stack;
mod time;

use original::places::MOST_READINGS;
use rows::{Row, Side, ALL_COMPASSES};

/// The goal for a propagation and an update: the port's time over the original's.
const GOAL: f64 = 0.7;
/// The goal for a scalar update: its time over that of the general update, both the port's.
const SCALAR_GOAL: f64 = 0.75;

fn measure() {
    println!("| call | port, us | original, us | ratio | instructions, port | original | ratio | stack in bytes, port | original |");
    println!("|---|---|---|---|---|---|---|---|---|");
    let (mut above, mut times) = (Vec::new(), Vec::new());
    for Row { name, mut port, mut original } in rows::all() {
        let (time_port, time_original) = time::medians(&mut port, &mut original);
        let ratio = time_port / time_original;
        if ratio > GOAL && (name == "propagate" || name.starts_with("update")) {
            above.push(name);
        }
        times.push((name, time_port));
        let stack = [stack::peak(port), stack::peak(original)];
        let instructions = match (count::instructions(name, Side::Port), count::instructions(name, Side::Original)) {
            (Some(port), Some(original)) => format!("{port:.0} | {original:.0} | {:.2}", port / original),
            _ => "- | - | -".into(),
        };
        println!("| {name} | {time_port:.2} | {time_original:.2} | {ratio:.2} | {instructions} | {} | {} |", stack[0], stack[1]);
    }
    for name in above {
        println!("above {GOAL}: {name}");
    }
    let general = times.iter().find(|(name, _)| *name == "update").expect("the general update").1;
    for (name, time) in times.iter().filter(|(name, _)| name.starts_with("update_scalar")) {
        println!("{name}: {:.2} of the port's update, goal {SCALAR_GOAL}", time / general);
    }
    print_compasses();
}

/// The port's update by all compasses over as many of its directions, timed in turn.
fn print_compasses() {
    let (mut compasses, mut direction) = (rows::named(ALL_COMPASSES).port, rows::named("update_direction").port);
    let (time, time_direction) = time::medians(&mut compasses, &mut direction);
    let ratio = time / (MOST_READINGS as f64 * time_direction);
    let stack = stack::peak(compasses);
    println!("{ALL_COMPASSES}: {ratio:.2} of {MOST_READINGS} times the port's update_direction; stack {stack} bytes");
}

fn main() {
    let words: Vec<String> = std::env::args().skip(1).collect();
    match words.iter().map(String::as_str).collect::<Vec<_>>()[..] {
        [] => measure(),
        ["count", row, side, calls] => count::make(row, side, calls),
        _ => panic!("bench, or bench count ROW SIDE CALLS"),
    }
}
