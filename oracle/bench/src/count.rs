//! The instructions of a call, by callgrind: the same program at two counts of calls, and their difference.
use crate::rows::{self, Side};
use std::process::Command;

const FEW: u32 = 2;
const MORE: u32 = 12;

/// Makes calls of one row on one side, and nothing else that depends on their count.
pub fn make(name: &str, side: &str, calls: &str) {
    let row = rows::named(name);
    let mut call = if side == Side::Port.name() { row.port } else { row.original };
    for _ in 0..calls.parse().expect("a count") {
        call();
    }
}

/// The instructions that callgrind counts for a whole run with so many calls; None where it is not at hand.
fn collected(name: &str, side: Side, calls: u32) -> Option<f64> {
    let output = Command::new("valgrind")
        .args(["--tool=callgrind", "--callgrind-out-file=/dev/null"])
        .arg(std::env::current_exe().ok()?)
        .args(["count", name, side.name(), &calls.to_string()])
        .output()
        .ok()?;
    let text = String::from_utf8_lossy(&output.stderr).into_owned();
    let line = text.lines().find(|line| line.contains("Collected :"))?;
    line.split_whitespace().last()?.parse().ok()
}

/// The instructions of one call.
pub fn instructions(name: &str, side: Side) -> Option<f64> {
    let calls = f64::from(MORE - FEW);
    Some((collected(name, side, MORE)? - collected(name, side, FEW)?) / calls)
}
