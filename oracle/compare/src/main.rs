//! Compares the port with the original, bit for bit: the calls, updates by several compasses, filters that are changed over, call sheets and the leaves;
//! the conversions with a second reading; and the port with itself through half turns.
//!
//! Ends with status 1 where anything differs.
mod alphas;
mod calls;
mod changed_over;
mod compasses;
mod conversion_reading;
mod conversions;
mod half_turns;
mod leaves;
mod lent;
mod sheets;

use std::process::exit;
use std::thread;

/// How many threads share the seeds.
const THREADS: u64 = 2;

/// Does the work of the seeds below a count in threads, and gives what each thread found.
fn in_threads<T: Send>(seeds: u64, work: impl Fn(&mut dyn Iterator<Item = u64>) -> T + Sync) -> Vec<T> {
    let work = &work;
    thread::scope(|scope| {
        let threads: Vec<_> = (0..THREADS).map(|first| scope.spawn(move || work(&mut (first..seeds).step_by(THREADS as usize)))).collect();
        threads.into_iter().map(|thread| thread.join().expect("a thread that ends")).collect()
    })
}

fn main() {
    let differ = leaves::compare()
        + calls::compare()
        + compasses::compare()
        + conversions::compare()
        + changed_over::compare()
        + sheets::compare()
        + half_turns::compare();
    println!("{differ} differ in all");
    exit(i32::from(differ > 0));
}
