//! Starts with the original's answers: ordinary ones, with zeros and any magnitude, with large numbers, and with numbers that are not finite.
use crate::list::{digest, stored, UNTOUCHED};
use inputs::{Flight, Numbers};
use original::places::{E, FILTER, GAMMA};
use original::Answer;

const STARTS: usize = 24;

/// The numbers of start i: a flight's, in one of four ways.
fn numbers(i: usize) -> Vec<f64> {
    let mut n = Numbers::new(100 + i as u64);
    let mut start = Flight::new(100 + i as u64).start();
    start[GAMMA..E].iter_mut().for_each(|x| *x = n.within(1.0));
    let most = n.one_of(&[1e100, 1e160, 1e300]);
    for x in &mut start {
        match i % 4 {
            0 => *x += n.within(0.1),
            1 if n.one_in(4) => *x = n.number(false),
            2 if n.one_in(4) => *x = n.within(most),
            3 if n.one_in(200) => *x = n.one_of(&[f64::INFINITY, f64::NEG_INFINITY, f64::NAN]),
            _ => {}
        }
    }
    start
}

/// The numbers and the answer of each start.
pub fn all() -> Vec<u8> {
    let (mut bytes, mut codes) = (Vec::new(), [0; 3]);
    for i in 0..STARTS {
        let numbers = numbers(i);
        let mut run = [UNTOUCHED; FILTER];
        let answer = original::start(&mut run, &numbers);
        codes[match answer {
            Answer::Refused(2) => 1,
            Answer::Refused(5) => 2,
            _ => 0,
        }] += 1;
        bytes.extend(numbers.iter().flat_map(|x| x.to_le_bytes()));
        bytes.extend(stored(answer, 0, digest(&run)));
    }
    println!("starts: {} accepted, {} refused 2, {} refused 5", codes[0], codes[1], codes[2]);
    assert!(codes.iter().all(|n| *n > 0));
    bytes
}
