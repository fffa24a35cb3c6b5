//! A list of calls with the original's answers, and the count of these.
use original::kinds;
use original::places::STATE;
use original::{filter_of, Answer, Call, LAST_KIND};

/// The most calls and bytes of a sheet.
const MOST_CALLS: usize = 255;
const MOST_BYTES: usize = 65_532;

/// The code of a NIS.
const NIS: u64 = 256;

/// What the runs that a call may write hold before it.
pub const UNTOUCHED: f64 = 1.5;

/// Above this the numbers of a filter only lead to more refusals of one kind.
const MOST_NUMBER: f64 = 1e6;

/// The digest of crates/replay_lists/src/digest.rt.
pub fn digest(numbers: &[f64]) -> u64 {
    const M: u64 = 0x7fff_ffff;
    let (mut a, mut b) = (0, 0);
    for x in numbers {
        let bits = bits_of(*x);
        for half in [bits >> 32, bits & 0xffff_ffff] {
            a = (a * 1_103_515_245 + half) % M;
            b = (b * 1_566_083_941 + half) % M;
        }
    }
    (a << 32) + b
}

pub fn bits_of(x: f64) -> u64 {
    if x.is_nan() {
        0x7ff8_0000_0000_0000
    } else {
        x.to_bits()
    }
}

/// A stored answer: a code, the bits of the NIS, two digests.
pub fn stored(answer: Answer, state: u64, filter: u64) -> Vec<u8> {
    let (code, nis) = match answer {
        Answer::Fine => (0, 0),
        Answer::Nis(nis) => (NIS, bits_of(nis)),
        Answer::Refused(n) => (u64::from(n), 0),
    };
    [code, nis, state, filter].iter().flat_map(|x| x.to_le_bytes()).collect()
}

pub struct List {
    pub name: &'static str,
    filter: Vec<f64>,
    pub run: Vec<f64>,
    calls: Vec<(u32, Vec<f64>)>,
    bytes: usize,
    pub answers: Vec<u8>,
    pub tally: Tally,
}

impl List {
    pub fn new(name: &'static str, filter: &[f64]) -> Self {
        let run = filter.to_vec();
        let bytes = 12 + 8 * filter.len();
        Self { name, filter: run.clone(), run, calls: Vec::new(), bytes, answers: Vec::new(), tally: Tally::default() }
    }

    pub fn sheet(&self) -> Vec<u8> {
        inputs::sheet(&self.filter, &self.calls)
    }

    fn has_room(&self, numbers: &[f64]) -> bool {
        self.calls.len() < MOST_CALLS && self.bytes + 8 + 8 * numbers.len() <= MOST_BYTES
    }

    /// Adds a call, made on the filter that the one before it left.
    pub fn add(&mut self, (kind, numbers): (u32, Vec<f64>)) -> Answer {
        assert!(self.has_room(&numbers), "{}: too many calls", self.name);
        let mut state = [UNTOUCHED; STATE];
        let raw_factor = Call::read(kind, &numbers).has_raw_factor(&filter_of(kind, &self.run));
        let answer = original::call(kind, &mut self.run, &numbers, &mut state[..original::written_length(kind)]);
        self.answers.extend(stored(answer, digest(&state), digest(&self.run)));
        self.tally.count(kind, answer, raw_factor);
        self.bytes += 8 + 8 * numbers.len();
        self.calls.push((kind, numbers));
        answer
    }

    /// Adds a call unless it would leave a filter of large numbers, on which little else would be accepted.
    pub fn add_tame(&mut self, call: (u32, Vec<f64>)) {
        let mut run = self.run.clone();
        let mut state = [0.0; STATE];
        original::call(call.0, &mut run, &call.1, &mut state[..original::written_length(call.0)]);
        if run == self.run || run.iter().all(|x| x.abs() < MOST_NUMBER) {
            self.add(call);
        }
    }
}

/// How often each kind gave each answer: accepted, 2, 3, 4 of the raw matrix, 5, 4 of the inflated matrix, and 7.
#[derive(Default)]
pub struct Tally([[usize; ANSWERS.len()]; LAST_KIND as usize]);

const ANSWERS: [&str; 7] = ["accepted", "2", "3", "4 raw", "5", "4 inflated", "7"];

impl Tally {
    fn count(&mut self, kind: u32, answer: Answer, raw_factor: bool) {
        let column = match answer {
            Answer::Refused(4) if raw_factor => 5,
            Answer::Refused(n) => n as usize - 1,
            _ => 0,
        };
        self.0[kind as usize - 1][column] += 1;
    }

    pub fn add(&mut self, more: &Self) {
        for (row, more) in self.0.iter_mut().zip(&more.0) {
            row.iter_mut().zip(more).for_each(|(n, m)| *n += m);
        }
    }

    /// A line of the kinds, each with how often it gave each answer.
    pub fn print(&self, name: &str) {
        println!("{name:14} {:5} calls: {:?}", self.0.iter().flatten().sum::<usize>(), self.0);
    }

    /// Every kind gives each answer that it can.
    pub fn expect_each_refusal(&self) {
        for (kind, row) in (1..).zip(&self.0) {
            let can = match kind {
                kinds::PROPAGATE => [true, true, true, false, true, false, false],
                kinds::DIRECTION => [true; 7],
                kinds::STATE => [true, true, false, false, true, false, false],
                _ => [true, true, true, true, true, true, false],
            };
            for (i, answer) in ANSWERS.iter().enumerate() {
                assert!(!can[i] || row[i] > 0, "no call of kind {kind} gives {answer}");
            }
        }
    }
}
