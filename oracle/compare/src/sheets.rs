//! Call sheets on the port and on the original: the text byte for byte, and the bytes past it.
use crate::in_threads;
use inputs::{log, sheet, Manner, Numbers};
use original::places::FILTER;
use original::{call_length, run_sheet, LAST_KIND, REFUSED_SHEET};

const SHEETS: u64 = 6000;
const SHEET_CALLS: usize = 120;
const MOST_BYTES: usize = 65_536;
/// The least bytes that the port takes for a text.
const MOST_TEXT: usize = 5865;
const UNTOUCHED: u8 = 0xa5;

/// How many sheets were run, how many of them were refused whole, how many lines were compared, how many of these are of a call refused 7, and how
/// many sheets differ.
#[derive(Clone, Copy, Default)]
struct Tally {
    sheets: u64,
    refused: u64,
    lines: u64,
    null: u64,
    differ: u64,
}

impl Tally {
    fn add(self, other: Self) -> Self {
        Self {
            sheets: self.sheets + other.sheets,
            refused: self.refused + other.refused,
            lines: self.lines + other.lines,
            null: self.null + other.null,
            differ: self.differ + other.differ,
        }
    }

    fn compare(&mut self, bytes: &[u8]) {
        let text = run_sheet(bytes);
        let (mut ours, mut length) = (vec![UNTOUCHED; MOST_TEXT + 64], [0]);
        let code = port::run_sheet(bytes, &mut ours, &mut length);
        let (front, rest) = ours.split_at(length[0]);
        self.sheets += 1;
        self.refused += u64::from(text == REFUSED_SHEET);
        self.lines += text.lines().count() as u64;
        self.null += text.lines().filter(|line| line.ends_with(" refused 7")).count() as u64;
        if code != 0 || front != text.as_bytes() || rest.iter().any(|byte| *byte != UNTOUCHED) {
            self.differ += 1;
            if self.differ == 1 {
                println!("a sheet of {} bytes: code {code}, port {:?}, original {text:?}", bytes.len(), String::from_utf8_lossy(front));
            }
        }
    }

    /// Runs of another length are refused as length, and nothing is written.
    fn compare_lengths(&mut self, bytes: &[u8]) {
        for (text_length, results) in [(MOST_TEXT - 1, 1), (0, 1), (MOST_TEXT, 0), (MOST_TEXT, 2)] {
            let (mut text, mut length) = (vec![UNTOUCHED; text_length], vec![usize::MAX; results]);
            let code = port::run_sheet(bytes, &mut text, &mut length);
            let untouched = text.iter().all(|byte| *byte == UNTOUCHED) && length.iter().all(|n| *n == usize::MAX);
            self.sheets += 1;
            self.differ += u64::from(code != 1 || !untouched);
        }
    }
}

fn put_u32(bytes: &mut [u8], place: usize, value: u32) {
    bytes[place..place + 4].copy_from_slice(&value.to_le_bytes());
}

fn u32_at(bytes: &[u8], place: usize) -> u32 {
    u32::from_le_bytes(bytes[place..place + 4].try_into().expect("four bytes"))
}

/// Damages each field of the table in turn: small numbers, which are kinds too, numbers beside it, and the largest.
fn damage_table(tally: &mut Tally, bytes: &[u8]) {
    let fields = 1 + 2 * u32_at(bytes, 0) as usize;
    for place in (0..fields).map(|field| 4 * field) {
        let value = u32_at(bytes, place);
        let beside = [1, 4, 8, 256, 1 << 31].into_iter().flat_map(|d: u32| [value.wrapping_add(d), value.wrapping_sub(d)]);
        for other in (0..=LAST_KIND + 2).chain([256, 257, 65_532, 65_536, u32::MAX]).chain(beside) {
            let mut damaged = bytes.to_vec();
            put_u32(&mut damaged, place, other);
            tally.compare(&damaged);
        }
    }
}

/// Cuts bytes off, adds some, and moves all bodies by some.
fn damage_length(tally: &mut Tally, bytes: &[u8]) {
    for cut in (1..=17).chain([100, 600]).filter(|cut| *cut <= bytes.len()) {
        tally.compare(&bytes[..bytes.len() - cut]);
        tally.compare(&bytes[..cut]);
        tally.compare(&[bytes, &vec![0; cut]].concat());
        let mut moved = bytes.to_vec();
        let entries = u32_at(bytes, 0);
        for i in 0..entries as usize {
            let place = 8 + 8 * i;
            put_u32(&mut moved, place, u32_at(bytes, place) + cut as u32);
        }
        moved.splice(4 + 8 * entries as usize..4 + 8 * entries as usize, vec![0; cut]);
        tally.compare(&moved);
    }
}

/// A sheet with so many calls of each kind, all of zeros.
fn sheet_of(counts: [usize; LAST_KIND as usize]) -> Vec<u8> {
    let kinds = (1..).zip(counts).flat_map(|(kind, count)| std::iter::repeat_n(kind, count));
    let calls: Vec<_> = kinds.map(|kind| (kind, vec![0.0; call_length(kind)])).collect();
    sheet(&[0.0; FILTER], &calls)
}

/// The limits of the layout: 256 and 257 entries, 65,532 bytes and more, no call, no byte.
fn limits(tally: &mut Tally) {
    let longest = sheet_of([18, 4, 3, 2, 89, 130, 9]);
    let too_long = sheet_of([18, 4, 1, 1, 89, 131, 11]);
    assert!(longest.len() == MOST_BYTES - 4 && too_long.len() == MOST_BYTES + 4);
    let states = |count| sheet_of([0, 0, 0, 0, 0, count, 0]);
    for bytes in [longest, too_long, states(255), states(256), states(0), Vec::new()] {
        tally.compare(&bytes);
        tally.compare(&[bytes.as_slice(), &[0; 4]].concat());
        tally.compare_lengths(&bytes);
    }
    tally.compare(&vec![0; MOST_BYTES]);
    tally.compare(&vec![0; 4 * MOST_BYTES]);
}

fn random_sheet(seed: u64) -> Vec<u8> {
    let n = &mut Numbers::new(seed);
    let log = log(n, Manner::of(seed), SHEET_CALLS);
    sheet(&log.run, &log.calls)
}

pub fn compare() -> u64 {
    let mut tallies = in_threads(SHEETS, |seeds| {
        let mut tally = Tally::default();
        for seed in seeds {
            let mut bytes = random_sheet(seed);
            tally.compare(&bytes);
            let n = &mut Numbers::new(seed);
            for _ in 0..3 {
                // Bits anywhere: in the table they break the layout, in a body they change a number.
                let place = n.below(bytes.len());
                bytes[place] ^= 1 << n.below(8);
            }
            tally.compare(&bytes);
        }
        tally
    });
    tallies.extend(in_threads(8, |seeds| {
        let mut tally = Tally::default();
        for seed in seeds {
            let bytes = sheet(&[0.25; FILTER], &log(&mut Numbers::new(seed), Manner::Ordinary, 12).calls);
            damage_table(&mut tally, &bytes);
            damage_length(&mut tally, &bytes);
        }
        tally
    }));
    let mut edges = Tally::default();
    limits(&mut edges);
    let all = tallies.into_iter().fold(edges, Tally::add);
    let lines = format!("{} lines, {} of them refused 7", all.lines, all.null);
    println!("{} sheets, {} of them refused whole, {lines}; {} sheets differ", all.sheets, all.refused, all.differ);
    all.differ
}
