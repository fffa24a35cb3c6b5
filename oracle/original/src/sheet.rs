//! Call sheets: an independent reader of the layout in docs/MANUAL.md, and the printer of its answers.
use crate::calls::{call_length, written_length, Call};
use crate::kinds::LAST_KIND;
use crate::places::FILTER;
use crate::runs::filter_with;
use crate::{call, Alphas, Answer};
use drifters_eqf::group::State;
use std::fmt::Write;

/// What a broken sheet prints.
pub const REFUSED_SHEET: &str = "refused 6\n";

const MOST_ENTRIES: usize = 256;
const MOST_BYTES: usize = 65_536;

/// An entry of the table, with the numbers of its body.
struct Entry {
    kind: u32,
    numbers: Vec<f64>,
}

fn u32_at(bytes: &[u8], place: usize) -> Option<u32> {
    let four = bytes.get(place..place.checked_add(4)?)?;
    Some(u32::from_le_bytes(four.try_into().ok()?))
}

/// How many numbers the body of entry `i` has; None where its kind can't stand there.
fn body_length(i: usize, kind: u32) -> Option<usize> {
    match (i, kind) {
        (0, 0) => Some(FILTER),
        (1.., 1..=LAST_KIND) => Some(call_length(kind)),
        _ => None,
    }
}

/// The entries of a sheet; None where it breaks the layout.
fn entries(bytes: &[u8]) -> Option<Vec<Entry>> {
    let n = u32_at(bytes, 0)? as usize;
    if bytes.len() > MOST_BYTES || n < 1 || n > MOST_ENTRIES {
        return None;
    }
    let mut place = 4 + 8 * n;
    let mut read = Vec::with_capacity(n);
    for i in 0..n {
        let kind = u32_at(bytes, 4 + 8 * i)?;
        if u32_at(bytes, 8 + 8 * i)? as usize != place {
            return None;
        }
        let end = place + 8 * body_length(i, kind)?;
        let body = bytes.get(place..end)?;
        let numbers = body.chunks_exact(8).map(|b| f64::from_le_bytes(b.try_into().unwrap())).collect();
        read.push(Entry { kind, numbers });
        place = end;
    }
    (place == bytes.len()).then_some(read)
}

/// The text of a sheet whose calls are made by what `on` gives for its filter.
fn text_of<M: FnMut(&Entry) -> Answer>(bytes: &[u8], on: impl FnOnce(Vec<f64>) -> M) -> String {
    let Some(mut entries) = entries(bytes) else {
        return REFUSED_SHEET.into();
    };
    let mut make = on(std::mem::take(&mut entries[0].numbers));
    let mut text = String::new();
    for (i, entry) in entries.iter().enumerate().skip(1) {
        let kind = entry.kind;
        match make(entry) {
            Answer::Nis(nis) => writeln!(text, "{i} {kind} {:016X}", nis.to_bits()),
            Answer::Fine => writeln!(text, "{i} {kind} ok"),
            Answer::Refused(number) => writeln!(text, "{i} {kind} refused {number}"),
        }
        .expect("a string takes every line");
    }
    text
}

/// The text that the manual gives for the bytes of a sheet.
pub fn run_sheet(bytes: &[u8]) -> String {
    text_of(bytes, |mut run| {
        move |Entry { kind, numbers }: &Entry| call(*kind, &mut run, numbers, &mut vec![0.0; written_length(*kind)])
    })
}

/// The text of a sheet whose calls are made as the original makes them, with no check but its own.
pub fn plain_sheet(bytes: &[u8]) -> String {
    text_of(bytes, |run| {
        // Each call sets the alpha.
        let (mut filter, mut state) = (filter_with(&run, f64::NAN), State::default());
        move |Entry { kind, numbers }: &Entry| {
            filter.alpha = run[Alphas::Three.place(*kind)];
            std::hint::black_box(Call::read(*kind, numbers).make(&mut filter, &mut state))
        }
    })
}
