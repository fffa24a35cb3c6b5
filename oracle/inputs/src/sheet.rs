//! Call sheets in the layout of docs/MANUAL.md.

/// The bytes of a sheet: a filter, and calls with their kinds.
pub fn sheet(filter: &[f64], calls: &[(u32, Vec<f64>)]) -> Vec<u8> {
    let entries = || std::iter::once((0, filter)).chain(calls.iter().map(|(kind, numbers)| (*kind, numbers.as_slice())));
    let count = 1 + calls.len() as u32;
    let mut bytes = count.to_le_bytes().to_vec();
    let mut place = 4 + 8 * count;
    for (kind, numbers) in entries() {
        bytes.extend(kind.to_le_bytes());
        bytes.extend(place.to_le_bytes());
        place += 8 * numbers.len() as u32;
    }
    bytes.extend(entries().flat_map(|(_, numbers)| numbers).flat_map(|x| x.to_le_bytes()));
    bytes
}
