//! Parts of a run of numbers, read and written at their places.

/// The three numbers at a place.
pub fn vector(run: &[f64], at: usize) -> [f64; 3] {
    [run[at], run[at + 1], run[at + 2]]
}

/// The 3 by 3 matrix at a place.
pub fn matrix(run: &[f64], at: usize) -> [[f64; 3]; 3] {
    [vector(run, at), vector(run, at + 3), vector(run, at + 6)]
}

/// Writes a part at a place.
pub fn put(run: &mut [f64], at: usize, part: &[f64]) {
    run[at..at + part.len()].copy_from_slice(part);
}
