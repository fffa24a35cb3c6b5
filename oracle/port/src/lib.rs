//! The port's exported calls on slices, from libdrifters_eqf_c.a. Each answers 0 or the number of its refusal.
//!
//! It is `no_std`: the original's sine and cosine come from here, and with std in their graph std's own `f64::sin_cos` would win over the
//! original's trait.
#![no_std]

type Update = unsafe extern "C" fn(*mut f64, usize, *const f64, usize, *mut f64, usize) -> u32;

extern "C" {
    fn drifters_start(filter: *mut f64, places: usize, numbers: *const f64, length: usize) -> u32;
    fn drifters_propagate(filter: *mut f64, places: usize, numbers: *const f64, length: usize) -> u32;
    fn drifters_update_position(filter: *mut f64, places: usize, numbers: *const f64, length: usize, nis: *mut f64, one: usize) -> u32;
    fn drifters_update_velocity(filter: *mut f64, places: usize, numbers: *const f64, length: usize, nis: *mut f64, one: usize) -> u32;
    fn drifters_update_direction(filter: *mut f64, places: usize, numbers: *const f64, length: usize, nis: *mut f64, one: usize) -> u32;
    fn drifters_update(filter: *mut f64, places: usize, numbers: *const f64, length: usize, nis: *mut f64, one: usize) -> u32;
    fn drifters_update_scalar(filter: *mut f64, places: usize, numbers: *const f64, length: usize, nis: *mut f64, one: usize) -> u32;
    fn drifters_update_compasses(
        filter: *mut f64,
        places: usize,
        readings: *const f64,
        length: usize,
        north_noise: *const f64,
        twelve: usize,
        budget: usize,
        counts: *mut usize,
        two: usize,
        nis: *mut f64,
        one: usize,
    ) -> u32;
    fn drifters_upgrade(one_alpha: *const f64, length: usize, filter: *mut f64, places: usize) -> u32;
    fn drifters_downgrade(filter: *const f64, places: usize, one_alpha: *mut f64, length: usize) -> u32;
    fn drifters_nav_state(filter: *const f64, places: usize, state: *mut f64, length: usize) -> u32;
    fn drifters_run_sheet(sheet: *const u8, bytes: usize, text: *mut u8, most: usize, length: *mut usize, one: usize) -> u32;
    fn drifters_sin_cos(theta: f64, out: *mut f64, two: usize) -> u32;
    fn drifters_sqrt(x: f64) -> f64;
}

// SAFETY, throughout: each function takes every number and every length, reads and writes only the runs that it is lent, and two lent runs of
// one call never overlap, since they come as slices.

pub fn start(filter: &mut [f64], numbers: &[f64]) -> u32 {
    unsafe { drifters_start(filter.as_mut_ptr(), filter.len(), numbers.as_ptr(), numbers.len()) }
}

pub fn propagate(filter: &mut [f64], numbers: &[f64]) -> u32 {
    unsafe { drifters_propagate(filter.as_mut_ptr(), filter.len(), numbers.as_ptr(), numbers.len()) }
}

/// An update of a kind, 2 to 5 or 7; its normalised innovation squared goes to `nis`.
pub fn update(kind: u32, filter: &mut [f64], numbers: &[f64], nis: &mut [f64]) -> u32 {
    let update: Update = match kind {
        2 => drifters_update_position,
        3 => drifters_update_velocity,
        4 => drifters_update_direction,
        5 => drifters_update,
        7 => drifters_update_scalar,
        _ => panic!("not the kind of an update"),
    };
    unsafe { update(filter.as_mut_ptr(), filter.len(), numbers.as_ptr(), numbers.len(), nis.as_mut_ptr(), nis.len()) }
}

/// The update by the best of several readings, with one north and noise. How many were tried and the index of the one that was applied go to
/// `counts`, its normalised innovation squared to `nis`.
pub fn update_compasses(
    filter: &mut [f64],
    readings: &[f64],
    north_noise: &[f64],
    budget: usize,
    counts: &mut [usize],
    nis: &mut [f64],
) -> u32 {
    unsafe {
        drifters_update_compasses(
            filter.as_mut_ptr(),
            filter.len(),
            readings.as_ptr(),
            readings.len(),
            north_noise.as_ptr(),
            north_noise.len(),
            budget,
            counts.as_mut_ptr(),
            counts.len(),
            nis.as_mut_ptr(),
            nis.len(),
        )
    }
}

/// A filter with one alpha as one with an alpha for each sensor.
pub fn upgrade(one_alpha: &[f64], filter: &mut [f64]) -> u32 {
    unsafe { drifters_upgrade(one_alpha.as_ptr(), one_alpha.len(), filter.as_mut_ptr(), filter.len()) }
}

/// The way back.
pub fn downgrade(filter: &[f64], one_alpha: &mut [f64]) -> u32 {
    unsafe { drifters_downgrade(filter.as_ptr(), filter.len(), one_alpha.as_mut_ptr(), one_alpha.len()) }
}

pub fn nav_state(filter: &[f64], state: &mut [f64]) -> u32 {
    unsafe { drifters_nav_state(filter.as_ptr(), filter.len(), state.as_mut_ptr(), state.len()) }
}

/// Runs the bytes of a sheet; the text goes to the front of `text`, its length to `length`.
pub fn run_sheet(sheet: &[u8], text: &mut [u8], length: &mut [usize]) -> u32 {
    unsafe { drifters_run_sheet(sheet.as_ptr(), sheet.len(), text.as_mut_ptr(), text.len(), length.as_mut_ptr(), length.len()) }
}

/// Sine and cosine, into a run of two.
pub fn sin_cos(theta: f64, out: &mut [f64]) -> u32 {
    unsafe { drifters_sin_cos(theta, out.as_mut_ptr(), out.len()) }
}

pub fn sqrt(x: f64) -> f64 {
    unsafe { drifters_sqrt(x) }
}
