//! The functions of libdrifters_eqf_c.a, with each run as a slice. Each answers a code. Here is all the unsafe code
//! of the crate.

mod c {
    // As in include/drifters_eqf.h.
    extern "C" {
        pub fn drifters_start(
            filter: *mut f64,
            filter_length: usize,
            numbers: *const f64,
            numbers_length: usize,
        ) -> u32;
        pub fn drifters_upgrade(
            one_alpha: *const f64,
            one_alpha_length: usize,
            filter: *mut f64,
            filter_length: usize,
        ) -> u32;
        pub fn drifters_downgrade(
            filter: *const f64,
            filter_length: usize,
            one_alpha: *mut f64,
            one_alpha_length: usize,
        ) -> u32;
        pub fn drifters_propagate(
            filter: *mut f64,
            filter_length: usize,
            numbers: *const f64,
            numbers_length: usize,
        ) -> u32;
        pub fn drifters_update_position(
            filter: *mut f64,
            filter_length: usize,
            numbers: *const f64,
            numbers_length: usize,
            nis: *mut f64,
            nis_length: usize,
        ) -> u32;
        pub fn drifters_update_velocity(
            filter: *mut f64,
            filter_length: usize,
            numbers: *const f64,
            numbers_length: usize,
            nis: *mut f64,
            nis_length: usize,
        ) -> u32;
        pub fn drifters_update_direction(
            filter: *mut f64,
            filter_length: usize,
            numbers: *const f64,
            numbers_length: usize,
            nis: *mut f64,
            nis_length: usize,
        ) -> u32;
        pub fn drifters_update(
            filter: *mut f64,
            filter_length: usize,
            numbers: *const f64,
            numbers_length: usize,
            nis: *mut f64,
            nis_length: usize,
        ) -> u32;
        pub fn drifters_update_scalar(
            filter: *mut f64,
            filter_length: usize,
            numbers: *const f64,
            numbers_length: usize,
            nis: *mut f64,
            nis_length: usize,
        ) -> u32;
        pub fn drifters_update_compasses(
            filter: *mut f64,
            filter_length: usize,
            readings: *const f64,
            readings_length: usize,
            north_noise: *const f64,
            north_noise_length: usize,
            budget: usize,
            counts: *mut usize,
            counts_length: usize,
            nis: *mut f64,
            nis_length: usize,
        ) -> u32;
        pub fn drifters_nav_state(
            filter: *const f64,
            filter_length: usize,
            state: *mut f64,
            state_length: usize,
        ) -> u32;
        pub fn drifters_run_sheet(
            sheet: *const u8,
            sheet_length: usize,
            text: *mut u8,
            text_length: usize,
            length: *mut usize,
            length_length: usize,
        ) -> u32;
        pub fn drifters_sin_cos(theta: f64, out: *mut f64, out_length: usize) -> u32;
        pub fn drifters_sqrt(x: f64) -> f64;
    }
}

// SAFETY, throughout: the library is proved to read and write only the runs that it is lent, for every length and
// every number, and slices of one call are valid and do not overlap.

pub fn start(filter: &mut [f64], numbers: &[f64]) -> u32 {
    unsafe {
        c::drifters_start(
            filter.as_mut_ptr(),
            filter.len(),
            numbers.as_ptr(),
            numbers.len(),
        )
    }
}

pub fn upgrade(one_alpha: &[f64], filter: &mut [f64]) -> u32 {
    unsafe {
        c::drifters_upgrade(
            one_alpha.as_ptr(),
            one_alpha.len(),
            filter.as_mut_ptr(),
            filter.len(),
        )
    }
}

pub fn downgrade(filter: &[f64], one_alpha: &mut [f64]) -> u32 {
    unsafe {
        c::drifters_downgrade(
            filter.as_ptr(),
            filter.len(),
            one_alpha.as_mut_ptr(),
            one_alpha.len(),
        )
    }
}

pub fn propagate(filter: &mut [f64], numbers: &[f64]) -> u32 {
    unsafe {
        c::drifters_propagate(
            filter.as_mut_ptr(),
            filter.len(),
            numbers.as_ptr(),
            numbers.len(),
        )
    }
}

type Update = unsafe extern "C" fn(*mut f64, usize, *const f64, usize, *mut f64, usize) -> u32;

fn lend(by: Update, filter: &mut [f64], numbers: &[f64], nis: &mut [f64]) -> u32 {
    unsafe {
        by(
            filter.as_mut_ptr(),
            filter.len(),
            numbers.as_ptr(),
            numbers.len(),
            nis.as_mut_ptr(),
            nis.len(),
        )
    }
}

pub fn update_position(filter: &mut [f64], numbers: &[f64], nis: &mut [f64]) -> u32 {
    lend(c::drifters_update_position, filter, numbers, nis)
}

pub fn update_velocity(filter: &mut [f64], numbers: &[f64], nis: &mut [f64]) -> u32 {
    lend(c::drifters_update_velocity, filter, numbers, nis)
}

pub fn update_direction(filter: &mut [f64], numbers: &[f64], nis: &mut [f64]) -> u32 {
    lend(c::drifters_update_direction, filter, numbers, nis)
}

pub fn update(filter: &mut [f64], numbers: &[f64], nis: &mut [f64]) -> u32 {
    lend(c::drifters_update, filter, numbers, nis)
}

pub fn update_scalar(filter: &mut [f64], numbers: &[f64], nis: &mut [f64]) -> u32 {
    lend(c::drifters_update_scalar, filter, numbers, nis)
}

pub fn update_compasses(
    filter: &mut [f64],
    readings: &[f64],
    north_noise: &[f64],
    budget: usize,
    counts: &mut [usize],
    nis: &mut [f64],
) -> u32 {
    unsafe {
        c::drifters_update_compasses(
            filter.as_mut_ptr(),
            filter.len(),
            readings.as_ptr(),
            readings.len(),
            north_noise.as_ptr(),
            north_noise.len(),
            budget,
            counts.as_mut_ptr(),
            counts.len(),
            nis.as_mut_ptr(),
            nis.len(),
        )
    }
}

pub fn nav_state(filter: &[f64], state: &mut [f64]) -> u32 {
    unsafe {
        c::drifters_nav_state(
            filter.as_ptr(),
            filter.len(),
            state.as_mut_ptr(),
            state.len(),
        )
    }
}

pub fn run_sheet(sheet: &[u8], text: &mut [u8], length: &mut [usize]) -> u32 {
    unsafe {
        c::drifters_run_sheet(
            sheet.as_ptr(),
            sheet.len(),
            text.as_mut_ptr(),
            text.len(),
            length.as_mut_ptr(),
            length.len(),
        )
    }
}

pub fn sin_cos(theta: f64, out: &mut [f64]) -> u32 {
    unsafe { c::drifters_sin_cos(theta, out.as_mut_ptr(), out.len()) }
}

pub fn sqrt(x: f64) -> f64 {
    unsafe { c::drifters_sqrt(x) }
}
