//! Stands in for the crate `libm` below the original: the port's sine and cosine, and the processor's square root.
//!
//! It is `no_std`: with std in the graph, std's own `f64::sin_cos` would win over the original's trait.
#![no_std]

use core::arch::x86_64::{_mm_cvtsd_f64, _mm_set_sd, _mm_sqrt_sd};

#[inline]
pub fn sincos(x: f64) -> (f64, f64) {
    let mut both = [0.0; 2];
    port::sin_cos(x, &mut both);
    (both[0], both[1])
}

pub fn sin(x: f64) -> f64 {
    sincos(x).0
}

pub fn cos(x: f64) -> f64 {
    sincos(x).1
}

#[inline]
pub fn sqrt(x: f64) -> f64 {
    // SAFETY: SSE2 is part of x86-64.
    unsafe { _mm_cvtsd_f64(_mm_sqrt_sd(_mm_set_sd(0.0), _mm_set_sd(x))) }
}

pub fn fabs(x: f64) -> f64 {
    f64::from_bits(x.to_bits() & !(1 << 63))
}

/// No paper defines these, and nothing that is compared calls them.
macro_rules! undefined {
    ($($name:ident($($x:ident),*)),*) => {
        $(pub fn $name($(_: undefined!(@ty $x)),*) -> f64 {
            panic!(concat!(stringify!($name), " is not defined"))
        })*
    };
    (@ty $x:ident) => { f64 };
}

undefined!(tan(x), asin(x), atan2(x, y), hypot(x, y), pow(x, y), floor(x));
