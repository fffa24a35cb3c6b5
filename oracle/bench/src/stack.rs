//! The stack that a call touches: words below it are painted before the call, and the deepest that changed is found after it.
use crate::rows::Measured;
use std::ptr::{read_volatile, write_volatile};
use std::thread;

const STACK: usize = 4 << 20;
const PAINTED: usize = 1 << 20;
/// What the painting itself may stand on.
const OWN: usize = 1 << 10;
const PAINT: u64 = 0x5a5a_a5a5_3c3c_c3c3;
const WORD: usize = size_of::<u64>();

#[inline(never)]
fn paint(top: usize) {
    for place in (top - PAINTED..top - OWN).step_by(WORD) {
        // SAFETY: the thread's stack reaches below these words, and no frame stands on them.
        unsafe { write_volatile(place as *mut u64, PAINT) }
    }
}

#[inline(never)]
fn depth(top: usize) -> usize {
    let changed = |place: &usize| {
        // SAFETY: as above.
        unsafe { read_volatile(*place as *const u64) != PAINT }
    };
    (top - PAINTED..top - OWN).step_by(WORD).find(changed).map_or(OWN, |place| top - place)
}

/// The bytes of stack from the caller of a call down to the deepest word that the call writes.
pub fn peak(mut call: Measured) -> usize {
    let measured = move || {
        let here = 0u64;
        let top = &raw const here as usize;
        paint(top);
        call();
        depth(top)
    };
    thread::Builder::new().stack_size(STACK).spawn(measured).expect("a thread").join().expect("a depth")
}
