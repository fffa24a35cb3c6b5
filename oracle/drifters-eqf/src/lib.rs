//! The original's filter, its files unedited but for one expression of `process_noise` (modules.rs). Its lib.rs was not published with them, so this one
//! stands in.
#![no_std]

include!(concat!(env!("OUT_DIR"), "/modules.rs"));
