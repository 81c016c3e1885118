//! The command `silienvo`. It starts without Rust's own start-up code, which opens /dev/null in the place of a closed standard output: an answer
//! written there is lost, and nothing would say so.

#![no_main]

use std::ffi::{c_char, c_int};

#[no_mangle]
pub extern "C" fn main(_count: c_int, _words: *const *const c_char) -> c_int {
    command::run(std::env::args_os().skip(1).collect())
}
