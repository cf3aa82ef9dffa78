//! `coset_show KIND`: decodes hexadecimal standard input, and prints its shortest encoding.
//!
//! The entry is C's `main`. Rust's runtime would open a closed standard input or output as a file
//! that is empty or takes everything, and the program couldn't say that it fails.
#![deny(unsafe_code)]
#![cfg_attr(not(test), no_main)]
#![cfg_attr(test, allow(dead_code))]

extern crate alloc;

#[path = "../programs/mod.rs"]
#[allow(dead_code, unused_imports, unused_macros)]
mod programs;

include!(concat!(env!("OUT_DIR"), "/show.rs"));

/// Runs the program, and returns its status.
#[cfg(not(test))]
#[allow(unsafe_code)]
#[unsafe(no_mangle)]
extern "C" fn main() -> std::ffi::c_int {
    let rt = programs::HostRuntime::of_process(0);
    coset_show::program(rt).0.into()
}
