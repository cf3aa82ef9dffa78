//! The programs of this repository that have rows or are examples, and the crates below them,
//! extracted from the proved sources. `cargo test` runs each over its rows, and the tests in their
//! sources.
#![forbid(unsafe_code)]
// The sources are as Rattle has them.
#![allow(dead_code, unused_parens, unstable_name_collisions)]

extern crate alloc;

#[path = "../programs/mod.rs"]
pub(crate) mod programs;

pub use programs::HostRuntime;

include!(concat!(env!("OUT_DIR"), "/rows.rs"));

/// A program: it gets its runtime, and returns its status, and what standard error says at its end.
pub type Program = fn(HostRuntime) -> (u8, String);

/// Gives the names of all programs to a macro.
macro_rules! each_program {
    ($then:ident) => {
        $then! {
            coset_vectors example_cwt example_files example_hello example_print example_signature
            example_subject test_cbor test_headers test_keys_and_claims test_messages test_notation
            test_seals test_seen test_spelled test_verify tool_look
        }
    };
}

macro_rules! programs {
    ($($name:ident)*) => {
        /// The programs, by name.
        pub const PROGRAMS: &[(&str, Program)] =
            &[$((stringify!($name), $name::program as Program)),*];
    };
}

each_program!(programs);

#[cfg(test)]
mod rows;
