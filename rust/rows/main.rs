//! `coset_rows NAME [ARG..]` runs a program of this repository as the Rust package has it.
#![forbid(unsafe_code)]

use coset_rows::{HostRuntime, PROGRAMS};
use std::process::ExitCode;

fn main() -> ExitCode {
    let name = std::env::args().nth(1).unwrap_or_default();
    let Some((_, run)) = PROGRAMS.iter().find(|(known, _)| *known == name) else {
        let known: Vec<&str> = PROGRAMS.iter().map(|(known, _)| *known).collect();
        eprintln!(
            "usage: coset_rows NAME [ARG..]; NAME is one of {}",
            known.join(", ")
        );
        return ExitCode::from(2);
    };
    let (status, said) = run(HostRuntime::of_process(1));
    eprint!("{said}");
    ExitCode::from(status)
}
