//! `coset-extractor --out FOLDER [CRATE ..]` writes the Rust that is extracted from the proved
//! sources of the library, and of these crates, which are built on it. `--format` instead of
//! `--out` also lays it out by rustfmt. `--compare` also compares each file with its source, and
//! prints how many tokens each rule dropped, replaced or added.

use coset_extractor::compare::{Counts, compare};
use coset_extractor::extractor::{CWT, Group, LIBRARY, extract, rust_path, sources};
use std::path::Path;
use std::process::{Command, ExitCode};
use std::{env, fs};

const CRATES: &str = concat!(env!("CARGO_MANIFEST_DIR"), "/../../../crates");

fn read(path: &Path) -> Result<String, String> {
    fs::read_to_string(path).map_err(|e| format!("{}: {e}", path.display()))
}

/// The Rust files of a group's crates in a folder, each with its source.
fn files(
    group: Group,
    folder: &Path,
    each: impl FnMut(&str, &Path, &Path) -> Result<(), String>,
) -> Result<(), String> {
    let mut each = each;
    for name in group.names {
        let base = Path::new(CRATES).join(name).join("src");
        let mut found = Vec::new();
        sources(&base, &mut found)?;
        for path in found {
            each(
                name,
                &path,
                &folder.join(name).join(rust_path(&base, &path)),
            )?;
        }
    }
    Ok(())
}

/// Compares the Rust of a group with its sources.
fn compare_all(groups: &[Group], folder: &Path) -> Result<(), String> {
    let homes = groups.iter().flat_map(|group| {
        group
            .names
            .iter()
            .map(|name| (name.to_string(), format!("{}::{name}", group.home)))
    });
    let homes: Vec<_> = homes.collect();
    let mut counts = Counts::new();
    let mut number = 0;
    files(groups[groups.len() - 1], folder, |name, source, rust| {
        let own = homes
            .iter()
            .find(|(known, _)| known == name)
            .map(|(_, home)| home.clone());
        let mut homes = homes.clone();
        homes.insert(0, ("crate".to_string(), own.unwrap_or_default()));
        let found = compare(&read(source)?, &read(rust)?, &homes)
            .map_err(|e| format!("{}:{e}", source.display()))?;
        for (rule, count) in found {
            *counts.entry(rule).or_default() += count;
        }
        number += 1;
        Ok(())
    })?;
    println!(
        "{}: {number} files, all differences by rules (tokens):",
        folder.display()
    );
    counts
        .iter()
        .for_each(|(rule, count)| println!("  {rule}: {count}"));
    Ok(())
}

/// Lays out the Rust of a group.
fn format_all(group: Group, folder: &Path) -> Result<(), String> {
    files(group, folder, |_, _, rust| {
        let text = fs::File::open(rust).map_err(|e| e.to_string())?;
        let laid_out = Command::new("rustfmt")
            .args(["--edition", "2024"])
            .stdin(text)
            .output();
        let laid_out = laid_out.map_err(|e| format!("rustfmt: {e}"))?;
        if !laid_out.status.success() {
            return Err(format!("rustfmt refuses {}", rust.display()));
        }
        fs::write(rust, laid_out.stdout).map_err(|e| e.to_string())
    })
}

fn run(option: &str, out: &Path, programs: &[&str]) -> Result<(), String> {
    let crates = Path::new(CRATES);
    fs::create_dir_all(out).map_err(|e| format!("{}: {e}", out.display()))?;
    let out = out.canonicalize().map_err(|e| e.to_string())?;
    let names = &[LIBRARY, CWT].concat();
    let own = Group {
        home: "crate::__proved",
        names,
    };
    let below = Group {
        home: "::coset::__proved",
        names,
    };
    let programs = Group {
        home: "crate",
        names: programs,
    };
    extract(crates, &[], own, &out.join("coset.rs"))?;
    extract(crates, &[below], programs, &out.join("programs.rs"))?;
    match option {
        "--compare" => {
            compare_all(&[own], &out.join("coset"))?;
            compare_all(&[below, programs], &out.join("programs"))
        }
        "--format" => {
            format_all(own, &out.join("coset"))?;
            format_all(programs, &out.join("programs"))
        }
        _ => Ok(()),
    }
}

fn main() -> ExitCode {
    let arguments: Vec<String> = env::args().skip(1).collect();
    let arguments: Vec<&str> = arguments.iter().map(|it| &it[..]).collect();
    let done = match arguments[..] {
        [
            option @ ("--out" | "--format" | "--compare"),
            out,
            ref programs @ ..,
        ] => run(option, Path::new(out), programs),
        _ => Err("usage: coset-extractor --out|--format|--compare FOLDER [CRATE ..]".into()),
    };
    match done {
        Ok(()) => ExitCode::SUCCESS,
        Err(refusal) => {
            eprintln!("{refusal}");
            ExitCode::FAILURE
        }
    }
}
