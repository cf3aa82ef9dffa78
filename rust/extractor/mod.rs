//! Extracts Rust from the proved sources: the same text without contracts. Build scripts include
//! these modules.
//!
//! The sources are read as tokens. Each rule is a method of `File`. `tables.rs` has all names
//! that the rules know. Anything else is refused, with its file and line.
//!
//! Rattle accepts forms that Rust runs in another way. Each is refused, or has one result here:
//!
//! | Form | How it is held |
//! |---|---|
//! | a range without an end | refused, except in an index and in `get`, where the slice ends it |
//! | the size of a type | `size_of` and `align_of` are refused |
//! | bits of a NaN | `to_bits` and `from_bits` are refused; the kit's calls say `with_nan` |
//! | a trait's method with a name of std's | refused, except for those of `SHARED_METHODS` |
//! | an impl picked by a bound of std's | refused for an impl of a type parameter |
//! | `..v[i]` for the other fields | refused |
//! | `iter::once`, threads, channels | refused: `PATHS` has no such path |
//! | a clone that is not tried | `clone` becomes `try_clone`, which returns a `Result` too |
//! | a closure as a function pointer | the type `fn(..)` is refused |
//! | the order in which values are dropped | `impl Drop` is refused, except for that of `DROPS` |
//! | `stringify!`, macros of the sources | refused: `MACROS` and `UNKNOWN_WORDS` |
//!
//! In programs, which are tests, unknown methods are left to the compiler.

mod conditions;
mod docs;
pub mod file;
mod frames;
mod rewrite;
mod signatures;
pub mod tables;
mod tokens;

use file::File;
use rewrite::Known;
use std::collections::BTreeSet;
use std::path::{Path, PathBuf};
use std::{env, fs, process};

/// The crates of the package coset, lowest first.
pub const LIBRARY: &[&str] = &[
    "coset_value",
    "coset_cbor",
    "coset_iana",
    "coset_codec",
    "coset_label",
    "coset_core",
    "coset_sign",
    "coset_msg",
    "coset_recipient",
    "coset_key",
    "coset_claims",
    "coset",
    "coset_seen",
];

/// The crates of the package coset-cwt, lowest first.
pub const CWT: &[&str] = &[
    "cwt_gate",
    "cwt_keys",
    "cwt_ring",
    "cwt_verify",
    "cwt_confirm",
    "cose_thumbprint",
];

const UNUSED: &str = "#[allow(unused_imports)]\n";
const MODULE: &str = "#[allow(clippy::all, unused_imports, unused_variables)]\n";

/// Crates that are extracted together, lowest first, and the path of the Rust module that has them.
#[derive(Clone, Copy)]
pub struct Group<'a> {
    pub home: &'a str,
    pub names: &'a [&'a str],
}

/// The sources of a folder, in order.
pub fn sources(folder: &Path, found: &mut Vec<PathBuf>) -> Result<(), String> {
    let at = |e: std::io::Error| format!("{}: {e}", folder.display());
    let entries = fs::read_dir(folder).map_err(at)?;
    let mut paths = entries
        .map(|e| Ok(e.map_err(at)?.path()))
        .collect::<Result<Vec<_>, String>>()?;
    paths.sort();
    for path in paths {
        if path.is_dir() {
            sources(&path, found)?;
        } else if path.extension().is_some_and(|it| it == "rt") {
            found.push(path);
        }
    }
    Ok(())
}

/// The crates whose signatures are the Rust crate's: those below its facade.
fn is_library(name: &str) -> bool {
    name.starts_with("coset_") && LIBRARY.contains(&name) && name != "coset_seen"
}

/// A source: its crate, its path, that of its Rust below the crate's folder, and its text.
struct Source<'a> {
    name: &'a str,
    path: PathBuf,
    inner: PathBuf,
    text: String,
}

/// The path of a source's Rust, below its crate's folder.
pub fn rust_path(base: &Path, path: &Path) -> PathBuf {
    let inner = path.strip_prefix(base).expect("a path below it");
    match inner.to_str() {
        Some("lib.rt" | "main.rt") => PathBuf::from("mod.rs"),
        _ => inner.with_extension("rs"),
    }
}

/// Reads the sources of these crates.
fn read<'a>(crates: &Path, names: &[&'a str]) -> Result<Vec<Source<'a>>, String> {
    let mut texts = Vec::new();
    for name in names {
        let base = crates.join(name).join("src");
        let mut found = Vec::new();
        sources(&base, &mut found)?;
        for path in found {
            let text = fs::read_to_string(&path).map_err(|e| format!("{}: {e}", path.display()))?;
            let inner = rust_path(&base, &path);
            texts.push(Source {
                name,
                path,
                inner,
                text,
            });
        }
    }
    Ok(texts)
}

/// The words of the facade: among them are the names of the functions that it exports.
fn exported(sources: &[Source]) -> BTreeSet<String> {
    let of_facade = sources.iter().filter(|source| source.name == "coset");
    let texts = of_facade.flat_map(|source| source.text.lines());
    let code = texts.filter(|line| !line.trim_start().starts_with("//"));
    code.flat_map(|line| line.split(|c: char| !c.is_alphanumeric() && c != '_'))
        .map(String::from)
        .collect()
}

/// Where Rust finds the crates of these groups, and the functions that they define.
fn known(groups: &[&Group], sources: &[(Source, File)]) -> Known {
    let homes = groups.iter().flat_map(|group| {
        group
            .names
            .iter()
            .map(|name| (name.to_string(), format!("{}::{name}", group.home)))
    });
    let functions = sources.iter().flat_map(|(_, file)| file.functions());
    Known {
        homes: homes.collect(),
        functions: functions.collect(),
        is_package: groups.iter().any(|group| group.home.starts_with("crate::")),
    }
}

/// The text before the items of each file: names of the kit.
fn prelude(groups: &[&Group], own: Group) -> String {
    let library = groups[0].home;
    let library = format!("{UNUSED}use {library}::kit::{{self, prelude::*}};\n");
    match own.home {
        "crate" => library + &format!("{UNUSED}use crate::programs::{{self, prelude::*}};\n"),
        _ => library,
    }
}

/// A refusal, with its file and line.
fn refused(source: &Source, (line, what): (usize, String)) -> String {
    format!("{}:{line}: {what}", source.path.display())
}

/// The sources with their tokens.
fn parsed<'a>(sources: Vec<Source<'a>>) -> Result<Vec<(Source<'a>, File)>, String> {
    let mut files = Vec::new();
    for source in sources {
        let file = File::new(&source.text).map_err(|e| refused(&source, e))?;
        files.push((source, file));
    }
    Ok(files)
}

/// Writes a file, and its folder before it.
fn write(path: &Path, text: &str) -> Result<(), String> {
    let failed = |e: std::io::Error| format!("{}: {e}", path.display());
    fs::create_dir_all(path.parent().expect("a folder")).map_err(failed)?;
    fs::write(path, text).map_err(failed)
}

/// The declarations of the modules of a group, which are in a folder.
fn declarations(own: Group, folder: &Path) -> String {
    let module = |name: &&str| {
        let path = folder.join(name).join("mod.rs");
        format!("{MODULE}#[path = {path:?}]\npub mod {name};\n")
    };
    own.names.iter().map(module).collect()
}

/// Extracts the crates of `own`, which are built on those of `below`, from the folder `crates`.
/// Writes their modules into the folder of `out`'s name, and into `out` the declarations of the
/// modules. An error begins with the file and the line.
pub fn extract(crates: &Path, below: &[Group], own: Group, out: &Path) -> Result<(), String> {
    let groups: Vec<&Group> = below.iter().chain([&own]).collect();
    let names: Vec<&str> = groups
        .iter()
        .flat_map(|group| group.names)
        .copied()
        .collect();
    let sources = read(crates, &names)?;
    let exported = exported(&sources);
    let mut files = parsed(sources)?;
    let mut calls = BTreeSet::new();
    for (_, file) in files.iter().filter(|(source, _)| is_library(source.name)) {
        file.changed(&exported, &mut calls);
    }
    let known = known(&groups, &files);
    let prelude = prelude(&groups, own);
    let folder = out.with_extension("");
    files.retain(|(source, _)| own.names.contains(&source.name));
    for (source, mut file) in files {
        let is_library = is_library(source.name);
        let sign = if is_library {
            file.sign(&exported)
        } else {
            Ok(())
        };
        let rust = sign.and_then(|()| {
            file.rename(&calls, is_library, &exported);
            file.rewrite(source.name, &known, &prelude)
        });
        let rust = rust.map_err(|e| refused(&source, e))?;
        write(&folder.join(source.name).join(source.inner), &rust)?;
    }
    write(out, &declarations(own, &folder))
}

/// Runs a build script: calls `extracts` with the folder of the sources and OUT_DIR. `root` is the
/// repository's path from the package.
pub fn build(root: &str, extracts: impl Fn(&Path, &Path) -> Result<(), String>) {
    let out = env::var_os("OUT_DIR").expect("cargo sets it");
    let crates = Path::new(root).join("crates");
    println!("cargo::rerun-if-changed={}", crates.display());
    println!(
        "cargo::rerun-if-changed={}",
        Path::new(root).join("rust/extractor").display()
    );
    println!("cargo::rerun-if-changed=build.rs");
    if let Err(refusal) = extracts(&crates, Path::new(&out)) {
        println!("cargo::error={refusal}");
        process::exit(1);
    }
}
