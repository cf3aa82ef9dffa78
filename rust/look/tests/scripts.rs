//! The scripts of a checkout that check the program's output independently of it.

use std::path::Path;
use std::process::Command;

/// Runs a script over the program. Without Python, nothing is checked.
fn run(script: &str) {
    let path = Path::new(env!("CARGO_MANIFEST_DIR"))
        .join("../../tools")
        .join(script);
    if Command::new("python3").arg("--version").output().is_err() {
        return eprintln!("{script} needs python3");
    }
    let ran = Command::new("python3")
        .arg(path)
        .arg(env!("CARGO_BIN_EXE_look"))
        .output()
        .unwrap();
    let (output, errors) = (
        String::from_utf8_lossy(&ran.stdout),
        String::from_utf8_lossy(&ran.stderr),
    );
    assert!(
        ran.status.success() && output.ends_with("wrong 0\n"),
        "{output}{errors}"
    );
}

/// Each row of coset_vectors: its bytes, notation, structures, places, page and object.
#[test]
fn explained() {
    run("explained");
}

/// Hostile texts in each form.
#[test]
fn hostile() {
    run("hostile");
}
