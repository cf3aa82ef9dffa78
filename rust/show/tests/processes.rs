//! The built program, run as a process: what it writes, and its status. It gets rows of each kind,
//! arguments that name no kind, and inputs and outputs that fail.
#![cfg(unix)]

use std::collections::BTreeMap;
use std::ffi::OsStr;
use std::fs::File;
use std::io::{Seek, Write};
use std::os::unix::ffi::OsStrExt;
use std::process::{Command, Output, Stdio};

const USAGE: &str = "usage: coset_show KIND\n";
const UNREADABLE: &str = "error: input cannot be read\n";

/// A row: a kind, the status, an input, and what is written.
struct Row {
    kind: String,
    status: i32,
    input: String,
    lines: String,
}

/// Returns the text of a row's field without its escapes.
fn unescaped(field: &str) -> String {
    let (mut text, mut letters) = (String::new(), field.chars());
    while let Some(letter) = letters.next() {
        text.push(match letter {
            '\\' => match letters.next().expect("a letter follows a backslash") {
                'n' => '\n',
                't' => '\t',
                'r' => '\r',
                other => other,
            },
            other => other,
        });
    }
    text
}

/// Returns the first row of each kind and status of the program's own rows.
fn rows() -> Vec<Row> {
    let source = include_str!("../../../crates/coset_show/src/rows.rt");
    let text = source
        .split("r#\"")
        .nth(1)
        .and_then(|it| it.split("\"#").next())
        .expect("there are rows");
    let mut found = BTreeMap::new();
    for line in text
        .lines()
        .filter(|line| !line.is_empty() && !line.starts_with('#'))
    {
        let fields: Vec<&str> = line.split(" | ").collect();
        let [kind, status, input, lines] = fields[..] else {
            panic!("a row has four fields: {line}");
        };
        let row = || Row {
            kind: kind.into(),
            status: status.parse().expect("a status is a number"),
            input: unescaped(input),
            lines: unescaped(lines),
        };
        found.entry((kind, status)).or_insert_with(row);
    }
    assert!(found.len() >= 22, "{} rows", found.len());
    found.into_values().collect()
}

fn program(arguments: &[&str]) -> Command {
    let mut command = Command::new(env!("CARGO_BIN_EXE_coset_show"));
    command.args(arguments);
    command
}

/// Returns the program with a redirection of the shell, such as `<&-` for a closed input.
fn redirected(arguments: &[&str], how: &str) -> Command {
    let mut command = Command::new("sh");
    command.args([
        "-c",
        &format!("exec \"$@\" {how}"),
        "sh",
        env!("CARGO_BIN_EXE_coset_show"),
    ]);
    command.args(arguments);
    command
}

/// Runs a command with an input.
fn run(mut command: Command, input: &str) -> Output {
    let piped = command
        .stdin(Stdio::piped())
        .stdout(Stdio::piped())
        .stderr(Stdio::piped());
    let mut child = piped.spawn().expect("it starts");
    // A program that reads nothing closes the pipe.
    let _ = child
        .stdin
        .take()
        .expect("it has an input")
        .write_all(input.as_bytes());
    child.wait_with_output().expect("it ends")
}

/// Asserts what was written, and the status.
fn assert_told(what: &str, told: &Output, status: i32, lines: &str) {
    assert_eq!(String::from_utf8_lossy(&told.stdout), lines, "{what}");
    assert_eq!(String::from_utf8_lossy(&told.stderr), "", "{what}");
    assert_eq!(told.status.code(), Some(status), "{what}");
}

#[test]
fn a_row_of_each_kind_and_status() {
    for row in rows() {
        let told = run(program(&[&row.kind]), &row.input);
        assert_told(
            &format!("{} {}", row.kind, row.input),
            &told,
            row.status,
            &row.lines,
        );
    }
}

#[test]
fn arguments_that_name_no_kind() {
    let no_kinds: [&[&str]; 9] = [
        &[],
        &[""],
        &["VALUE"],
        &["value "],
        &["sign2"],
        &["signature"],
        &["value", "value"],
        &["value", ""],
        &["", "value"],
    ];
    for arguments in no_kinds {
        let mut file = tempfile("80");
        let told = program(arguments)
            .stdin(file.try_clone().expect("a copy"))
            .output()
            .expect("it ends");
        assert_told(&format!("{arguments:?}"), &told, 2, USAGE);
        assert_eq!(
            file.stream_position().expect("a place"),
            0,
            "{arguments:?}: the input was read"
        );
    }
    let mut bytes = program(&[]);
    bytes.arg(OsStr::from_bytes(b"\xff"));
    assert_told("an argument that is no text", &run(bytes, "80"), 2, USAGE);
}

/// Returns an open file with this text.
fn tempfile(text: &str) -> File {
    let path = std::path::Path::new(env!("CARGO_TARGET_TMPDIR")).join("input");
    std::fs::write(&path, text).expect("it can be written");
    File::open(path).expect("it can be read")
}

#[test]
fn an_input_that_fails() {
    for row in rows() {
        let closed = redirected(&[&row.kind], "<&-").output().expect("it ends");
        assert_told("a closed input", &closed, 1, UNREADABLE);
        let folder = program(&[&row.kind])
            .stdin(File::open("/").expect("a folder"))
            .output()
            .expect("it ends");
        assert_told("a folder", &folder, 1, UNREADABLE);
        let writable = redirected(&[&row.kind], "0>/dev/null")
            .output()
            .expect("it ends");
        assert_told("an input for writing", &writable, 1, UNREADABLE);
    }
}

#[test]
fn an_output_that_fails() {
    let usage = Row {
        kind: String::new(),
        status: 2,
        input: String::from("80"),
        lines: String::from(USAGE),
    };
    for row in rows().into_iter().chain([usage]) {
        for how in [">&-", ">/dev/full", "1</dev/null"] {
            let told = run(redirected(&[&row.kind], how), &row.input);
            assert_told(&format!("{} {} {how}", row.kind, row.input), &told, 1, "");
        }
    }
}
