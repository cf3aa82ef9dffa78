//! The program `look`, over files and options.

use std::io::Write;
use std::process::{Command, Output, Stdio};

const FILES: &str = concat!(env!("CARGO_MANIFEST_DIR"), "/tests/files");

/// Runs the program in the folder of files, with this standard input.
fn run(words: &[&str], input: &[u8]) -> Output {
    let mut command = Command::new(env!("CARGO_BIN_EXE_look"));
    command.args(words).current_dir(FILES).stdin(Stdio::piped());
    let mut child = command
        .stdout(Stdio::piped())
        .stderr(Stdio::piped())
        .spawn()
        .unwrap();
    child.stdin.take().unwrap().write_all(input).unwrap();
    child.wait_with_output().unwrap()
}

/// Returns the two outputs and the status.
fn look(words: &[&str], input: &[u8]) -> (String, String, i32) {
    let ran = run(words, input);
    let text = |bytes| String::from_utf8(bytes).unwrap();
    (
        text(ran.stdout),
        text(ran.stderr),
        ran.status.code().unwrap(),
    )
}

/// All files, with the options in `arguments`, write what is in `output`.
#[test]
fn shows_the_files() {
    let words: Vec<&str> = include_str!("arguments").lines().collect();
    let (output, _, status) = look(&words, b"");
    let expected = include_str!("output");
    for (number, (got, wanted)) in output.lines().zip(expected.lines()).enumerate() {
        assert_eq!(got, wanted, "line {}", number + 1);
    }
    assert_eq!((output.len(), status), (expected.len(), 1));
}

#[test]
fn writes_other_spellings() {
    let bytes = [0x43, 0xfb, 0xef, 0xff];
    assert_eq!(look(&["--to=base64"], &bytes).0, "Q/vv/w==\n");
    assert_eq!(look(&["--to=hex"], b"Q_vv_w").0, "43fbefff\n");
    assert_eq!(
        look(&["--to=base64"], b"a0"),
        ("oA==\n".into(), "read as hexadecimal, 1 bytes\n".into(), 0)
    );
    assert_eq!(run(&["--to=binary"], b"43fbefff").stdout, bytes);
}

/// An encoding indicator is no mark of notation, so such a number is no notation, and it is refused
/// as hexadecimal.
#[test]
fn a_number_alone_is_no_notation() {
    let (output, said, status) = look(&[], b"1_1");
    assert_eq!((output.as_str(), status), ("", 1));
    assert!(said.starts_with("error: line 1, column 2: '_' is no hexadecimal digit"));
    assert_eq!(look(&["--from=edn", "--to=hex"], b"1_1").0, "190001\n");
}
