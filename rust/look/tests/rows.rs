//! Rows of input, each with its answer in the file `rows/NAME.expected`. Headings stay.

use coset_cwt::Form;
use look::spell::{Unread, Why, content_of_bytes, content_of_text, read_input};
use look::{notation, seals};
use std::fs;

fn is_heading(row: &str) -> bool {
    row.is_empty() || row.starts_with('#')
}

/// Compares the answers for a file's rows with those that are expected.
fn check(name: &str, is_heading: fn(&str) -> bool, answer: fn(&str) -> String) {
    let folder = concat!(env!("CARGO_MANIFEST_DIR"), "/tests/rows");
    let rows = fs::read_to_string(format!("{folder}/{name}")).unwrap();
    let expected = fs::read_to_string(format!("{folder}/{name}.expected")).unwrap();
    assert_eq!(rows.lines().count(), expected.lines().count(), "{name}");
    let wrong: Vec<String> = rows
        .lines()
        .zip(expected.lines())
        .filter_map(|(row, expected)| {
            let got = if is_heading(row) {
                row.to_string()
            } else {
                answer(row)
            };
            (got != expected).then(|| format!("{row}: {got}, not {expected}"))
        })
        .collect();
    assert!(wrong.is_empty(), "{name}: {wrong:#?}");
}

fn hex(bytes: &[u8]) -> String {
    bytes.iter().map(|byte| format!("{byte:02x}")).collect()
}

fn unhex(digits: &str) -> Vec<u8> {
    let byte = |at| u8::from_str_radix(&digits[at..at + 2], 16).unwrap();
    (0..digits.len()).step_by(2).map(byte).collect()
}

/// Returns the bytes of a row with the escapes `\n`, `\r`, `\t`, `\\` and `\xHH`.
fn unescaped(row: &str) -> Vec<u8> {
    let (mut bytes, mut left) = (Vec::new(), row.as_bytes());
    while let [first, rest @ ..] = left {
        let (byte, count) = match (first, rest) {
            (b'\\', [b'x', ..]) => (
                u8::from_str_radix(&row[row.len() - rest.len() + 1..][..2], 16).unwrap(),
                4,
            ),
            (b'\\', [b'n', ..]) => (b'\n', 2),
            (b'\\', [b'r', ..]) => (b'\r', 2),
            (b'\\', [b't', ..]) => (b'\t', 2),
            (b'\\', [b'\\', ..]) => (b'\\', 2),
            (b'\\', _) => panic!("unknown escape: {row}"),
            (byte, _) => (*byte, 1),
        };
        bytes.push(byte);
        left = &left[count..];
    }
    bytes
}

/// Texts in any spelling. The answer is the spelling and the bytes, or the place of the fault, the
/// reason and the character there. The content follows if it is known and no CBOR.
#[test]
fn spell() {
    check(
        "spell",
        |row| row.starts_with("# "),
        |row| {
            let input = unescaped(row);
            let (told, content) = match read_input(&input) {
                Ok(reading) => (
                    format!("{:?} {}", reading.spelling, hex(&reading.bytes)),
                    content_of_bytes(&reading.bytes),
                ),
                Err(Unread {
                    spelling,
                    why,
                    line,
                    column,
                    character,
                    ..
                }) => (
                    format!(
                        "{line}:{column} {spelling:?} {why:?} {}",
                        character.map_or("end".into(), |c| format!("U+{:04X}", u32::from(c)))
                    ),
                    content_of_text(&input).filter(|_| why == Why::Digit),
                ),
            };
            content.map_or(told.clone(), |content| format!("{told} {content:?}"))
        },
    );
}

/// Diagnostic notation. The answer is its bytes, or the offset of the fault and what is needed
/// there.
#[test]
fn diagnostic_notation() {
    check("notation", is_heading, |row| {
        match notation::bytes_of(row) {
            Ok(bytes) => hex(&bytes),
            Err(fault) => format!("error: {}, {}", fault.offset, fault.expected.text()),
        }
    });
}

/// Messages and keys: `seals FORM BYTES KEYS [EXTERNAL_AAD]`, with `-` for no bytes. The answer has
/// `;` for the end of a line, and spaces for tabs.
#[test]
fn signatures_and_keys() {
    check("seals", is_heading, |row| {
        let words: Vec<&str> = row.split(' ').collect();
        let form = match words[1] {
            "auto" => None,
            "sign1" => Some(Form::Sign1),
            "mac0" => Some(Form::Mac0),
            "encrypt0" => Some(Form::Encrypt0),
            "sign" => Some(Form::Sign),
            "mac" => Some(Form::Mac),
            "encrypt" => Some(Form::Encrypt),
            other => panic!("{other}"),
        };
        let word = |at: usize| {
            words
                .get(at)
                .filter(|word| **word != "-")
                .map_or(Vec::new(), |word| unhex(word))
        };
        seals::described(form, &word(2), &word(3), &word(4)).map_or("no message".into(), |text| {
            text.replace('\t', " ").replace('\n', ";")
        })
    });
}
