//! Reads an input: the bytes that it spells, or those that it writes in diagnostic notation.

use crate::notation::{Fault, bytes_of};
use crate::spell::{
    Content, Reading as Spelled, Unread, Why, content_of_text, is_text, line_and_column, read_input,
};
use crate::view::misread::{advice, is_item, misspelled, read_as, spelled_as};

/// The line for a text that may be bytes or notation.
const AMBIGUOUS: &str = "error: the text may be bytes or diagnostic notation: write the bytes \
    in plain hexadecimal, or begin the notation with a comment, as in / / [1]";

/// The line for an input that is said to be notation and is no text.
const NO_TEXT: &str = "error: the input isn't text in UTF-8, as diagnostic notation must be";

/// The marks of notation that hexadecimal and base64 don't have.
const MARKS: &[u8] = b"\"#(.<[{";

/// The bytes of an input, and a line that says how it was read.
pub struct Reading {
    /// The bytes.
    pub bytes: Vec<u8>,
    /// How they were read, for standard error.
    pub said: String,
}

/// Returns the text after a byte order mark, if it begins with one.
fn without_mark(text: &str) -> &str {
    text.strip_prefix('\u{feff}').unwrap_or(text)
}

/// Returns the input as a text if it may be notation, or `None`. A byte order mark is left out.
fn as_notation(input: &[u8]) -> Option<&str> {
    let text = std::str::from_utf8(input).ok()?;
    let may_be = is_text(input) && input.iter().any(|byte| MARKS.contains(byte));
    may_be.then(|| without_mark(text))
}

/// Returns true if the bytes are one array, map or tagged item, as all of COSE is.
fn is_structure(bytes: &[u8]) -> bool {
    matches!(bytes.first(), Some(0x80..=0xdf)) && is_item(bytes)
}

/// Returns the line for a text that isn't notation from the place of the fault on.
fn faulty(text: &str, fault: Fault) -> String {
    let (line, column) = line_and_column(text.as_bytes(), fault.offset);
    let expected = fault.expected.text();
    format!("error: line {line}, column {column}: diagnostic notation needs {expected} here")
}

/// Returns the bytes that a text writes in notation, or its fault.
fn read_notation(text: &str) -> Result<Reading, Fault> {
    let bytes = bytes_of(text)?;
    Ok(Reading {
        said: read_as("diagnostic notation", bytes.len()),
        bytes,
    })
}

/// Reads an input that spells `bytes` as notation. Returns `None` if it can't be notation, or if
/// the bytes are one array, map or tagged item.
fn also_notation(input: &[u8], bytes: &[u8]) -> Option<Reading> {
    let text = as_notation(input)?;
    let begins_as_item = text.trim_start().starts_with(['[', '{', '"']);
    if !begins_as_item || is_structure(bytes) {
        return None;
    }
    read_notation(text).ok()
}

/// Returns the bytes that the input spells. If it is notation too, returns the notation's bytes if
/// it spells none, and otherwise an error.
fn read_spelled(input: &[u8], spelled: Spelled) -> Result<Reading, String> {
    match also_notation(input, &spelled.bytes) {
        Some(reading) if spelled.bytes.is_empty() => Ok(reading),
        Some(_) => Err(AMBIGUOUS.into()),
        None => Ok(Reading {
            said: spelled_as(&spelled, input),
            bytes: spelled.bytes,
        }),
    }
}

/// Reads an input that spells no bytes as notation, if it may be notation. Otherwise, the fault is
/// the one whose place is later. A fault other than a wrong digit always comes first.
fn read_unspelled(input: &[u8], unread: &Unread) -> Result<Reading, String> {
    let Some(text) = as_notation(input) else {
        return Err(misspelled(unread, input));
    };
    let mut reading = read_notation(text).map_err(|fault| {
        let is_later = unread.why == Why::Digit && unread.offset < fault.offset;
        if is_later {
            faulty(text, fault)
        } else {
            misspelled(unread, text.as_bytes())
        }
    })?;
    if content_of_text(text.as_bytes()) == Some(Content::Json) {
        reading.said = format!("{}; {}", reading.said, advice(Content::Json));
    }
    Ok(reading)
}

/// Returns the bytes of an input that is said to be notation.
fn read_said(input: &[u8]) -> Result<Reading, String> {
    let text = without_mark(std::str::from_utf8(input).map_err(|_| NO_TEXT)?);
    read_notation(text).map_err(|fault| faulty(text, fault))
}

/// Returns the bytes of the input, or the line of its error.
///
/// If `is_notation` is true, the input is read as diagnostic notation. Otherwise it is read as
/// notation if it spells no bytes. A text that may be both is read as bytes if they are one array,
/// map or tagged item, and is refused otherwise.
pub fn read_bytes(is_notation: bool, input: &[u8]) -> Result<Reading, String> {
    if is_notation {
        return read_said(input);
    }
    match read_input(input) {
        Ok(spelled) => read_spelled(input, spelled),
        Err(unread) => read_unspelled(input, &unread),
    }
}
