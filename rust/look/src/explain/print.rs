//! Lines as text.

use crate::encode::hex;
use crate::explain::column::Line;
use crate::explain::cover::Cover;
use crate::explain::quotes::{is_right_to_left, isolated, shortened};

/// The number of bytes in a row.
const BYTES: usize = 16;

/// The most levels that are indented.
const STEPS: usize = 32;

/// The most bytes after the first row of a line that is shown short.
const MORE: usize = 16;

/// How lines are written as text.
#[derive(Clone, Copy, Debug, Default, PartialEq, Eq)]
pub struct Style {
    /// For a terminal: each line in the colour of its cover, and text strings isolated if a letter
    /// next to them is written from right to left.
    pub is_colored: bool,
    /// With long strings and long rows of bytes cut, and their lengths.
    pub is_short: bool,
}

/// Returns the indentation of a line.
fn indentation(depth: usize) -> String {
    "  ".repeat(depth.min(STEPS))
}

/// Returns a comment (RFC 8610, appendix G.6). A slash in the comment is doubled: it ends one
/// comment and begins another.
pub fn comment(text: &str) -> String {
    format!("/ {} /", text.replace('/', "//"))
}

/// Returns the notes as comments in lines without bytes.
pub fn commented(notes: &[String]) -> String {
    notes
        .iter()
        .map(|note| format!("{:32}  {}\n", "", comment(note)))
        .collect()
}

/// Returns the terminal's code for the colour of the cover. It may be empty.
///
/// Blue is covered, yellow a header that isn't. Cyan is a signature, a MAC or a ciphertext, red is
/// refused. Nothing is green, because no key has verified anything.
fn color(cover: Cover) -> &'static str {
    match cover {
        Cover::Plain => "",
        Cover::Signed | Cover::Authenticated | Cover::Associated => "\u{1b}[94m",
        Cover::NotSigned | Cover::NotAuthenticated => "\u{1b}[33m",
        Cover::Seal => "\u{1b}[36m",
        Cover::Refused => "\u{1b}[1;31m",
    }
}

/// Returns the text and the note of the line, as a terminal shows them or as they are.
fn meaning(line: &Line, style: Style) -> String {
    let mut meaning = if style.is_short {
        shortened(&line.text)
    } else {
        line.text.clone()
    };
    if !line.note.is_empty() {
        meaning.push(' ');
        meaning.push_str(&comment(&line.note));
    }
    if style.is_colored && meaning.chars().any(is_right_to_left) {
        // No string can end its isolation, because these characters are escaped in it.
        return isolated(&meaning, ("\u{2068}", "\u{2069}"), String::push);
    }
    meaning
}

/// Returns the line: its bytes in rows, with its text and its note next to the first row.
fn rows(line: &Line, style: Style) -> String {
    let begin = if style.is_colored {
        color(line.cover)
    } else {
        ""
    };
    let end = if begin.is_empty() { "" } else { "\u{1b}[0m" };
    let (first, others) = line.bytes.split_at(line.bytes.len().min(BYTES));
    let most = if style.is_short { MORE } else { usize::MAX };
    let (shown, left) = others.split_at(others.len().min(most));
    let (indentation, meaning) = (indentation(line.depth), meaning(line, style));
    let mut text = format!("{begin}{:32}  {indentation}{meaning}{end}\n", hex(first));
    for row in shown.chunks(BYTES) {
        text.push_str(&format!("{begin}{}{end}\n", hex(row)));
    }
    if !left.is_empty() {
        text.push_str(&format!("{begin}\u{2026} {} more bytes{end}\n", left.len()));
    }
    text
}

/// Returns the lines with their bytes in hexadecimal, 16 in a row, and their notes as comments.
pub fn annotated(lines: &[Line], style: Style) -> String {
    lines.iter().map(|line| rows(line, style)).collect()
}

/// Returns the lines without their bytes and notes: diagnostic notation alone.
pub fn notation(lines: &[Line]) -> String {
    let shown = lines.iter().filter(|line| !line.text.is_empty());
    shown
        .map(|line| format!("{}{}\n", indentation(line.depth), line.text))
        .collect()
}
