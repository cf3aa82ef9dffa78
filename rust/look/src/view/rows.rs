//! Lines as rows for a program that shows them.

use crate::encode::hex;
use crate::explain::{Cover, Line};

/// Returns the letter of a cover.
fn letter(cover: Cover) -> char {
    match cover {
        Cover::Plain => '-',
        Cover::Signed => 's',
        Cover::Authenticated | Cover::Associated => 'a',
        Cover::NotSigned => 'n',
        Cover::NotAuthenticated => 'u',
        Cover::Seal => 'c',
        Cover::Refused => 'r',
    }
}

/// Returns a row: the letter of the cover, the depth, the bytes in hexadecimal, the text and the
/// note, separated by tabs. No text or note has a control character.
fn row(line: &Line) -> String {
    let Line {
        bytes,
        depth,
        text,
        note,
        cover,
    } = line;
    format!(
        "{}\t{depth}\t{}\t{text}\t{note}\n",
        letter(*cover),
        hex(bytes)
    )
}

/// Returns the rows: one that says how the input was read, with a summary after a tab, one for each
/// line, and one for each note, which begins with `=`.
pub(crate) fn rows(said: &str, summary: &str, lines: &[Line], notes: &[String]) -> String {
    let lines: String = lines.iter().map(row).collect();
    let notes: String = notes.iter().map(|note| format!("={note}\n")).collect();
    format!("{said}\t{summary}\n{lines}{notes}")
}
