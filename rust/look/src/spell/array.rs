//! The elements of an array in source code: numbers from 0 to 255.

use crate::spell::pieces::Piece;
use crate::spell::text::number;

/// Returns true if the character may be between elements.
fn is_gap(byte: &u8) -> bool {
    byte.is_ascii_whitespace() || *byte == b','
}

/// Returns the number of the word, or `None` if it isn't a number from 0 to 255. A zero before
/// other decimal digits is refused, because C would read octal. Rust's suffix `u8` is allowed.
fn element(word: &[u8]) -> Option<u8> {
    let number = match word.strip_suffix(b"u8").unwrap_or(word) {
        [b'0', b'x' | b'X', digits @ ..] if !digits.is_empty() => number(16, digits),
        [] | [b'0', _, ..] => None,
        digits => number(10, digits),
    };
    u8::try_from(number?).ok()
}

/// Returns the element at the front of the text, or the character between elements.
pub(crate) fn front(text: &[u8]) -> Piece {
    match text.iter().position(is_gap).unwrap_or(text.len()) {
        0 => Ok((None, 1)),
        length => Ok((Some(element(&text[..length]).ok_or(0usize)?), length)),
    }
}
