//! Comments between bytes: from `#`, `;` or `//` to the end of a line, and from `/*` to `*/`.

use crate::spell::pieces;
use crate::spell::read::{Misspelled, Why};
use crate::spell::text::position;
use crate::spell::{array, hexadecimal};

/// Returns the length of the comment at the front, or 0 if there is none. Returns `None` if it has
/// no end.
fn comment_length(text: &[u8]) -> Option<usize> {
    match text {
        [b'#' | b';', ..] | [b'/', b'/', ..] => Some(
            text.iter()
                .position(|byte| *byte == b'\n')
                .map_or(text.len(), |end| end + 1),
        ),
        [b'/', b'*', rest @ ..] => position(rest, b"*/").map(|end| end + 4),
        _ => Some(0),
    }
}

/// Returns the text with a space for each character of a comment, or a fault. In an array, a `;`
/// outside comments is a fault, because Rust repeats an element by it.
fn without_comments(text: &[u8], is_array: bool) -> Result<Vec<u8>, Misspelled> {
    let mut seen = Vec::with_capacity(text.len());
    while let Some(byte) = text.get(seen.len()) {
        if is_array && *byte == b';' {
            return Err(Misspelled(seen.len(), Why::Digit));
        }
        match comment_length(&text[seen.len()..]) {
            None => return Err(Misspelled(text.len(), Why::Comment)),
            Some(0) => seen.push(*byte),
            Some(length) => seen.resize(seen.len() + length, b' '),
        }
    }
    Ok(seen)
}

/// Returns the bytes that the text spells in hexadecimal, without the comments between them, or
/// where the text is misspelled.
pub(crate) fn bytes(text: &[u8]) -> Result<Vec<u8>, Misspelled> {
    pieces::bytes(&without_comments(text, false)?, hexadecimal::front)
}

/// Returns the numbers of an array in source code, or where the text is misspelled.
pub(crate) fn elements(text: &[u8]) -> Result<Vec<u8>, Misspelled> {
    pieces::bytes(&without_comments(text, true)?, array::front)
}
