//! The characters and escapes of a literal of Python's `bytes`, or of a byte string of Rust.

use crate::spell::hexadecimal::byte_behind;
use crate::spell::pieces::{self, Piece};
use crate::spell::read::{Misspelled, Why};

/// Returns the character or escape at the front of the text. Printable ASCII stands for itself.
fn front(text: &[u8]) -> Piece {
    let escape = match text {
        [b'\\', b'x', ..] => return byte_behind(text, 2),
        [b'\\', b'n', ..] => b'\n',
        [b'\\', b'r', ..] => b'\r',
        [b'\\', b't', ..] => b'\t',
        [b'\\', byte @ (b'\\' | b'\'' | b'"'), ..] => *byte,
        [b'\\', ..] => return Err(1),
        [byte @ b' '..=b'~', ..] => return Ok((Some(*byte), 1)),
        _ => return Err(0),
    };
    Ok((Some(escape), 2))
}

/// Returns the bytes of the characters and escapes, or where they are misspelled. A text without
/// an escape is refused, because it may consist of hexadecimal or base64 digits.
pub(crate) fn bytes(text: &[u8]) -> Result<Vec<u8>, Misspelled> {
    if text.contains(&b'\\') {
        pieces::bytes(text, front)
    } else {
        Err(Misspelled(0, Why::NoEscape))
    }
}
