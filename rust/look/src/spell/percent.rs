//! Percent-encoding (RFC 3986, section 2.1).

use crate::spell::hexadecimal::byte_behind;
use crate::spell::pieces::Piece;

/// The printable characters that don't stand for themselves in the data of a URL. Forms write a
/// space as `+`.
const RESERVED: &[u8] = b"\"#%+<>\\^`{|}";

/// Returns the character or escape at the front of the text.
pub(crate) fn front(text: &[u8]) -> Piece {
    match text[0] {
        b'%' => byte_behind(text, 1),
        byte @ b'!'..=b'~' if !RESERVED.contains(&byte) => Ok((Some(byte), 1)),
        _ => Err(0),
    }
}
