//! Hexadecimal (RFC 4648, section 8): two digits for each byte, which `0x` or `\x` may precede.
//! White space, colons and commas may be between bytes.

use crate::spell::pieces::Piece;

/// Returns true if the character may be between bytes.
pub(crate) fn is_between(byte: u8) -> bool {
    byte.is_ascii_whitespace() || byte == b',' || byte == b':'
}

/// Returns true if the text begins with `0x` or `\x`.
pub(crate) fn begins_with_prefix(text: &[u8]) -> bool {
    matches!(text, [b'0' | b'\\', b'x' | b'X', ..])
}

/// Returns the piece of `skipped` characters and two digits.
pub(crate) fn byte_behind(text: &[u8], skipped: usize) -> Piece {
    let digit = |at: usize| {
        let digit = text
            .get(at)
            .and_then(|digit| char::from(*digit).to_digit(16));
        digit.ok_or(at)
    };
    let byte = digit(skipped)? * 16 + digit(skipped + 1)?;
    Ok((Some(byte as u8), skipped + 2))
}

/// Returns the byte at the front of the text, or the character between bytes.
pub(crate) fn front(text: &[u8]) -> Piece {
    if is_between(text[0]) {
        return Ok((None, 1));
    }
    byte_behind(text, if begins_with_prefix(text) { 2 } else { 0 })
}
