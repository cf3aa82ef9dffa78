//! Texts that consist of pieces. Each piece stands for one byte, or for none.

use crate::spell::read::{Misspelled, Why};

/// The piece at the front of a text: its byte, unless it is between bytes, and its length. Or the
/// offset at which the text is misspelled.
pub(crate) type Piece = Result<(Option<u8>, usize), usize>;

/// Returns the bytes of the text's pieces, or where it is misspelled. `front` reads the piece at
/// the front of a text that isn't empty.
pub(crate) fn bytes(text: &[u8], front: fn(&[u8]) -> Piece) -> Result<Vec<u8>, Misspelled> {
    let (mut bytes, mut at) = (Vec::new(), 0);
    while at < text.len() {
        let piece = front(&text[at..]);
        let (byte, length) = piece.map_err(|offset| Misspelled(at + offset, Why::Digit))?;
        bytes.extend(byte);
        at += length;
    }
    Ok(bytes)
}
