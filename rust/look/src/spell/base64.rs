//! Base64 and base64url (RFC 4648, sections 4 and 5).

use crate::encode::base64_digit;
use crate::spell::read::{Misspelled, Why};

/// Returns the bytes of a group of two to four digits with these numbers.
fn group(numbers: &[u8]) -> impl Iterator<Item = u8> + use<> {
    let bits = (0..4).fold(0, |bits, at| {
        bits << 6 | u32::from(*numbers.get(at).unwrap_or(&0))
    });
    bits.to_be_bytes()
        .into_iter()
        .skip(1)
        .take(numbers.len() - 1)
}

/// Returns the bytes that the text spells, or where it is misspelled.
///
/// The digits are of either alphabet, with or without padding after them. White space may be
/// between them.
pub(crate) fn bytes(text: &[u8]) -> Result<Vec<u8>, Misspelled> {
    let digits = text
        .strip_suffix(b"=")
        .map(|text| text.strip_suffix(b"=").unwrap_or(text));
    let mut numbers = Vec::new();
    for (offset, digit) in digits.unwrap_or(text).iter().enumerate() {
        if !digit.is_ascii_whitespace() {
            numbers.push(base64_digit(*digit).ok_or(Misspelled(offset, Why::Digit))?);
        }
    }
    if numbers.len() % 4 == 1 {
        return Err(Misspelled(text.len(), Why::Digit));
    }
    Ok(numbers.chunks(4).flat_map(group).collect())
}
