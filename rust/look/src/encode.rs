//! Bytes in hexadecimal and base64 (RFC 4648).

use std::fmt::Write;

const BASE64: &[u8; 64] = b"ABCDEFGHIJKLMNOPQRSTUVWXYZabcdefghijklmnopqrstuvwxyz0123456789+/";

/// Returns the bytes in hexadecimal.
pub fn hex(bytes: &[u8]) -> String {
    let mut text = String::with_capacity(bytes.len() * 2);
    for byte in bytes {
        write!(text, "{byte:02x}").expect("a String takes all text");
    }
    text
}

/// Returns the bytes in base64 with padding.
pub fn base64(bytes: &[u8]) -> String {
    let group = |group: &[u8]| {
        let mut padded = [0; 4];
        padded[1..=group.len()].copy_from_slice(group);
        let bits = u32::from_be_bytes(padded);
        let digit = move |at: usize| char::from(BASE64[(bits >> (18 - 6 * at)) as usize % 64]);
        let count = group.len();
        (0..4).map(move |at| if at <= count { digit(at) } else { '=' })
    };
    bytes.chunks(3).flat_map(group).collect()
}

/// Returns the number of a digit of base64 or base64url, or `None` for another character.
pub(crate) fn base64_digit(digit: u8) -> Option<u8> {
    match digit {
        b'A'..=b'Z' => Some(digit - b'A'),
        b'a'..=b'z' => Some(digit - b'a' + 26),
        b'0'..=b'9' => Some(digit - b'0' + 52),
        b'+' | b'-' => Some(62),
        b'/' | b'_' => Some(63),
        _ => None,
    }
}
