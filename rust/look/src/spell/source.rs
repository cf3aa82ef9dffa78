//! Finds the bytes in source code, in JSON, in PEM armour, in URLs and beside comments.

use crate::spell::code::code;
use crate::spell::framed::{Found, Spelling, digits};
use crate::spell::json::json;
use crate::spell::text::{behind_word, position};

/// Returns true if `\x` stands before each byte of the text, or nowhere. Otherwise the digits
/// without it are characters in most languages.
pub(crate) fn has_whole_escapes(text: &[u8]) -> bool {
    let is_escape = |piece: &[u8]| match piece {
        [b'\\', b'x', high, low] => high.is_ascii_hexdigit() && low.is_ascii_hexdigit(),
        _ => false,
    };
    let has_escape = position(text, b"\\x").is_some() || position(text, b"\\X").is_some();
    !has_escape || text.chunks(4).all(is_escape)
}

/// Finds the base64 in PEM armour (RFC 7468). Text may come before it. There must be one message.
fn pem(text: &[u8]) -> Option<Found> {
    let begin = position(text, b"-----BEGIN ")?;
    let start = begin + position(&text[begin..], b"\n")?;
    let body = &text[start..];
    let digits = &body[..position(body, b"-----END ")?];
    let is_only = position(body, b"-----BEGIN ").is_none();
    is_only.then(|| {
        (
            Spelling::Base64,
            start..start + digits.trim_ascii_end().len(),
        )
    })
}

/// Finds the data of a URL (RFC 2397).
fn data_url(text: &[u8]) -> Option<Found> {
    let named = behind_word(text, b"data:")?;
    let comma = named.iter().position(|byte| *byte == b',')?;
    let is_base64 = named[..comma].to_ascii_lowercase().ends_with(b";base64");
    let spelling = if is_base64 {
        Spelling::Base64
    } else {
        Spelling::Percent
    };
    Some((spelling, text.len() - named.len() + comma + 1..text.len()))
}

/// Finds the digits between `<` and `>`.
fn in_angles(text: &[u8]) -> Option<Found> {
    match text {
        [b'<', inner @ .., b'>'] => Some((digits(inner), 1..text.len() - 1)),
        _ => None,
    }
}

/// Finds hexadecimal with comments. It begins with a digit or a comment.
fn commented(text: &[u8]) -> Option<Found> {
    let first = text.first()?;
    let begins = first.is_ascii_hexdigit() || b"#;/\\".contains(first);
    let has_comment = text.iter().any(|byte| b"#;".contains(byte))
        || position(text, b"//").is_some()
        || position(text, b"/*").is_some();
    (begins && has_comment).then_some((Spelling::Commented, 0..text.len()))
}

/// Finds percent-encoding, which begins with a byte.
fn percent(text: &[u8]) -> Option<Found> {
    text.starts_with(b"%")
        .then_some((Spelling::Percent, 0..text.len()))
}

/// Finds the part of the text that a frame marks, or the whole text if its spelling has marks of
/// its own.
pub(crate) fn find(text: &[u8]) -> Option<Found> {
    pem(text)
        .or_else(|| data_url(text))
        .or_else(|| json(text))
        .or_else(|| code(text))
        .or_else(|| in_angles(text))
        .or_else(|| commented(text))
        .or_else(|| percent(text))
}
