//! Names what an input is if it isn't CBOR.

use crate::spell::text::{behind_word, position, trimmed};

/// What an input is, if it isn't CBOR.
#[derive(Clone, Copy, Debug, PartialEq, Eq)]
pub enum Content {
    /// Nothing, or only white space.
    Nothing,
    /// Bytes compressed by zlib (RFC 1950).
    Zlib,
    /// Bytes compressed by gzip (RFC 1952).
    Gzip,
    /// An ASN.1 structure in DER, such as a certificate.
    Der,
    /// A zip archive.
    Zip,
    /// Text in UTF-16.
    Utf16,
    /// A JSON web token (RFC 7519).
    WebToken,
    /// A JSON object or array.
    Json,
    /// Diagnostic notation (RFC 8949, section 8).
    Notation,
    /// Several PEM messages.
    Pem,
    /// A health certificate: base45 of bytes compressed by zlib, after `HC1:`.
    HealthCertificate,
    /// Plain text.
    Words,
    /// Text that may be base64.
    Base64,
}

/// Returns true if the bytes are one SEQUENCE in DER.
fn is_der(bytes: &[u8]) -> bool {
    let number = |digits: &[u8]| {
        digits
            .iter()
            .fold(0, |n, digit| n << 8 | usize::from(*digit))
    };
    let (length, content) = match bytes {
        [0x30, 0x81, rest @ ..] if !rest.is_empty() => (number(&rest[..1]), &rest[1..]),
        [0x30, 0x82, rest @ ..] if 2 <= rest.len() => (number(&rest[..2]), &rest[2..]),
        [0x30, 0x83, rest @ ..] if 3 <= rest.len() => (number(&rest[..3]), &rest[3..]),
        [0x30, short @ 0..=127, content @ ..] => (usize::from(*short), content),
        _ => return false,
    };
    length == content.len()
}

/// Returns what the bytes are by their beginning, if they are no CBOR. `None` says nothing about
/// them.
pub fn content_of_bytes(bytes: &[u8]) -> Option<Content> {
    match bytes {
        [] => Some(Content::Nothing),
        [0x78, 0x01 | 0x5e | 0x9c | 0xda, _, ..] => Some(Content::Zlib),
        [0x1f, 0x8b, ..] => Some(Content::Gzip),
        [b'P', b'K', 0x03, 0x04, ..] => Some(Content::Zip),
        [0xff, 0xfe, ..] | [0xfe, 0xff, ..] => Some(Content::Utf16),
        _ if is_der(bytes) => Some(Content::Der),
        _ => None,
    }
}

/// Returns true if the character may be in base64url.
fn is_of_base64url(byte: u8) -> bool {
    byte.is_ascii_alphanumeric() || byte == b'-' || byte == b'_'
}

/// Returns true if the text is base64url with two or four dots, and begins as a JSON object does
/// in base64.
fn is_web_token(text: &[u8]) -> bool {
    let dots = text.iter().filter(|byte| **byte == b'.').count();
    let is_allowed = |byte: &u8| is_of_base64url(*byte) || *byte == b'.';
    text.starts_with(b"ey") && text.iter().all(is_allowed) && matches!(dots, 2 | 4)
}

/// Returns the text after a comment of diagnostic notation at its front.
fn without_comment(text: &[u8]) -> &[u8] {
    let Some(rest) = text.strip_prefix(b"/") else {
        return text;
    };
    let end = rest.iter().position(|byte| *byte == b'/');
    end.map_or(text, |end| rest[end + 1..].trim_ascii_start())
}

/// Returns true if the text is an object of JSON, or an array that doesn't begin with a number.
fn is_json(text: &[u8]) -> bool {
    match text {
        [b'{', rest @ .., b'}'] => matches!(rest.trim_ascii_start().first(), None | Some(b'"')),
        [b'[', rest @ .., b']'] => {
            matches!(rest.trim_ascii_start().first(), Some(b'"' | b'{' | b'['))
        }
        _ => false,
    }
}

/// Returns true if the text begins with a whole number and this sign.
fn begins_with_number(text: &[u8], sign: u8) -> bool {
    let is_before =
        |byte: &u8| byte.is_ascii_digit() || *byte == b'-' || byte.is_ascii_whitespace();
    let end = text.iter().position(|byte| !is_before(byte));
    end.is_some_and(|end| text[end] == sign && text[..end].iter().any(u8::is_ascii_digit))
}

/// Returns true if the text has a sign that only diagnostic notation has.
///
/// It is a map whose first label is a number, a tag, a byte string, or embedded CBOR.
fn is_notation(text: &[u8]) -> bool {
    let signs: [&[u8]; 3] = [b"h'", b"<<", b"b64'"];
    let begins_map = match text {
        [b'{', rest @ ..] => begins_with_number(without_comment(rest.trim_ascii_start()), b':'),
        _ => begins_with_number(text, b'('),
    };
    let begins = matches!(text.first(), Some(b'{' | b'[' | b'<'));
    begins_map || begins && signs.iter().any(|sign| position(text, sign).is_some())
}

/// Returns true if the text has several PEM messages.
fn has_several_messages(text: &[u8]) -> bool {
    let begin = b"-----BEGIN ";
    position(text, begin).is_some_and(|first| position(&text[first + 1..], begin).is_some())
}

/// Returns true if the text has a space, and at least four letters that aren't hexadecimal digits.
/// They must be at least two fifths of the text.
fn is_words(text: &[u8]) -> bool {
    let is_letter = |byte: &&u8| byte.is_ascii_alphabetic() && !byte.is_ascii_hexdigit();
    let letters = text.iter().filter(is_letter).count();
    text.contains(&b' ') && 4 <= letters && text.len() / 5 * 2 <= letters
}

/// Returns true if the text consists of digits of base64 or base64url, white space and padding.
fn is_base64(text: &[u8]) -> bool {
    let is_of_base64 = |byte: &u8| {
        is_of_base64url(*byte) || byte.is_ascii_whitespace() || matches!(byte, b'+' | b'/' | b'=')
    };
    text.iter().all(is_of_base64)
}

/// Returns what a text is, if it spells no bytes. `None` says nothing about it.
pub fn content_of_text(input: &[u8]) -> Option<Content> {
    let text = trimmed(input);
    let inner = without_comment(text);
    let known = [
        (text.is_empty(), Content::Nothing),
        (
            is_web_token(behind_word(text, b"bearer ").unwrap_or(text)),
            Content::WebToken,
        ),
        (is_notation(inner), Content::Notation),
        (is_json(inner), Content::Json),
        (has_several_messages(text), Content::Pem),
        (
            behind_word(text, b"HC1:").is_some(),
            Content::HealthCertificate,
        ),
        (is_words(text), Content::Words),
        (is_base64(text), Content::Base64),
    ];
    known
        .into_iter()
        .find(|(is_so, _)| *is_so)
        .map(|(_, content)| content)
}
