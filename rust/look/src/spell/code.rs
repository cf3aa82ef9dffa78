//! Finds the array or the literal in a statement or expression of source code.

use crate::spell::framed::{Found, Spelling, digits};
use crate::spell::source::has_whole_escapes;
use crate::spell::text::behind_word;

/// The words that may precede an array or a literal, in the order in which they may stand.
const WORDS: [&[u8]; 12] = [
    b"&",
    b"new ",
    b"vec!",
    b"[]byte",
    b"byte[]",
    b"bytes.fromhex",
    b"bytearray.fromhex",
    b"bytearray",
    b"bytes",
    b"Uint8Array.from",
    b"Uint8Array",
    b"(",
];

/// Returns true if the character may be in a name.
fn is_of_name(byte: u8) -> bool {
    byte.is_ascii_alphanumeric() || byte == b'_'
}

/// Returns true if the text before a sign `=` declares a name, as in C, Rust, Python or Go. A
/// semicolon is only allowed in the type of an array.
fn is_declaration(text: &[u8]) -> bool {
    let mut is_in_type = false;
    let is_allowed = |byte: &u8| match byte {
        b'[' | b']' => {
            is_in_type = *byte == b'[';
            true
        }
        b';' => is_in_type,
        byte => is_of_name(*byte) || byte.is_ascii_whitespace() || b"*&:'<>.".contains(byte),
    };
    let begins = text
        .first()
        .is_some_and(|first| first.is_ascii_alphabetic() || *first == b'_');
    begins && text.iter().all(is_allowed)
}

/// Returns the text after the declaration of a name and a sign `=`, or the whole text if it
/// doesn't begin so.
fn value(text: &[u8]) -> &[u8] {
    match text.iter().position(|byte| *byte == b'=') {
        Some(end) if is_declaration(&text[..end]) => text[end + 1..].trim_ascii_start(),
        _ => text,
    }
}

/// Returns the text after the words that may precede an array or a literal, and whether a literal
/// is hexadecimal by them.
fn without_words(mut text: &[u8]) -> (&[u8], bool) {
    let mut is_hexadecimal = false;
    for word in WORDS {
        if let Some(rest) = behind_word(text, word) {
            text = rest.trim_ascii_start();
            is_hexadecimal |= word.ends_with(b"fromhex");
        }
    }
    (text, is_hexadecimal)
}

/// Returns the number of characters before the first `close` that no backslash precedes.
fn length_to(text: &[u8], close: u8) -> Option<usize> {
    let mut is_escaped = false;
    text.iter().position(|byte| {
        let is_close = !is_escaped && *byte == close;
        is_escaped = !is_escaped && *byte == b'\\';
        is_close
    })
}

/// Returns true if the text may follow an array or a literal: signs that end a statement, and the
/// length that `xxd -i` declares.
fn is_trailer(mut text: &[u8]) -> bool {
    for end in [b")", b",", b";"] {
        text = text.trim_ascii_start();
        text = text.strip_prefix(end).unwrap_or(text);
    }
    let text = text.trim_ascii_start();
    let is_allowed = |byte: &u8| {
        is_of_name(*byte) || byte.is_ascii_whitespace() || *byte == b'=' || *byte == b';'
    };
    text.is_empty() || text.starts_with(b"unsigned int ") && text.iter().all(is_allowed)
}

/// Returns the spelling of what a character opens, if that says it, the character that closes it,
/// and the text between them and after.
fn opened(text: &[u8], is_hexadecimal: bool) -> Option<(Option<Spelling>, u8, &[u8])> {
    match text {
        [b'[', inner @ ..] => Some((Some(Spelling::Array), b']', inner)),
        [b'{', inner @ ..] => Some((Some(Spelling::Array), b'}', inner)),
        [b'b', quote @ (b'"' | b'\''), inner @ ..] => {
            Some((Some(Spelling::Literal), *quote, inner))
        }
        [quote @ (b'"' | b'\'' | b'`'), inner @ ..] => Some((
            is_hexadecimal.then_some(Spelling::Hexadecimal),
            *quote,
            inner,
        )),
        _ => None,
    }
}

/// Finds the array or the literal in source code. A declaration may precede it.
pub(crate) fn code(text: &[u8]) -> Option<Found> {
    let (left, is_hexadecimal) = without_words(value(text));
    let (spelling, close, inner) = opened(left, is_hexadecimal)?;
    let (content, rest) = inner.split_at(length_to(inner, close)?);
    let is_quoted = !matches!(spelling, Some(Spelling::Array | Spelling::Literal));
    if !is_trailer(&rest[1..]) || is_quoted && !has_whole_escapes(content) {
        return None;
    }
    let start = text.len() - inner.len();
    let spelling = spelling.unwrap_or_else(|| digits(content));
    Some((spelling, start..start + content.len()))
}
