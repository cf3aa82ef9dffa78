//! Finds the text in an input that spells its bytes, and how it spells them.

use crate::spell::hexadecimal::{begins_with_prefix, is_between};
use crate::spell::layout::is_dump;
use crate::spell::source::find;
use crate::spell::text::{behind_word, trimmed};
use std::ops::Range;

/// How bytes are spelled.
#[derive(Clone, Copy, Debug, PartialEq, Eq)]
pub enum Spelling {
    /// As raw bytes.
    Binary,
    /// In hexadecimal.
    Hexadecimal,
    /// In base64 or base64url.
    Base64,
    /// In hexadecimal with comments.
    Commented,
    /// As an array of source code: numbers from 0 to 255, in decimal or after `0x`.
    Array,
    /// As a literal of Python's `bytes`, by characters and escapes.
    Literal,
    /// As a dump of `xxd`, `hexdump -C` or `od -t x1`.
    Dump,
    /// In percent-encoding.
    Percent,
}

/// The spellings that are considered.
#[derive(Clone, Copy, Debug, PartialEq, Eq)]
pub(crate) enum Way {
    /// A dump, otherwise as `Usual`.
    Dump,
    /// Raw bytes, hexadecimal or base64.
    Usual,
    /// A spelling that marks itself or has a frame, otherwise as `Usual`.
    Other,
}

/// The part of a text that spells bytes, and how it spells them.
pub(crate) type Found = (Spelling, Range<usize>);

/// A part of an input that spells bytes, and how it spells them.
#[derive(Clone, Copy, Debug)]
pub(crate) struct Text<'a> {
    /// How the text spells the bytes.
    pub(crate) spelling: Spelling,
    /// The offset of the text in the input.
    pub(crate) offset: usize,
    /// The text.
    pub(crate) text: &'a [u8],
}

/// Returns true if the bytes are text: UTF-8 without control characters other than white space.
pub(crate) fn is_text(input: &[u8]) -> bool {
    let is_allowed = |byte: &u8| byte.is_ascii_whitespace() || !byte.is_ascii_control();
    std::str::from_utf8(input).is_ok() && input.iter().all(is_allowed)
}

/// Returns the token of a line `Authorization: Bearer` or `Bearer` (RFC 6750, section 2.1).
fn bearer(text: &[u8]) -> Option<&[u8]> {
    let named = behind_word(text, b"authorization:").map_or(text, |rest| rest.trim_ascii_start());
    let rest = behind_word(named, b"bearer")?;
    Some(rest.trim_ascii_start()).filter(|token| token.len() < rest.len())
}

/// Returns the spelling of digits that may be hexadecimal or base64.
///
/// They are hexadecimal if they begin with `0x` or `\x`, or have a separator within a line. They
/// also are if at least two thirds of them are hexadecimal digits, line breaks aside. In base64
/// about a third are.
pub(crate) fn digits(text: &[u8]) -> Spelling {
    let is_break = |byte: u8| matches!(byte, b'\n' | b'\r');
    let is_separated = text
        .iter()
        .any(|byte| is_between(*byte) && !is_break(*byte));
    let count = text.iter().filter(|byte| byte.is_ascii_hexdigit()).count();
    let others = text
        .iter()
        .filter(|byte| !byte.is_ascii_hexdigit() && !is_break(**byte))
        .count();
    if begins_with_prefix(text) || is_separated || others <= count / 2 {
        Spelling::Hexadecimal
    } else {
        Spelling::Base64
    }
}

/// Returns the part of the text that spells bytes in hexadecimal or base64.
fn usual(text: &[u8]) -> Found {
    let end = text.len();
    if text.starts_with(b"h'") && text[2..].ends_with(b"'") {
        (Spelling::Hexadecimal, 2..end - 1)
    } else if text.starts_with(b"b64'") && text[4..].ends_with(b"'") {
        (Spelling::Base64, 4..end - 1)
    } else if let Some(token) = bearer(text) {
        (Spelling::Base64, end - token.len()..end)
    } else {
        (digits(text), 0..end)
    }
}

/// Returns the part of the input that spells bytes this way, and how it does. White space around
/// it and a byte order mark don't count.
///
/// An input that is no text is raw bytes. By `Way::Usual`, the spelling of a text is:
/// - hexadecimal between `h'` and `'`;
/// - base64 or base64url between `b64'` and `'`, or after `Bearer`;
/// - otherwise that of its [`digits`].
pub(crate) fn text_of(way: Way, input: &[u8]) -> Text<'_> {
    if !is_text(input) {
        return Text {
            spelling: Spelling::Binary,
            offset: 0,
            text: input,
        };
    }
    let text = trimmed(input);
    let (spelling, range) = match way {
        Way::Dump if is_dump(text) => (Spelling::Dump, 0..text.len()),
        Way::Other => find(text).unwrap_or_else(|| usual(text)),
        _ => usual(text),
    };
    let front = input.trim_ascii_end().len() - text.len();
    Text {
        spelling,
        offset: front + range.start,
        text: &text[range],
    }
}
