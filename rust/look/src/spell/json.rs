//! Finds the only string value in a JSON object (RFC 8259).

use crate::spell::framed::{Found, digits};
use crate::spell::source::has_whole_escapes;
use std::ops::Range;

/// The reading of an object so far.
#[derive(Default)]
struct Object {
    /// The offset of the string that was begun and not ended.
    begun: Option<usize>,
    /// Whether a backslash is before the next character.
    is_escaped: bool,
    /// The string before the next character, if only white space is between them.
    last: Option<Range<usize>>,
    /// The first string that isn't the name of a member.
    found: Option<Range<usize>>,
    /// Whether the text can't be an object with one string.
    is_other: bool,
}

/// Returns true if the character may be outside strings, except for a colon.
fn is_outside(byte: u8) -> bool {
    byte.is_ascii_digit() || byte.is_ascii_lowercase() || b"{}[],+-.E".contains(&byte)
}

impl Object {
    /// Takes a character in a string that began at `begun`.
    fn takes_inside(&mut self, begun: usize, offset: usize, byte: u8) {
        if self.is_escaped {
            self.is_escaped = false;
        } else if byte == b'\\' {
            self.is_escaped = true;
        } else if byte == b'"' {
            self.begun = None;
            self.last = Some(begun..offset);
        }
    }

    /// Takes a character outside strings.
    fn takes_outside(&mut self, offset: usize, byte: u8) {
        if byte == b':' {
            self.is_other |= self.last.take().is_none();
        } else if !byte.is_ascii_whitespace() {
            if let Some(value) = self.last.take() {
                // The last string isn't the name of a member.
                self.is_other |= self.found.replace(value).is_some();
            }
            if byte == b'"' {
                self.begun = Some(offset + 1);
            } else {
                self.is_other |= !is_outside(byte);
            }
        }
    }
}

/// Finds the digits in the only string of an object that isn't the name of a member.
pub(crate) fn json(text: &[u8]) -> Option<Found> {
    if !matches!(text, [b'{', .., b'}']) {
        return None;
    }
    let mut reading = Object::default();
    for (offset, byte) in text.iter().enumerate() {
        match reading.begun {
            Some(begun) => reading.takes_inside(begun, offset, *byte),
            None => reading.takes_outside(offset, *byte),
        }
    }
    let range = reading
        .found
        .filter(|_| !reading.is_other && reading.begun.is_none())?;
    let inner = &text[range.clone()];
    has_whole_escapes(inner).then(|| (digits(inner), range))
}
