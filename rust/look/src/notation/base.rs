//! Byte strings in a base (RFC 8949, section 8; RFC 4648), with white space and comments between
//! the digits (RFC 8610, appendices G.1 and G.6).

use crate::encode::base64_digit;
use crate::notation::fault::{Expected, Stop};
use crate::notation::reader::{Reader, is_space};

/// A base.
#[derive(Clone, Copy, PartialEq)]
pub(crate) enum Base {
    /// `h'..'`
    Sixteen,
    /// `b32'..'`
    ThirtyTwo,
    /// `h32'..'`
    ThirtyTwoHex,
    /// `b64'..'`, with the digits of base64 or of base64url
    SixtyFour,
}

impl Base {
    /// Returns the base of the string at the front of the text, and the text after its quote.
    pub(crate) fn at_front(text: &[u8]) -> Option<(Base, &[u8])> {
        match text {
            [b'h', b'\'', rest @ ..] => Some((Base::Sixteen, rest)),
            [b'b', b'3', b'2', b'\'', rest @ ..] => Some((Base::ThirtyTwo, rest)),
            [b'h', b'3', b'2', b'\'', rest @ ..] => Some((Base::ThirtyTwoHex, rest)),
            [b'b', b'6', b'4', b'\'', rest @ ..] => Some((Base::SixtyFour, rest)),
            _ => None,
        }
    }

    /// Returns the number of bits of a digit.
    fn bits(self) -> u32 {
        match self {
            Base::Sixteen => 4,
            Base::ThirtyTwo | Base::ThirtyTwoHex => 5,
            Base::SixtyFour => 6,
        }
    }

    /// Returns the number of a digit, or `None` for another character.
    fn digit(self, c: u8) -> Option<u32> {
        match (self, c) {
            (Base::Sixteen, _) => char::from(c).to_digit(16),
            (Base::ThirtyTwo, b'A'..=b'Z') => Some(u32::from(c - b'A')),
            (Base::ThirtyTwo, b'2'..=b'7') => Some(u32::from(c - b'2') + 26),
            (Base::ThirtyTwoHex, b'0'..=b'9' | b'A'..=b'V') => char::from(c).to_digit(32),
            (Base::SixtyFour, _) => base64_digit(c).map(u32::from),
            _ => None,
        }
    }
}

/// The bits of digits that make no whole byte yet.
#[derive(Default)]
struct Bits {
    value: u32,
    count: u32,
}

impl Bits {
    /// Adds the bits of a digit. Returns a byte if they complete one.
    fn take(&mut self, base: Base, digit: u32) -> Option<u8> {
        self.value = self.value << base.bits() | digit;
        self.count += base.bits();
        let rest = self.count.checked_sub(8)?;
        let byte = self.value >> rest;
        (self.value, self.count) = (self.value ^ byte << rest, rest);
        Some(byte as u8)
    }
}

/// Moves behind the padding and the quote that end a string. No digit may be superfluous, and the
/// bits after the last byte must be 0.
fn end(base: Base, bits: &Bits, reader: &mut Reader) -> Result<(), Stop> {
    if base != Base::Sixteen {
        let is_padding = |byte: &&u8| **byte == b'=' || is_space(**byte);
        reader.left = &reader.left[reader.left.iter().take_while(is_padding).count()..];
    }
    let quote = *reader;
    if reader.take(b"'") && bits.count < base.bits() && bits.value == 0 {
        return Ok(());
    }
    Err(quote.stop(Expected::Digit))
}

/// Adds the bytes of a string whose opening quote is before the position, and moves behind it.
pub(crate) fn based(base: Base, reader: &mut Reader, out: &mut Vec<u8>) -> Result<(), Stop> {
    let mut bits = Bits::default();
    loop {
        // Base64 has no comments, because a slash is a digit there.
        if base != Base::SixtyFour {
            reader.blanks()?;
        }
        let start = *reader;
        let Some(c) = reader.next() else {
            return Err(start.stop(Expected::Quote));
        };
        match base.digit(c) {
            Some(digit) => out.extend(bits.take(base, digit)),
            None if base == Base::SixtyFour && is_space(c) => {}
            None => {
                *reader = start;
                return end(base, &bits, reader);
            }
        }
    }
}
