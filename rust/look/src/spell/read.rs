//! The bytes that an input spells.

use crate::spell::framed::{Spelling, Text, Way, text_of};
use crate::spell::layout::is_certain;
use crate::spell::text::line_and_column;
use crate::spell::{base64, comments, dump, hexadecimal, literal, percent, pieces, utf16};

/// Why a text isn't read.
#[derive(Clone, Copy, Debug, PartialEq, Eq)]
pub enum Why {
    /// The spelling doesn't allow the character, or something is missing at the text's end.
    Digit,
    /// A block comment has no end.
    Comment,
    /// A literal of bytes has no escape, so that it may consist of digits.
    NoEscape,
    /// The offset of a line isn't the first offset plus the number of bytes before the line.
    Offset,
    /// The text beside a line's bytes doesn't show them.
    Side,
    /// A dump's fields aren't single bytes in hexadecimal.
    Words,
    /// A dump leaves out lines that repeat the one before.
    Repeated,
    /// The first digits may be an offset or bytes.
    OffsetOrByte,
}

/// The offset of a fault in a text, and the reason. If something is missing at the end, the offset
/// is the text's length.
#[derive(Clone, Copy, Debug, PartialEq, Eq)]
pub(crate) struct Misspelled(pub(crate) usize, pub(crate) Why);

/// The bytes that an input spells.
pub struct Reading {
    /// How the input spells the bytes.
    pub spelling: Spelling,
    /// The bytes.
    pub bytes: Vec<u8>,
}

/// Where an input is misspelled.
#[derive(Clone, Copy, Debug, PartialEq, Eq)]
pub struct Unread {
    /// The spelling as which the input was read.
    pub spelling: Spelling,
    /// Why the input isn't read.
    pub why: Why,
    /// The offset of the fault in the text.
    pub offset: usize,
    /// The line, counted from 1.
    pub line: usize,
    /// The column, counted from 1.
    pub column: usize,
    /// The character there, or `None` at the end of the input.
    pub character: Option<char>,
}

impl Text<'_> {
    /// Returns the bytes that the text spells, or where it is misspelled.
    fn bytes(&self) -> Result<Vec<u8>, Misspelled> {
        match self.spelling {
            Spelling::Binary => Ok(self.text.to_vec()),
            Spelling::Hexadecimal => pieces::bytes(self.text, hexadecimal::front),
            Spelling::Base64 => base64::bytes(self.text),
            Spelling::Commented => comments::bytes(self.text),
            Spelling::Array => comments::elements(self.text),
            Spelling::Literal => literal::bytes(self.text),
            Spelling::Dump => dump::bytes(self.text),
            Spelling::Percent => pieces::bytes(self.text, percent::front),
        }
    }

    /// Returns the bytes that this text of the input spells, or where it is misspelled.
    fn read(&self, input: &[u8]) -> Result<Reading, Unread> {
        let spelling = self.spelling;
        let bytes = self.bytes().map_err(|Misspelled(at, why)| {
            let offset = self.offset + at;
            let (line, column) = line_and_column(input, offset);
            let rest = std::str::from_utf8(&input[offset..]).unwrap_or_default();
            Unread {
                spelling,
                why,
                offset,
                line,
                column,
                character: rest.chars().next(),
            }
        })?;
        Ok(Reading { spelling, bytes })
    }
}

/// Returns the bytes that a text spells, or where it is misspelled.
fn read_text(input: &[u8]) -> Result<Reading, Unread> {
    let dump = text_of(Way::Dump, input);
    let is_certain = dump.spelling == Spelling::Dump && is_certain(dump.text);
    dump.read(input).or_else(|unread| match is_certain {
        true => Err(unread),
        false => text_of(Way::Usual, input)
            .read(input)
            .or_else(|_| text_of(Way::Other, input).read(input)),
    })
}

/// Returns the bytes that the input spells, or where it is misspelled.
///
/// A dump is read as such. Otherwise raw bytes, hexadecimal and base64 precede other spellings.
/// Text in UTF-16 with a byte order mark is read as its characters if all are ASCII.
pub fn read_input(input: &[u8]) -> Result<Reading, Unread> {
    match utf16::text(input) {
        Some(text) => read_text(&text),
        None => read_text(input),
    }
}
