//! Lines whose bytes are the input.

use crate::explain::cover::Cover;
use std::mem::take;

/// A line: some bytes of the input and their meaning.
pub struct Line<'a> {
    /// The bytes, a part of the input. They are empty if the line ends an array, a map, a tag or an
    /// opened byte string without a break.
    pub bytes: &'a [u8],
    /// The number of arrays, maps, tags, strings in chunks and opened byte strings around the line.
    pub depth: usize,
    /// The bytes in diagnostic notation (RFC 8949, section 8; RFC 8610, appendix G).
    pub text: String,
    /// Remarks on the bytes; it may be empty.
    pub note: String,
    /// How a signature, a MAC or a ciphertext covers the bytes, or that they were refused.
    pub cover: Cover,
}

/// The lines so far, the unfinished next line, and the bytes that no line has yet.
pub(crate) struct Column<'a> {
    lines: Vec<Line<'a>>,
    rest: &'a [u8],
    /// The number of bytes at the front of `rest` that belong to the next line.
    held: usize,
    /// The text of the next line.
    pub(crate) text: String,
    /// The note of the next line.
    pub(crate) note: String,
    /// The cover of the next line.
    pub(crate) cover: Cover,
    /// Whether the bytes of the next line were refused.
    pub(crate) is_refused: bool,
}

impl<'a> Column<'a> {
    /// Begins a column without lines.
    pub(crate) fn new(bytes: &'a [u8]) -> Column<'a> {
        Column {
            lines: Vec::new(),
            rest: bytes,
            held: 0,
            text: String::new(),
            note: String::new(),
            cover: Cover::Plain,
            is_refused: false,
        }
    }

    /// Returns the bytes that belong neither to a line nor to the next one.
    pub(crate) fn ahead(&self) -> &'a [u8] {
        &self.rest[self.held..]
    }

    /// Returns true if the next line has bytes or text.
    pub(crate) fn has_begun(&self) -> bool {
        0 < self.held || !self.text.is_empty()
    }

    /// Adds `count` bytes to the next line, or all that are ahead if there are fewer.
    pub(crate) fn hold(&mut self, count: usize) {
        self.held += count.min(self.ahead().len());
    }

    /// Ends the next line, and begins another.
    pub(crate) fn end_line(&mut self, depth: usize) {
        let (bytes, rest) = self.rest.split_at(self.held);
        (self.rest, self.held) = (rest, 0);
        self.lines.push(Line {
            bytes,
            depth,
            text: take(&mut self.text),
            note: take(&mut self.note),
            cover: if take(&mut self.is_refused) {
                Cover::Refused
            } else {
                self.cover
            },
        });
    }

    /// Returns the number of bytes that no line has yet.
    pub(crate) fn left(&self) -> usize {
        self.rest.len()
    }

    /// Returns the lines, and one more with all remaining bytes.
    pub(crate) fn end_with_rest(mut self) -> Vec<Line<'a>> {
        self.held = self.rest.len();
        self.end_line(0);
        self.lines
    }

    /// Returns the lines, and one more if bytes remain.
    pub(crate) fn finish(self) -> Vec<Line<'a>> {
        if self.rest.is_empty() {
            self.lines
        } else {
            self.end_with_rest()
        }
    }
}
