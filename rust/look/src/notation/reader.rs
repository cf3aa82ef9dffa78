//! A position in a text.

use crate::notation::fault::{Expected, Stop};

/// Returns true if the character is white space (RFC 8259, section 2).
pub(crate) fn is_space(byte: u8) -> bool {
    matches!(byte, b'\t' | b'\n' | b'\r' | b' ')
}

/// A position in a text: the text from there on.
#[derive(Clone, Copy)]
pub(crate) struct Reader<'a> {
    pub(crate) left: &'a [u8],
}

impl<'a> Reader<'a> {
    /// Returns the fault at the position.
    pub(crate) fn stop(&self, expected: Expected) -> Stop {
        Stop(self.left.len(), expected)
    }

    /// Moves behind the front, if it is there, and returns whether it is.
    pub(crate) fn take(&mut self, front: &[u8]) -> bool {
        let rest = self.left.strip_prefix(front);
        self.left = rest.unwrap_or(self.left);
        rest.is_some()
    }

    /// Moves behind the front, which should be there.
    pub(crate) fn expect(&mut self, front: &[u8], expected: Expected) -> Result<(), Stop> {
        if self.take(front) {
            Ok(())
        } else {
            Err(self.stop(expected))
        }
    }

    /// Moves behind the next character, and returns it.
    pub(crate) fn next(&mut self) -> Option<u8> {
        let (first, rest) = self.left.split_first()?;
        self.left = rest;
        Some(*first)
    }

    /// Returns the text from here to the position of another reader, which is further on.
    pub(crate) fn until(&self, end: &Reader) -> &'a [u8] {
        &self.left[..self.left.len() - end.left.len()]
    }

    /// Moves behind the next of these characters, if there is one.
    fn pass(&mut self, end: u8) -> bool {
        let offset = self.left.iter().position(|byte| *byte == end);
        self.left = offset.map_or(&[], |offset| &self.left[offset + 1..]);
        offset.is_some()
    }

    /// Moves behind white space and comments. A comment goes from a slash to a slash (RFC 8610,
    /// appendix G.6), or from a `#` to the end of the line.
    pub(crate) fn blanks(&mut self) -> Result<(), Stop> {
        loop {
            let mut behind = *self;
            match behind.next() {
                Some(byte) if is_space(byte) => {}
                Some(b'#') => {
                    behind.pass(b'\n');
                }
                Some(b'/') => {
                    let inner = behind;
                    if !behind.pass(b'/') {
                        return Err(inner.stop(Expected::CommentEnd));
                    }
                }
                _ => return Ok(()),
            }
            *self = behind;
        }
    }

    /// Returns true if an encoding indicator would go on here.
    fn is_in_indicator(&self) -> bool {
        self.left
            .first()
            .is_some_and(|first| first.is_ascii_alphanumeric() || *first == b'_')
    }

    /// Moves behind an indicator of indefinite length, if there is one (RFC 8949, section 8.1).
    pub(crate) fn take_open(&mut self) -> bool {
        let mut behind = *self;
        let is_open = behind.take(b"_") && !behind.is_in_indicator();
        if is_open {
            *self = behind;
        }
        is_open
    }

    /// Moves behind an encoding indicator, if there is one. Returns the number of bytes that it
    /// tells for the argument of a head.
    pub(crate) fn width(&mut self) -> Result<Option<usize>, Stop> {
        let start = *self;
        if !self.take(b"_") {
            return Ok(None);
        }
        match self.next() {
            Some(digit @ b'0'..=b'3') if !self.is_in_indicator() => Ok(Some(1 << (digit - b'0'))),
            _ => Err(start.stop(Expected::Indicator)),
        }
    }
}
