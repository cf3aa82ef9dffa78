//! An input's bytes in another spelling.

use crate::encode::{base64, hex};
use crate::view::read::read_bytes;
use crate::view::shown::{REFUSED, TAKEN};

/// The spelling in which bytes are written.
#[derive(Clone, Copy, Debug, PartialEq, Eq)]
pub enum To {
    /// Hexadecimal, in a line.
    Hexadecimal,
    /// The bytes themselves.
    Binary,
    /// Base64 with padding, in a line.
    Base64,
}

/// The bytes of an input in another spelling.
pub struct Respelled {
    /// A line for standard error: how the input was read, or where it is misspelled.
    pub said: String,
    /// The output.
    pub output: Vec<u8>,
    /// The status.
    pub status: u8,
}

/// Returns the bytes of the input in another spelling. If `is_notation` is true, the input is read
/// as diagnostic notation.
///
/// The status is 0 only if the output is that of these bytes. If the input can't be read, there is
/// no output, and `said` tells where.
pub fn respell(to: To, is_notation: bool, input: &[u8]) -> Respelled {
    match read_bytes(is_notation, input) {
        Ok(reading) => {
            let output = match to {
                To::Hexadecimal => (hex(&reading.bytes) + "\n").into(),
                To::Binary => reading.bytes,
                To::Base64 => (base64(&reading.bytes) + "\n").into(),
            };
            Respelled {
                said: reading.said,
                output,
                status: TAKEN,
            }
        }
        Err(said) => Respelled {
            said,
            output: Vec::new(),
            status: REFUSED,
        },
    }
}
