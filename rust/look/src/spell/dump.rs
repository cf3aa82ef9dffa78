//! Dumps of `xxd`, `hexdump -C` and `od -t x1`.

use crate::spell::layout::{agrees, fields_length, offset_length, refusal};
use crate::spell::read::{Misspelled, Why};
use crate::spell::text::number;
use crate::spell::{hexadecimal, pieces};

/// Returns the bytes of a line whose offset, in this radix, must be `wanted`. Or returns where the
/// line is misspelled.
fn line_bytes(line: &[u8], radix: u32, wanted: Option<u64>) -> Result<Vec<u8>, Misspelled> {
    let (digits, rest) = line.split_at(offset_length(line));
    if digits.is_empty() || wanted.is_none() || number(radix, digits) != wanted {
        return Err(Misspelled(0, Why::Offset));
    }
    let (fields, side) = rest.split_at(fields_length(rest));
    let bytes = pieces::bytes(fields, hexadecimal::front)
        .map_err(|Misspelled(offset, why)| Misspelled(digits.len() + offset, why))?;
    if !agrees(side, &bytes) {
        return Err(Misspelled(digits.len() + fields.len(), Why::Side));
    }
    Ok(bytes)
}

/// Returns the bytes of the lines, whose offsets have this radix, or where they are misspelled.
fn lines(radix: u32, text: &[u8]) -> Result<Vec<u8>, Misspelled> {
    let first = number(radix, &text[..offset_length(text)]).unwrap_or(0);
    let (mut bytes, mut end) = (Vec::new(), 0);
    for line in text.split(|byte| *byte == b'\n') {
        end += line.len();
        let line = line.trim_ascii_start();
        if !line.is_empty() {
            let wanted = first.checked_add(bytes.len() as u64);
            let more = line_bytes(line, radix, wanted);
            let start = end - line.len();
            bytes.extend(more.map_err(|Misspelled(at, why)| Misspelled(start + at, why))?);
        }
        end += 1;
    }
    Ok(bytes)
}

/// Returns the bytes of a dump, or where it is misspelled. The offsets are hexadecimal, octal or
/// decimal. Of their faults, the one that is furthest on counts.
pub(crate) fn bytes(text: &[u8]) -> Result<Vec<u8>, Misspelled> {
    if let Some(why) = refusal(text) {
        return Err(Misspelled(0, why));
    }
    let mut furthest = Misspelled(0, Why::Offset);
    for radix in [16, 8, 10] {
        match lines(radix, text) {
            Ok(bytes) => return Ok(bytes),
            Err(fault) if radix == 16 || furthest.0 < fault.0 => furthest = fault,
            Err(_) => {}
        }
    }
    Err(furthest)
}
