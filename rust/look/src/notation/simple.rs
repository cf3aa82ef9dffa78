//! Simple values and floats (RFC 8949, sections 3.3 and 8).

use crate::notation::base::{Base, based};
use crate::notation::fault::{Expected, Stop};
use crate::notation::head::push_head;
use crate::notation::number::{Number, number};
use crate::notation::reader::Reader;
use coset::cbor::head::MajorType;
use coset::cbor::value::Float;

/// The simple values with names.
const NAMES: [(&[u8], u64); 4] = [
    (b"false", 20),
    (b"true", 21),
    (b"null", 22),
    (b"undefined", 23),
];

/// The floats that are no decimal numbers.
const FLOATS: [(&[u8], f64); 3] = [
    (b"NaN", f64::NAN),
    (b"Infinity", f64::INFINITY),
    (b"-Infinity", f64::NEG_INFINITY),
];

/// Returns the bits of the float in this width, or in the least that keeps its value, and the
/// width. Returns `None` if the width doesn't keep the value. A NaN has the payload of `NaN`.
fn bits(number: f64, width: Option<usize>) -> Option<(u64, usize)> {
    let least = Float::from(number);
    match (width, least) {
        (None | Some(2), _) if number.is_nan() => Some((0x7e00, 2)),
        (Some(4), _) if number.is_nan() => Some((0x7fc0_0000, 4)),
        (Some(8), _) if number.is_nan() => Some((0x7ff8_0000_0000_0000, 8)),
        (None | Some(2), Float::Half(bits)) => Some((bits.into(), 2)),
        (None, Float::Single(bits)) => Some((bits.into(), 4)),
        (Some(4), Float::Half(_) | Float::Single(_)) => Some(((number as f32).to_bits().into(), 4)),
        (None | Some(8), _) => Some((number.to_bits(), 8)),
        _ => None,
    }
}

/// Adds the float, whose encoding indicator is at this position. If it is too narrow, that is a
/// fault.
pub(crate) fn push_float(
    out: &mut Vec<u8>,
    number: f64,
    width: Option<usize>,
    indicator: Reader,
) -> Result<(), Stop> {
    let (bits, width) = bits(number, width).ok_or(indicator.stop(Expected::Wider))?;
    push_head(out, MajorType::Simple, bits, Some(width));
    Ok(())
}

/// Adds the simple value whose number is here, and moves behind the parenthesis that follows it.
fn numbered(reader: &mut Reader, out: &mut Vec<u8>) -> Result<(), Stop> {
    let start = *reader;
    match number(reader)? {
        Number::Integer(MajorType::Unsigned, value @ (0..=23 | 32..=255)) => {
            push_head(out, MajorType::Simple, value, None);
            reader.expect(b")", Expected::Parenthesis)
        }
        _ => Err(start.stop(Expected::SimpleNumber)),
    }
}

/// Adds the float whose bits are here in base 16, and moves behind the quote that follows them.
fn float_of_bits(reader: &mut Reader, out: &mut Vec<u8>) -> Result<(), Stop> {
    let (start, mut bytes) = (*reader, Vec::new());
    based(Base::Sixteen, reader, &mut bytes)?;
    if !matches!(bytes.len(), 2 | 4 | 8) {
        return Err(start.stop(Expected::Digit));
    }
    let bits = bytes
        .iter()
        .fold(0, |bits, byte| bits << 8 | u64::from(*byte));
    push_head(out, MajorType::Simple, bits, Some(bytes.len()));
    Ok(())
}

/// Adds the item that a word writes.
pub(crate) fn word(reader: &mut Reader, out: &mut Vec<u8>) -> Result<(), Stop> {
    if let Some((_, value)) = NAMES.iter().find(|(name, _)| reader.take(name)) {
        push_head(out, MajorType::Simple, *value, None);
        return Ok(());
    }
    if let Some((_, number)) = FLOATS.iter().find(|(name, _)| reader.take(name)) {
        let indicator = *reader;
        let width = reader.width()?;
        return push_float(out, *number, width, indicator);
    }
    if reader.take(b"simple(") {
        return numbered(reader, out);
    }
    reader.expect(b"float'", Expected::Item)?;
    float_of_bits(reader, out)
}
