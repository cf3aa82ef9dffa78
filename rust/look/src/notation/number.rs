//! Numbers (RFC 8949, section 8).

use crate::notation::fault::{Expected, Stop};
use crate::notation::head::{push_head, push_told};
use crate::notation::reader::Reader;
use crate::notation::simple::push_float;
use coset::cbor::head::MajorType;

/// The most digits of an integer, a fraction or an exponent. So the time is linear in the text.
const DIGITS: usize = 1000;

/// A number.
pub(crate) enum Number {
    /// An integer, as a major type and an argument.
    Integer(MajorType, u64),
    /// A bignum: its tag's number, and its bytes (RFC 8949, section 3.4.3).
    Big(u64, Vec<u8>),
    Float(f64),
}

/// Moves behind digits, of which there should be one at least, and returns them.
fn digits<'a>(reader: &mut Reader<'a>, radix: u32) -> Result<&'a [u8], Stop> {
    let is_digit = |byte: &&u8| char::from(**byte).is_digit(radix);
    let (digits, rest) = reader
        .left
        .split_at(reader.left.iter().take_while(is_digit).count());
    match digits.len() {
        0 => Err(reader.stop(Expected::Digit)),
        1..=DIGITS => {
            reader.left = rest;
            Ok(digits)
        }
        _ => Err(reader.stop(Expected::FewerDigits)),
    }
}

/// Returns the bytes of the number that digits write, without zeros at the front.
fn magnitude(digits: &[u8], radix: u32) -> Vec<u8> {
    // Digits of base 2^32, the least significant first.
    let mut limbs: Vec<u32> = Vec::new();
    for digit in digits {
        let mut carry = u64::from(char::from(*digit).to_digit(radix).unwrap_or(0));
        for limb in &mut limbs {
            carry += u64::from(*limb) * u64::from(radix);
            *limb = carry as u32;
            carry >>= 32;
        }
        if carry != 0 {
            limbs.push(carry as u32);
        }
    }
    let bytes = limbs.iter().rev().flat_map(|limb| limb.to_be_bytes());
    bytes.skip_while(|byte| *byte == 0).collect()
}

/// Subtracts 1 from a number that isn't 0. It keeps no zero at the front.
fn decrement(bytes: &mut Vec<u8>) {
    for byte in bytes.iter_mut().rev() {
        let (less, is_below) = byte.overflowing_sub(1);
        *byte = less;
        if !is_below {
            break;
        }
    }
    if bytes.first() == Some(&0) {
        bytes.remove(0);
    }
}

/// Returns the integer with these digits.
fn integer(is_negative: bool, digits: &[u8], radix: u32) -> Number {
    let mut bytes = magnitude(digits, radix);
    let is_negative = is_negative && !bytes.is_empty();
    if is_negative {
        decrement(&mut bytes);
    }
    let major_type = if is_negative {
        MajorType::Negative
    } else {
        MajorType::Unsigned
    };
    match bytes.len() {
        0..=8 => {
            let argument = bytes
                .iter()
                .fold(0, |number, byte| number << 8 | u64::from(*byte));
            Number::Integer(major_type, argument)
        }
        _ => Number::Big(if is_negative { 3 } else { 2 }, bytes),
    }
}

/// Returns the float that the text from the start to the end writes. A number that is too great for
/// a double is refused.
fn float(start: Reader, end: &Reader) -> Result<Number, Stop> {
    let text = std::str::from_utf8(start.until(end)).unwrap_or_default();
    let number = text.parse().map_err(|_| start.stop(Expected::Digit))?;
    if f64::is_finite(number) {
        Ok(Number::Float(number))
    } else {
        Err(start.stop(Expected::Finite))
    }
}

/// Reads a number.
pub(crate) fn number(reader: &mut Reader) -> Result<Number, Stop> {
    let start = *reader;
    let is_negative = reader.take(b"-");
    for (prefix, radix) in [(b"0x", 16), (b"0o", 8), (b"0b", 2)] {
        if reader.take(prefix) {
            return Ok(integer(is_negative, digits(reader, radix)?, radix));
        }
    }
    let unsigned = *reader;
    if !reader.take(b"0") {
        digits(reader, 10)?;
    }
    let whole = *reader;
    if reader.take(b".") {
        digits(reader, 10)?;
    }
    if reader.take(b"e") || reader.take(b"E") {
        let _sign = reader.take(b"+") || reader.take(b"-");
        digits(reader, 10)?;
    }
    if whole.left.len() == reader.left.len() {
        return Ok(integer(is_negative, unsigned.until(&whole), 10));
    }
    float(start, reader)
}

/// Adds the number, whose encoding indicator is at this position. If it is too narrow, that is a
/// fault. A bignum can have none.
pub(crate) fn push_number(
    out: &mut Vec<u8>,
    number: &Number,
    width: Option<usize>,
    indicator: Reader,
) -> Result<(), Stop> {
    match number {
        Number::Integer(major_type, argument) => {
            push_told(out, *major_type, *argument, width, indicator)
        }
        Number::Float(number) => push_float(out, *number, width, indicator),
        Number::Big(tag, bytes) if width.is_none() => {
            push_head(out, MajorType::Tag, *tag, None);
            push_head(out, MajorType::Bytes, bytes.len() as u64, None);
            out.extend_from_slice(bytes);
            Ok(())
        }
        Number::Big(..) => Err(indicator.stop(Expected::Wider)),
    }
}
