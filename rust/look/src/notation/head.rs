//! Heads of items (RFC 8949, section 3).

use crate::notation::fault::{Expected, Stop};
use crate::notation::reader::Reader;
use coset::cbor::head::MajorType;

/// The break that ends an item of indefinite length.
pub(crate) const BREAK: u8 = 0xff;

/// Returns the first byte of a head of this type, without its lowest five bits.
fn front(major_type: MajorType) -> u8 {
    match major_type {
        MajorType::Unsigned => 0,
        MajorType::Negative => 1 << 5,
        MajorType::Bytes => 2 << 5,
        MajorType::Text => 3 << 5,
        MajorType::Array => 4 << 5,
        MajorType::Map => 5 << 5,
        MajorType::Tag => 6 << 5,
        MajorType::Simple => 7 << 5,
    }
}

/// Adds a head. `width` is the number of bytes of its argument; by default, it is the shortest.
pub(crate) fn push_head(
    out: &mut Vec<u8>,
    major_type: MajorType,
    argument: u64,
    width: Option<usize>,
) {
    let least = match argument {
        0..=23 => 0,
        24..=0xff => 1,
        0x100..=0xffff => 2,
        0x1_0000..=0xffff_ffff => 4,
        _ => 8,
    };
    match width.unwrap_or(least) {
        0 => out.push(front(major_type) + argument as u8),
        width => {
            out.push(front(major_type) + 24 + width.ilog2() as u8);
            out.extend_from_slice(&argument.to_be_bytes()[8 - width..]);
        }
    }
}

/// Adds a head whose encoding indicator is at this position. If it is too narrow, that is a fault.
pub(crate) fn push_told(
    out: &mut Vec<u8>,
    major_type: MajorType,
    argument: u64,
    width: Option<usize>,
    indicator: Reader,
) -> Result<(), Stop> {
    let room = width.unwrap_or(8);
    if room < 8 && argument >> (8 * room) != 0 {
        return Err(indicator.stop(Expected::Wider));
    }
    push_head(out, major_type, argument, width);
    Ok(())
}

/// Adds the first byte of an item of indefinite length.
pub(crate) fn push_open(out: &mut Vec<u8>, major_type: MajorType) {
    out.push(front(major_type) + 31);
}
