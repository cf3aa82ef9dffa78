//! A length that the input announces isn't cut to the `usize` of a machine of 32 bits.

use coset::cbor::de::Error;
use coset::cbor::value::Value;
use coset::seen::{Kind, see};
use coset::*;

/// Lengths whose lowest 32 bits are small, and those at the bounds of 32 and 64 bits. No input
/// here has so many bytes.
const LENGTHS: [u64; 9] = [
    0x7fff_ffff,
    0x8000_0000,
    0xffff_ffff,
    0x1_0000_0000,
    0x1_0000_0001,
    0x1_0000_0002,
    0x7fff_ffff_0000_0001,
    0x8000_0000_0000_0001,
    0xffff_ffff_0000_0001,
];

/// A string, an array or a map of so many elements, of which few follow (RFC 8949, section 3.1).
fn announced(major_type: u8, length: u64) -> Vec<u8> {
    let mut item = vec![(major_type << 5) + 27];
    item.extend(length.to_be_bytes());
    item.extend([0; 8]);
    item
}

/// True if bytes are missing at the end.
fn ends_early<T>(result: Result<T>) -> bool {
    matches!(result, Err(CoseError::DecodeFailed(Error::Io(EndOfFile))))
}

#[test]
fn announced_lengths() {
    for length in LENGTHS {
        for major_type in 2..6 {
            let item = announced(major_type, length);
            for front in [&b""[..], b"\x81", b"\xa1\x00", b"\xc6", b"\x84\x40\xa0"] {
                let bytes = [front, &item, &[0x40]].concat();
                assert!(ends_early(Value::from_slice(&bytes)));
                assert!(ends_early(CoseSign1::from_slice(&bytes)));
                assert!(ends_early(CoseKey::from_slice(&bytes)));
                assert!(see(Kind::Sign1, &bytes).is_none());
            }
        }
    }
}

#[test]
fn announced_lengths_of_chunks() {
    for length in LENGTHS {
        for major_type in 2..4 {
            let front = [(major_type << 5) + 31, (major_type << 5) + 1, 0x61];
            let bytes = [&front[..], &announced(major_type, length), &[0xff]].concat();
            assert!(ends_early(Value::from_slice(&bytes)));
        }
    }
}
