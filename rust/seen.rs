//! Messages seen in the bytes that encode them, without allocating.
//!
//! [`see`] finds a `COSE_Sign1`, `COSE_Mac0` or `COSE_Encrypt0` in its bytes. [`Seen`] has the
//! algorithm, the key identifier, the content, and the signature or the MAC's tag. Each part is
//! borrowed, and has its offset. [`Seen::put_structure`] writes the bytes that are signed, or that
//! a MAC is over. Nothing is verified.
//!
//! ```
//! use coset::iana::{Algorithm, EnumI64};
//! use coset::seen::{Kind, see};
//!
//! # fn main() -> Result<(), Box<dyn std::error::Error>> {
//! let message = b"\x84\x43\xa1\x01\x26\xa1\x04\x42\x31\x31\x45hello\x43\x07\x08\x09";
//! let seen = see(Kind::Sign1, message).ok_or("not seen: decode it by CoseSign1::from_slice")?;
//! assert_eq!(seen.algorithm, Some(Algorithm::ES256.to_i64()));
//! assert_eq!(seen.key_id.map(|key_id| key_id.part.bytes), Some(&b"11"[..]));
//!
//! let mut memory = [0; 32];
//! let len = seen.put_structure(&[], None, &mut memory)?;
//! assert_eq!(memory[..len], *b"\x84\x6aSignature1\x43\xa1\x01\x26\x40\x45hello");
//! assert_eq!(seen.proof.bytes, b"\x07\x08\x09");
//! // Verify the signature `seen.proof.bytes` over `memory[..len]` by the key "11".
//! # Ok(())
//! # }
//! ```
//!
//! - `None` doesn't mean that the bytes are no such message. If that matters, decode them.
//! - Lengths must be definite, and both headers plain: [`is_plain_header`]. So there is no `crit`,
//!   and no countersignature but an abbreviated one under the label 9.
//! - Without its tag, a `COSE_Sign1` is also a `COSE_Mac0`. So you must know the kind.
//! - [`layout_of`] finds the same parts, whatever the headers are, also of a `COSE_Mac` or
//!   `COSE_Encrypt`. [`Layout::is_valid`] decodes the headers that aren't plain.

use core::{error, fmt};

pub use crate::__proved::coset_seen::{
    KeyId, Kind, Layout, Part, Seen, StructureError, is_plain_header, layout_of, put_texts, see,
};

/// Writes the error in words.
impl fmt::Display for StructureError {
    fn fmt(&self, f: &mut fmt::Formatter<'_>) -> fmt::Result {
        match self {
            StructureError::Short(len) => write!(f, "{len} bytes are needed"),
            StructureError::OutOfMemory => f.write_str("out of memory"),
            StructureError::NoContent => f.write_str("no content"),
            StructureError::TwoContents => f.write_str("two contents"),
        }
    }
}

impl error::Error for StructureError {}

#[cfg(test)]
mod tests {
    use super::{Kind, StructureError, see};
    use std::string::ToString;

    #[test]
    fn errors_have_texts() {
        let detached = see(Kind::Sign1, b"\x84\x43\xa1\x01\x26\xa0\xf6\x41\x07").unwrap();
        let none = detached.put_structure(&[], None, &mut []);
        assert_eq!(none, Err(StructureError::NoContent));
        assert_eq!(none.unwrap_err().to_string(), "no content");
        let short = detached.put_structure(&[], Some(b"x"), &mut [0; 18]);
        assert_eq!(short.unwrap_err().to_string(), "19 bytes are needed");
    }
}
