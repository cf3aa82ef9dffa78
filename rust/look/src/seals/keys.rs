//! The keys that are judged.

use coset::{CborSerializable, CoseError, CoseKey, CoseKeySet, Result};

/// A key, or each key of a set in order, each with the error if it can't be read.
pub type Keys = Vec<Result<CoseKey>>;

/// Reads a key, or each key of a set by itself (RFC 9052, section 7). Empty bytes have no keys.
///
/// # Errors
/// A fault in bytes that are neither a key nor a set.
pub fn keys_from_slice(bytes: &[u8]) -> Result<Keys, CoseError> {
    match bytes.first() {
        None => Ok(Vec::new()),
        Some(first) if first / 32 == 4 => CoseKeySet::each_from_slice(bytes),
        Some(_) => Ok(vec![Ok(CoseKey::from_slice(bytes)?)]),
    }
}
