//! The kinds that bytes without a tag can be read as.

use crate::explain::kind::Kind;
use coset::cbor::de::Pull;
use coset::iana::{CwtClaimName, EnumI64};

/// The kinds that are tried, in this order.
const TRIED: [Kind; 10] = [
    Kind::Claims,
    Kind::Key,
    Kind::Keyset,
    Kind::Sign1,
    Kind::Mac0,
    Kind::Encrypt0,
    Kind::Sign,
    Kind::Mac,
    Kind::Encrypt,
    Kind::Kdf,
];

/// Returns true if the item is the number of a registered claim.
fn is_claim(name: Pull) -> bool {
    name.integer()
        .and_then(|number| CwtClaimName::from_i64(number.try_into().ok()?))
        .is_some_and(|claim| claim != CwtClaimName::Reserved)
}

/// Returns true if a map is at the front of the bytes, and has a registered claim under its number.
///
/// The library reads many other maps as claims, because names of claims may be texts.
pub(crate) fn has_registered_claim(bytes: &[u8]) -> bool {
    let pairs = Pull::new(bytes).ok().and_then(|(map, _)| map.pairs());
    pairs.is_some_and(|mut pairs| pairs.any(|(name, _)| is_claim(name)))
}

/// Returns the kinds that the bytes can be read as: claims, a key, a set of keys, a message, or the
/// context of a key derivation. They are tried in a fixed order. Claims are left out if no claim
/// has a registered number.
///
/// Bytes without a tag may have several kinds. For example, messages with one signature and
/// messages with a MAC have the same form.
pub fn fitting(bytes: &[u8]) -> Vec<Kind> {
    let mut kinds = TRIED.to_vec();
    kinds.retain(|kind| *kind != Kind::Claims || has_registered_claim(bytes));
    kinds.retain(|kind| kind.refusal(bytes).is_none());
    kinds
}
