//! The structures that signatures and MACs cover, and those that go with ciphertexts (RFC 8152,
//! sections 4.4, 5.3 and 6.3).

use crate::encode::hex;
use crate::explain::kind::Kind;
use coset::{
    CoseEncrypt, CoseEncrypt0, CoseMac, CoseMac0, CoseSign, CoseSign1, TaggedCborSerializable,
};

/// The most signatures whose structures are shown.
const SHOWN: usize = 4;

/// Returns the message that the bytes are, plain or under its tag.
fn read<T: TaggedCborSerializable>(bytes: &[u8]) -> Option<T> {
    T::from_any_slice(bytes).ok()
}

/// Returns the structure that a message's signature or MAC covers, or that goes with its
/// ciphertext.
///
/// It is the shortest encoding of the `Sig_structure`, `MAC_structure` or `Enc_structure` (RFC
/// 8152, sections 4.4, 5.3 and 6.3). It has this `external_aad`, and the protected headers as they
/// were received. In a message with several signatures, `index` chooses the signature, counted from
/// 0. Other kinds ignore `index`.
///
/// Returns `None` in these cases:
///
/// - The bytes aren't a message of the kind.
/// - The payload is detached.
/// - The message has no signature at `index`.
pub fn structure(kind: Kind, bytes: &[u8], external_aad: &[u8], index: usize) -> Option<Vec<u8>> {
    let (kind, bytes) = kind.named(bytes);
    match kind {
        Kind::Sign1 => {
            let message: CoseSign1 = read(bytes)?;
            message
                .payload
                .as_ref()
                .map(|_| message.tbs_data(external_aad))
        }
        Kind::Sign => {
            let message: CoseSign = read(bytes)?;
            let signature = message.signatures.get(index)?;
            message
                .payload
                .as_ref()
                .map(|_| message.tbs_data(external_aad, signature))
        }
        Kind::Mac => read::<CoseMac>(bytes)?.tbm(external_aad).ok()?,
        Kind::Mac0 => read::<CoseMac0>(bytes)?.tbm(external_aad).ok()?,
        Kind::Encrypt => Some(read::<CoseEncrypt>(bytes)?.aad(external_aad)),
        Kind::Encrypt0 => Some(read::<CoseEncrypt0>(bytes)?.aad(external_aad)),
        _ => None,
    }
}

/// Returns the text about the structure at this index: its title and its bytes.
fn note(kind: Kind, external_aad: &[u8], index: usize, structure: &[u8]) -> String {
    let title = match kind {
        Kind::Sign1 => "ToBeSigned".into(),
        Kind::Sign => format!("ToBeSigned of signature {index}"),
        Kind::Mac | Kind::Mac0 => "ToBeMaced".into(),
        _ => String::from("AAD"),
    };
    let aad = match external_aad {
        [] => "with empty external_aad".into(),
        bytes => format!("with external_aad h'{}'", hex(bytes)),
    };
    format!("{title}, {aad}: {}", hex(structure))
}

/// Returns the message's structures as text, one for each of at most four signatures. The list is
/// empty if [`structure`] returns `None`.
pub fn structure_notes(kind: Kind, bytes: &[u8], external_aad: &[u8]) -> Vec<String> {
    let (kind, bytes) = kind.named(bytes);
    let count = if kind == Kind::Sign { SHOWN } else { 1 };
    let structures = (0..count).map_while(|index| structure(kind, bytes, external_aad, index));
    structures
        .enumerate()
        .map(|(index, structure)| note(kind, external_aad, index, &structure))
        .collect()
}
