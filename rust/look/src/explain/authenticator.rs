//! The authenticator data of a WebAuthn attestation object (W3C WebAuthn, section 6.1).

use crate::encode::hex;
use coset::cbor::de::Pull;

/// The flags, from the lowest bit on. Bits without a name are reserved.
const FLAGS: [(u8, &str); 6] = [
    (0x01, "UP"),
    (0x04, "UV"),
    (0x08, "BE"),
    (0x10, "BS"),
    (0x40, "AT"),
    (0x80, "ED"),
];

/// The flag of attested credential data.
const ATTESTED: u8 = 0x40;

/// Returns the names of the flags that are set, each after a space.
fn flag_names(flags: u8) -> String {
    let is_set = |(flag, _): &&(u8, &str)| flags & flag != 0;
    FLAGS
        .iter()
        .filter(is_set)
        .map(|(_, name)| format!(" {name}"))
        .collect()
}

/// Returns the attested credential data at the front: AAGUID, credential id and public key. The
/// text ends where the data ends too early.
fn credential(data: &[u8]) -> String {
    const CUT: &str = ", and then it ends too early";
    let front = data.split_at_checked(16).and_then(|(aaguid, rest)| {
        let (length, rest) = rest.split_first_chunk()?;
        let (id, key) = rest.split_at_checked(u16::from_be_bytes(*length).into())?;
        Some((hex(aaguid), hex(id), key))
    });
    let Some((aaguid, id, key)) = front else {
        return CUT.into();
    };
    let ids = format!(", AAGUID {aaguid}, credential id h'{id}'");
    match Pull::new(key) {
        Ok((key, behind)) => {
            let (length, left) = (key.slice().len(), behind.len());
            format!("{ids}, COSE_Key of {length} bytes, {left} bytes of extensions")
        }
        Err(_) => ids + CUT,
    }
}

/// Returns what the authenticator data says, or `None` if it is too short.
pub(crate) fn described(data: &[u8]) -> Option<String> {
    let (hash, rest) = data.split_at_checked(32)?;
    let (flags, rest) = rest.split_first()?;
    let (counter, rest) = rest.split_first_chunk()?;
    let (hash, counter) = (hex(hash), u32::from_be_bytes(*counter));
    let names = flag_names(*flags);
    let attested = if flags & ATTESTED == 0 {
        String::new()
    } else {
        credential(rest)
    };
    Some(format!(
        "rpIdHash h'{hash}', flags{names}, counter {counter}{attested}"
    ))
}
