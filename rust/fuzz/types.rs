//! Types that are read and written.

use coset::cbor::value::Value;
use coset::cwt::{ClaimsSet, Timestamp};
use coset::{
    Algorithm, AsCborValue, CborOrdering, CborSerializable, ContentType, CoseKdfContext, CoseKey,
    CoseKeySet, CoseSignature, Header, KeyOperation, KeyType, Label, PartyInfo, ProtectedHeader,
    SuppPubInfo,
};
use std::fmt::Debug;

/// The number of types here.
pub const COUNT: u8 = 17;

/// Reads a value of the type of that number, and makes its calls.
pub fn attack(kind: u8, bytes: &[u8]) {
    match kind {
        0 => drop(read_back::<Value>(bytes)),
        1 => drop(read_back::<Header>(bytes)),
        2 => protected(bytes),
        3 => drop(read_back::<CoseSignature>(bytes)),
        4 => key(bytes),
        5 => drop(read_back::<CoseKeySet>(bytes)),
        6 => drop(read_back::<ClaimsSet>(bytes)),
        7 => drop(read_back::<CoseKdfContext>(bytes)),
        8 => drop(read_back::<PartyInfo>(bytes)),
        9 => drop(read_back::<SuppPubInfo>(bytes)),
        10 => drop(read_back::<Label>(bytes)),
        11 => drop(read_back::<Algorithm>(bytes)),
        12 => drop(read_back::<ContentType>(bytes)),
        13 => drop(read_back::<KeyType>(bytes)),
        14 => drop(read_back::<KeyOperation>(bytes)),
        15 => drop(read_back::<Timestamp>(bytes)),
        _ => seen(bytes),
    }
}

/// Returns the value that the bytes encode. It is written and read again, which must give an equal
/// value and the same bytes.
pub fn read_back<T: CborSerializable + AsCborValue + Clone + PartialEq + Debug>(
    bytes: &[u8],
) -> Option<T> {
    let value = match T::from_slice(bytes) {
        Ok(value) => value,
        Err(error) => {
            let _ = format!("{error} {error:?}");
            return None;
        }
    };
    let written = copied(&value).to_vec().expect("what was read is written");
    let again = T::from_slice(&written).expect("what was written is read");
    assert!(again == value, "{again:?} isn't {value:?}");
    assert_eq!(again.to_vec().expect("it is written again"), written);
    let item = copied(&value).to_cbor_value().expect("it becomes an item");
    assert_eq!(item.to_vec().expect("the item is written"), written);
    Some(value)
}

/// Returns a copy, which is equal and has the same text.
pub fn copied<T: Clone + PartialEq + Debug>(value: &T) -> T {
    let copy = value.clone();
    assert!(copy == *value, "a copy of {value:?} differs");
    assert_eq!(format!("{copy:?}"), format!("{value:?}"));
    copy
}

fn protected(bytes: &[u8]) {
    let Some(header) = read_back::<ProtectedHeader>(bytes) else {
        return;
    };
    let string = copied(&header).cbor_bstr().expect("it becomes a string");
    match ProtectedHeader::from_cbor_bstr(string) {
        Ok(again) => assert!(again.header == header.header),
        // The string is a layer more.
        Err(error) => assert!(format!("{error:?}").contains("RecursionLimitExceeded")),
    }
}

fn key(bytes: &[u8]) {
    let Some(key) = read_back::<CoseKey>(bytes) else {
        return;
    };
    for is_plain in [true, false] {
        let ordering = || match is_plain {
            true => CborOrdering::Lexicographic,
            false => CborOrdering::LengthFirstLexicographic,
        };
        let mut sorted = copied(&key);
        sorted.canonicalize(ordering());
        let written = copied(&sorted).to_vec().expect("a sorted key is written");
        sorted.canonicalize(ordering());
        assert_eq!(sorted.to_vec().expect("it is written again"), written);
    }
    let _ = key.to_sec1_octet_string();
}

/// A message that is seen has the parts that it has if it is decoded, and the same structure.
fn seen(bytes: &[u8]) {
    use coset::{CoseSign1, TaggedCborSerializable};
    let Some(seen) = coset::seen::see(coset::seen::Kind::Sign1, bytes) else {
        return;
    };
    let message = CoseSign1::from_any_slice(bytes).expect("a message that is seen is one");
    assert_eq!(
        message.payload.as_deref(),
        seen.content.map(|part| part.bytes)
    );
    assert_eq!(message.signature, seen.proof.bytes);
    if message.payload.is_some() {
        let structure = seen.structure(b"aad", None).expect("it has its content");
        assert_eq!(structure, message.tbs_data(b"aad"));
    }
}
