//! A call whose error can be `OutOfMemory` returns it if any allocation fails. If it
//! allocated in another way, the refused request would end the program, and so the tests. Of calls
//! that return a closure's error, the hidden form `NAME_checked` is tried: `NAME` itself panics.

use crate::refusing::{Counted, granting};
use coset::__proved::kit::TryClone;
use coset::cbor::value::Value;
use coset::cwt::ClaimsSet;
use coset::*;
use std::fmt::Debug;

/// A row of crates/coset_vectors/stdin: a kind, and the bytes.
struct Row {
    name: String,
    kind: String,
    bytes: Vec<u8>,
    counted: Counted,
}

/// The rows of up to 600 bytes.
fn rows() -> Vec<Row> {
    let path = concat!(
        env!("CARGO_MANIFEST_DIR"),
        "/../../crates/coset_vectors/stdin"
    );
    let text = std::fs::read_to_string(path).expect("the rows are there");
    text.lines().filter_map(row).collect()
}

fn row(line: &str) -> Option<Row> {
    let line = line.strip_prefix("tagged ").unwrap_or(line);
    let mut words = line.split(' ');
    let kind = words.next()?;
    let bytes = unhex(words.next()?).filter(|bytes| bytes.len() <= 600)?;
    // Tags of a value are boxes, and the operations of a key are a set: these request memory of
    // the same size before they allocate.
    let is_set = kind.starts_with("key");
    let counted = if is_set || Value::from_slice(&bytes).is_ok_and(|item| has_tag(&item)) {
        Counted::New
    } else {
        Counted::All
    };
    Some(Row {
        name: line.into(),
        kind: kind.into(),
        bytes,
        counted,
    })
}

/// True if a tag is in the item, or in one that a byte string of it encodes.
fn has_tag(item: &Value) -> bool {
    match item {
        Value::Tag(..) => true,
        Value::Bytes(bytes) => Value::from_slice(bytes).is_ok_and(|item| has_tag(&item)),
        Value::Array(items) => items.iter().any(has_tag),
        Value::Map(pairs) => pairs
            .iter()
            .any(|(key, value)| has_tag(key) || has_tag(value)),
        _ => false,
    }
}

fn unhex(digits: &str) -> Option<Vec<u8>> {
    let starts = (0..digits.len()).step_by(2);
    starts
        .map(|i| u8::from_str_radix(digits.get(i..i + 2)?, 16).ok())
        .collect()
}

impl Row {
    /// Tries the call with no request granted, with one, and so on until none is refused. Returns
    /// how many times it ran out of memory.
    fn sweep<A, T: PartialEq, E: Debug>(
        &self,
        given: impl Fn() -> A,
        call: impl Fn(A) -> Result<T, E>,
    ) -> usize {
        let try_with = |granted| {
            let given = given();
            let (result, requests) = granting(self.counted, granted, || call(given));
            (result.map_err(|error| format!("{error:?}")), requests)
        };
        let (expected, requests) = try_with(usize::MAX);
        let mut refused = 0;
        for granted in 0..requests {
            match try_with(granted).0 {
                Err(error) if is_memory(&error) => refused += 1,
                result => assert!(result == expected, "{}: another result", self.name),
            }
        }
        refused
    }

    fn all<T: CborSerializable + TryClone + PartialEq>(&self) -> usize {
        let mut refused = self.sweep(|| &self.bytes, |bytes| T::from_slice(bytes));
        let item = || Value::from_slice(&self.bytes).ok();
        if item().is_some() {
            refused += self.sweep(|| item().expect("an item"), T::from_cbor_value);
        }
        let Ok(value) = T::from_slice(&self.bytes) else {
            return refused;
        };
        let copy = || value.try_clone().expect("there is memory");
        refused
            + self.sweep(|| &value, T::try_clone)
            + self.sweep(copy, T::to_vec)
            + self.sweep(copy, T::to_cbor_value)
    }

    fn tagged<T>(&self) -> usize
    where
        T: CborSerializable + TaggedCborSerializable + TryClone + PartialEq,
    {
        let mut refused = self.all::<T>()
            + self.sweep(|| &self.bytes, |bytes| T::from_tagged_slice(bytes))
            + self.sweep(|| &self.bytes, |bytes| T::from_any_slice(bytes));
        if let Ok(value) = T::from_any_slice(&self.bytes) {
            let copy = || value.try_clone().expect("there is memory");
            refused += self.sweep(copy, T::to_tagged_vec);
        }
        refused
    }

    /// The calls that make the structure of a message.
    fn structures(&self) -> usize {
        let bytes = &self.bytes;
        let mut refused = 0;
        if let Ok(it) = CoseSign1::from_any_slice(bytes) {
            refused += self.sweep(|| &it, |it| it.tbs_data_checked(b"aad"));
            refused += self.sweep(|| &it, |it| it.verify_signature_checked(b"", agrees));
        }
        if let Ok(it) = CoseSign::from_any_slice(bytes) {
            for i in 0..it.signatures.len() {
                refused += self.sweep(|| &it, |it| it.verify_signature_checked(i, b"", agrees));
            }
        }
        if let Ok(it) = CoseMac0::from_any_slice(bytes) {
            refused += self.sweep(
                || &it,
                |it| it.verify_payload_tag_checked(b"", none, agrees),
            );
        }
        if let Ok(it) = CoseMac::from_any_slice(bytes) {
            refused += self.sweep(
                || &it,
                |it| it.verify_payload_tag_checked(b"", none, agrees),
            );
        }
        if let Ok(it) = CoseEncrypt0::from_any_slice(bytes) {
            refused += self.sweep(|| &it, |it| it.decrypt_ciphertext_checked(b"", none, opens));
        }
        if let Ok(it) = CoseEncrypt::from_any_slice(bytes) {
            refused += self.sweep(|| &it, |it| it.decrypt_ciphertext_checked(b"", none, opens));
        }
        refused
    }
}

/// True for the texts of `CoseError`, of `CallError` and of `AllocError`.
fn is_memory(error: &str) -> bool {
    error.contains("out of memory") || error.contains("OutOfMemory") || error == "AllocError"
}

fn agrees(_: &[u8], _: &[u8]) -> Result<(), String> {
    Ok(())
}

fn opens(_: &[u8], _: &[u8]) -> Result<Vec<u8>, String> {
    Ok(Vec::new())
}

fn none() -> String {
    String::new()
}

/// Tries all calls with all rows of the kinds for which `call` gives a number.
fn try_rows(call: impl Fn(&Row, &str) -> Option<usize>) {
    let mut refused = 0;
    let mut tried = 0;
    for row in rows() {
        if let Some(more) = call(&row, &row.kind) {
            tried += 1;
            refused += more;
        }
    }
    println!("{tried} rows, {refused} calls without enough memory");
    assert!(tried > 100 && refused > tried);
}

#[test]
fn parts_report_refused_memory() {
    try_rows(|row, kind| match kind {
        "value" => Some(row.all::<Value>()),
        "label" => Some(row.all::<Label>()),
        "algorithm" => Some(row.all::<Algorithm>()),
        "content_type" => Some(row.all::<ContentType>()),
        "header" => Some(row.all::<Header>()),
        "protected" => Some(row.all::<ProtectedHeader>()),
        "signature" => Some(row.all::<CoseSignature>()),
        "key" => Some(row.all::<CoseKey>()),
        "keyset" => Some(row.all::<CoseKeySet>()),
        "claims" => Some(row.all::<ClaimsSet>()),
        "party" => Some(row.all::<PartyInfo>()),
        "supp_pub" => Some(row.all::<SuppPubInfo>()),
        "kdf" => Some(row.all::<CoseKdfContext>()),
        _ => None,
    });
}

#[test]
fn messages_report_refused_memory() {
    try_rows(|row, kind| match kind {
        "countersignature" => Some(row.tagged::<CoseCountersignature>()),
        "recipient" => Some(row.all::<CoseRecipient>()),
        "sign1" => Some(row.tagged::<CoseSign1>()),
        "sign" => Some(row.tagged::<CoseSign>()),
        "mac" => Some(row.tagged::<CoseMac>()),
        "mac0" => Some(row.tagged::<CoseMac0>()),
        "encrypt" => Some(row.tagged::<CoseEncrypt>()),
        "encrypt0" => Some(row.tagged::<CoseEncrypt0>()),
        _ if kind.contains("_tb") || kind.contains("_aad") => Some(row.structures()),
        _ => None,
    });
}

#[test]
fn canonical_order_reports_refused_memory() {
    let mut key = CoseKey::default();
    for label in 0..30 {
        key.params.push((Label::Int(100 - label), Value::Null));
    }
    let sort = |key: &CoseKey, granted| {
        let mut key = key.clone();
        let sort = || key.canonicalize_checked(CborOrdering::Lexicographic);
        let (result, requests) = granting(Counted::All, granted, sort);
        (key, result.is_ok(), requests)
    };
    let (sorted, _, requests) = sort(&key, usize::MAX);
    assert_eq!(requests, 1);
    assert!(sorted.params.is_sorted_by(|a, b| a.0 < b.0));
    assert!(sort(&key, 0) == (key.clone(), false, 1));
    key.params.truncate(20);
    let (sorted, done, requests) = sort(&key, 0);
    assert!(done && requests == 0 && sorted.params[0].0 == Label::Int(81));
}
