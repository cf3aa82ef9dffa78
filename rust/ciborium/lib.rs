//! Converts the CBOR values of `coset` to those of `ciborium`, and back.
//!
//! Integers, texts, byte strings, tags, arrays and maps keep their content. A float keeps its
//! number, and loses its width: ciborium has doubles alone. Both directions recurse once for each
//! level of nesting. Nothing here is proved.
#![no_std]
#![forbid(unsafe_code)]

extern crate alloc;

use alloc::boxed::Box;
use alloc::vec::Vec;
use core::fmt;
use coset::cbor::value::Value;

/// The error of [`from_ciborium`]: a kind of value that ciborium got after version 0.2.2.
#[derive(Clone, Copy, Debug, PartialEq, Eq)]
pub struct UnknownKind;

impl fmt::Display for UnknownKind {
    fn fmt(&self, f: &mut fmt::Formatter<'_>) -> fmt::Result {
        f.write_str("a kind of value that coset doesn't know")
    }
}

impl core::error::Error for UnknownKind {}

/// Returns the value of ciborium with the same content.
pub fn to_ciborium(value: Value) -> ciborium::Value {
    use ciborium::Value as Theirs;
    match value {
        Value::Integer(n) => i128::from(n).into(),
        Value::Bytes(bytes) => Theirs::Bytes(bytes),
        Value::Float(float) => Theirs::Float(float.to_f64()),
        Value::Text(text) => Theirs::Text(text),
        Value::Bool(truth) => Theirs::Bool(truth),
        Value::Null => Theirs::Null,
        Value::Tag(number, inner) => Theirs::Tag(number, Box::new(to_ciborium(*inner))),
        Value::Array(items) => Theirs::Array(items.into_iter().map(to_ciborium).collect()),
        Value::Map(pairs) => Theirs::Map(pairs.into_iter().map(to_pair).collect()),
    }
}

fn to_pair((key, value): (Value, Value)) -> (ciborium::Value, ciborium::Value) {
    (to_ciborium(key), to_ciborium(value))
}

/// Returns the value of coset with the same content. A float gets its shortest width.
///
/// # Errors
/// `UnknownKind` if ciborium is newer and the value has a kind that coset doesn't know.
pub fn from_ciborium(value: ciborium::Value) -> Result<Value, UnknownKind> {
    use ciborium::Value as Theirs;
    Ok(match value {
        Theirs::Integer(n) => i128::from(n).into(),
        Theirs::Bytes(bytes) => Value::Bytes(bytes),
        Theirs::Float(number) => number.into(),
        Theirs::Text(text) => Value::Text(text),
        Theirs::Bool(truth) => Value::Bool(truth),
        Theirs::Null => Value::Null,
        Theirs::Tag(number, inner) => Value::Tag(number, Box::new(from_ciborium(*inner)?)),
        Theirs::Array(items) => Value::Array(
            items
                .into_iter()
                .map(from_ciborium)
                .collect::<Result<_, _>>()?,
        ),
        Theirs::Map(pairs) => Value::Map(
            pairs
                .into_iter()
                .map(from_pair)
                .collect::<Result<Vec<_>, _>>()?,
        ),
        _ => return Err(UnknownKind),
    })
}

fn from_pair(
    (key, value): (ciborium::Value, ciborium::Value),
) -> Result<(Value, Value), UnknownKind> {
    Ok((from_ciborium(key)?, from_ciborium(value)?))
}

#[cfg(test)]
mod tests {
    use super::*;
    use coset::CborSerializable;
    use coset::cbor::value::Float;

    /// Checks that both crates write the same bytes, and read each other's.
    #[track_caller]
    fn agree(value: Value) {
        let ours = value.clone().to_vec().expect("coset writes it");
        let converted = to_ciborium(value.clone());
        let mut theirs = Vec::new();
        ciborium::into_writer(&converted, &mut theirs).expect("ciborium writes it");
        assert_eq!(ours, theirs);
        let read: ciborium::Value =
            ciborium::from_reader(ours.as_slice()).expect("ciborium reads it");
        assert_eq!(read, converted);
        assert_eq!(from_ciborium(read), Ok(value));
    }

    #[test]
    fn each_kind() {
        let numbers = [0, 23, 24, 255, 256, -1, -24, -25, (1 << 64) - 1, -(1 << 64)];
        numbers.into_iter().for_each(|n: i128| agree(n.into()));
        agree(b"\x01\x02".as_slice().into());
        agree("\u{6c34}".into());
        [true, false]
            .into_iter()
            .for_each(|truth| agree(truth.into()));
        agree(Value::Null);
        agree(Value::Tag(
            61,
            Box::new(Value::Array([1u8.into(), "a".into()].into())),
        ));
        agree(Value::Map(
            [
                (1u8.into(), Value::Null),
                (Value::Array(Vec::new()), 2u8.into()),
            ]
            .into(),
        ));
    }

    #[test]
    fn each_half_and_some_wider_floats() {
        let halves = (0..=u16::MAX).map(Float::Half).map(Float::to_f64);
        halves
            .filter(|it| !it.is_nan())
            .for_each(|it| agree(it.into()));
        let singles = (0..=u16::MAX).map(|it| f32::from_bits(u32::from(it) << 16 | 0x55));
        singles
            .filter(|it| !it.is_nan())
            .for_each(|it| agree(it.into()));
        let doubles = (0..=u16::MAX).map(|it| f64::from_bits(u64::from(it) << 48 | 0x55));
        doubles
            .filter(|it| !it.is_nan())
            .for_each(|it| agree(it.into()));
    }

    #[test]
    fn not_a_number() {
        let converted = to_ciborium(f64::NAN.into());
        assert!(converted.as_float().is_some_and(f64::is_nan));
        assert_eq!(
            from_ciborium(converted),
            Ok(Value::Float(Float::Half(0x7e00)))
        );
    }
}
