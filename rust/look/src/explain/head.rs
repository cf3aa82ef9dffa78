//! Facts about an item that its head tells.

use coset::cbor::head::{Head, MajorType};
use coset::cbor::value::Float;

/// Returns the argument, or 0 if there is none.
pub(crate) fn argument(head: &Head) -> u64 {
    head.number().unwrap_or(0)
}

/// Returns true if no shorter head has this argument. A float's argument has a width of its own, so
/// callers exclude floats.
pub(crate) fn is_shortest(head: &Head) -> bool {
    match head.width() {
        1 => 24 <= argument(head),
        2 => 1 << 8 <= argument(head),
        4 => 1 << 16 <= argument(head),
        8 => 1 << 32 <= argument(head),
        _ => true,
    }
}

/// Returns true if the head is that of an integer.
pub(crate) fn is_integer(head: &Head) -> bool {
    matches!(head.major_type, MajorType::Unsigned | MajorType::Negative)
}

/// Returns the integer with this head, or `None` if it doesn't fit an `i64` or the item is no
/// integer.
pub(crate) fn integer(head: &Head) -> Option<i64> {
    let number = i64::try_from(argument(head)).ok()?;
    match head.major_type {
        MajorType::Unsigned => Some(number),
        MajorType::Negative => Some(-1 - number),
        _ => None,
    }
}

/// Returns the float with this head.
pub(crate) fn float(head: &Head) -> Float {
    let bits = argument(head);
    match head.width() {
        2 => Float::Half(bits as u16),
        4 => Float::Single(bits as u32),
        _ => Float::Double(bits),
    }
}

/// Returns the number of a tag, or `None` for another item.
pub(crate) fn tag(head: &Head) -> Option<u64> {
    head.number().filter(|_| head.major_type == MajorType::Tag)
}

/// Returns the name that the library's errors give to items with this head.
pub(crate) fn kind_name(head: &Head) -> &'static str {
    match head.major_type {
        MajorType::Unsigned | MajorType::Negative => "int",
        MajorType::Bytes => "bstr",
        MajorType::Text => "tstr",
        MajorType::Array => "array",
        MajorType::Map => "map",
        MajorType::Tag => "tag",
        MajorType::Simple if head.is_float() => "float",
        MajorType::Simple if head.is_null() => "nul",
        MajorType::Simple => "bool",
    }
}

/// Returns true if the head is that of a byte string of definite length.
pub(crate) fn is_whole_bytes(head: &Head) -> bool {
    head.major_type == MajorType::Bytes && !head.is_indefinite()
}

/// Returns true if the head is that of a byte string in chunks.
pub(crate) fn is_chunked_bytes(head: &Head) -> bool {
    head.major_type == MajorType::Bytes && head.is_indefinite()
}

/// Returns the content of the string with this head. `rest` are the bytes after the head. Another
/// item has no content.
pub(crate) fn content<'a>(head: &Head, rest: &'a [u8]) -> &'a [u8] {
    match head.major_type {
        MajorType::Bytes | MajorType::Text => {
            &rest[..rest
                .len()
                .min(usize::try_from(argument(head)).unwrap_or(usize::MAX))]
        }
        _ => &[],
    }
}
