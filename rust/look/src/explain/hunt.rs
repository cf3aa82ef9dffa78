//! The search for the fault for which a type's decoder refused the bytes.

use crate::explain::fault::{Fault, has_header_fault};
use crate::explain::frame::{Container, Frame};
use crate::explain::head::{integer, is_chunked_bytes, is_integer, kind_name, tag};
use crate::explain::role::{Message, Part, Role, is_private, name_of};
use crate::explain::walk::Item;
use coset::cbor::de::{Error, Pull};
use coset::cbor::head::{Head, MajorType};
use coset::cbor::value::Integer;
use coset::iana::{EnumI64, HeaderParameter};
use coset::{CborSerializable, CoseError, CoseSignature, Label};
use std::collections::BTreeSet;

/// The search for the fault that an error names.
pub(crate) struct Hunt<'e> {
    pub(crate) error: Option<&'e CoseError>,
    /// The labels so far, each with its map or array.
    labels: BTreeSet<(usize, Label)>,
}

/// Returns true if an item with this head may be at the place.
fn fits(frame: &Frame, role: Role, head: &Head) -> bool {
    match role {
        Role::Message(_, _) | Role::Signature => {
            head.major_type == MajorType::Array
                || (frame.container == Container::Input && tag(head) == Some(tag_of(role)))
        }
        Role::Signatures
        | Role::Countersignatures
        | Role::Recipient
        | Role::Recipients
        | Role::Labels
        | Role::Operations
        | Role::KeySet
        | Role::Context
        | Role::Party
        | Role::PublicInformation => head.major_type == MajorType::Array,
        Role::Header(_) | Role::Key | Role::Claims => head.major_type == MajorType::Map,
        Role::Protected | Role::Bytes | Role::FilledBytes => head.major_type == MajorType::Bytes,
        Role::Payload(_) | Role::MaybeBytes => {
            head.major_type == MajorType::Bytes || head.is_null()
        }
        Role::Nonce => head.major_type == MajorType::Bytes || head.is_null() || is_integer(head),
        Role::Text => head.major_type == MajorType::Text,
        Role::Length => is_integer(head),
        Role::Expiry | Role::Start | Role::Time => is_integer(head) || head.is_float(),
        Role::CriticalLabel
        | Role::Algorithm
        | Role::ContentFormat
        | Role::KeyType
        | Role::Operation
        | Role::HeaderLabel
        | Role::KeyLabel(_)
        | Role::ClaimName => is_integer(head) || head.major_type == MajorType::Text,
        _ => true,
    }
}

/// Returns the tag number of a message (RFC 8152, table 1) or a countersignature (RFC 9338, section
/// 3.1).
fn tag_of(role: Role) -> u64 {
    match role {
        Role::Message(Message::Encrypt0, _) => 16,
        Role::Message(Message::Mac0, _) => 17,
        Role::Message(Message::Sign1, _) => 18,
        Role::Message(Message::Encrypt, _) => 96,
        Role::Message(Message::Mac, _) => 97,
        Role::Message(Message::Sign, _) => 98,
        _ => 19,
    }
}

/// Returns the item at the front of the bytes.
fn pulled(bytes: &[u8]) -> Option<Pull<'_>> {
    Some(Pull::new(bytes).ok()?.0)
}

/// Returns the number of elements of the array with this head at the front of the bytes.
fn count_of(head: &Head, bytes: &[u8]) -> u64 {
    let counted = || Some(pulled(bytes)?.items()?.count() as u64);
    head.number().or_else(counted).unwrap_or(0)
}

/// Returns true if the map at the front of the bytes has a key type that isn't the reserved one.
fn has_key_type(bytes: &[u8]) -> bool {
    let is_type = |label: &Pull| label.integer() == Some(Integer::from(1u8));
    pulled(bytes)
        .and_then(|pull| pull.pairs()?.find(|(label, _)| is_type(label)))
        .is_some_and(|(_, value)| value.integer() != Some(Integer::from(0u8)))
}

/// Returns true if an array with this role may have `count` elements.
fn has_count(role: Role, count: u64) -> bool {
    match role {
        Role::Message(Message::Encrypt0, _) | Role::Signature | Role::Party => count == 3,
        Role::Message(Message::Mac, _) => count == 5,
        Role::Message(_, _) => count == 4,
        Role::Recipient => count == 3 || count == 4,
        Role::PublicInformation => count == 2 || count == 3,
        Role::Context => 4 <= count,
        _ => true,
    }
}

/// Returns the name that errors give to an item without something that its role requires. Returns
/// `None` if nothing is missing.
fn lacking(role: Role, head: &Head, bytes: &[u8]) -> Option<&'static str> {
    if role == Role::Key && !has_key_type(bytes) {
        return Some("no kty label");
    }
    match role {
        Role::FilledBytes if is_empty(head, bytes) => Some("empty bstr"),
        Role::ContentFormat if head.major_type == MajorType::Text && is_empty(head, bytes) => {
            Some("empty tstr")
        }
        Role::Countersignatures if is_empty(head, bytes) => Some("empty sig array"),
        Role::Labels | Role::Operations if is_empty(head, bytes) => Some("empty array"),
        _ => None,
    }
}

/// Returns true if the array or string with this head, at the front of the bytes, is empty.
fn is_empty(head: &Head, bytes: &[u8]) -> bool {
    match (head.major_type, head.number()) {
        (MajorType::Array, _) => count_of(head, bytes) == 0,
        (_, Some(length)) => length == 0,
        (MajorType::Text, None) => text_of(bytes).is_none_or(|text| text.is_empty()),
        (_, None) => content_of(bytes).is_empty(),
    }
}

/// Returns true if an error that asks for `want` can be about an item with this role.
fn asks(role: Role, want: &str) -> bool {
    match want {
        "bstr" => matches!(
            role,
            Role::Protected | Role::Bytes | Role::FilledBytes | Role::Payload(_) | Role::MaybeBytes
        ),
        "bstr or nil" => matches!(role, Role::Payload(_)),
        "bstr / nil" | "bstr / null" => role == Role::MaybeBytes,
        "bstr / int / nil" => role == Role::Nonce,
        "map" => matches!(role, Role::Header(_) | Role::Key | Role::Claims),
        "array value" => role == Role::Labels,
        "int" => role == Role::Length,
        "int/float" => matches!(role, Role::Expiry | Role::Start | Role::Time),
        "tstr" => role == Role::Text,
        _ => true,
    }
}

/// Returns the name that errors give to an item that may not be at its place, or `None` if it may.
fn unexpected(frame: &Frame, role: Role, head: &Head, bytes: &[u8]) -> Option<&'static str> {
    if !fits(frame, role, head) {
        return Some(kind_name(head));
    }
    if head.major_type == MajorType::Array && !has_count(role, count_of(head, bytes)) {
        return Some("array");
    }
    lacking(role, head, bytes)
}

/// Returns true if an integer with this role must fit an `i64`.
fn is_bounded(role: Role) -> bool {
    matches!(
        role,
        Role::CriticalLabel
            | Role::Algorithm
            | Role::ContentFormat
            | Role::KeyType
            | Role::Operation
            | Role::HeaderLabel
            | Role::KeyLabel(_)
            | Role::ClaimName
            | Role::Expiry
            | Role::Start
            | Role::Time
            | Role::Nonce
    )
}

/// Returns true if an integer is outside of the range of its role.
fn is_out_of_range(role: Role, head: &Head) -> bool {
    if role == Role::Length {
        return head.major_type == MajorType::Negative;
    }
    is_bounded(role) && is_integer(head) && integer(head).is_none()
}

/// Returns true if the item at the front of the bytes is a signature (RFC 8152, section 4.1).
fn is_signature(bytes: &[u8]) -> bool {
    pulled(bytes).is_some_and(|pull| CoseSignature::from_slice(pull.slice()).is_ok())
}

/// Returns the text string at the front of the bytes, with its chunks joined, or `None` for another
/// item.
fn text_of(bytes: &[u8]) -> Option<String> {
    pulled(bytes)?.to_text().ok()?
}

/// Returns the byte string at the front of the bytes, with its chunks joined. It is empty for
/// another item.
fn content_of(bytes: &[u8]) -> Vec<u8> {
    pulled(bytes)
        .and_then(|pull| pull.to_bytes().ok()?)
        .unwrap_or_default()
}

/// Returns true if the text at the front of the bytes is no media type (RFC 8152, section 3.1).
/// With `is_spaced`, it has white space at its ends. Otherwise it has none, and the number of
/// slashes is wrong.
fn is_no_media_type(bytes: &[u8], is_spaced: bool) -> bool {
    text_of(bytes).is_some_and(|text| match text.trim() == text {
        true => !is_spaced && text.matches('/').count() != 1,
        false => is_spaced,
    })
}

/// Returns true if the number has no name in the registry of its role, and isn't for private use.
/// `has_private` selects the registries with a private range, otherwise those without one.
fn is_unregistered(role: Role, head: &Head, has_private: bool) -> bool {
    let Some(number) = integer(head) else {
        return false;
    };
    let (asks, is_named) = match role {
        Role::CriticalLabel => (has_private, HeaderParameter::from_i64(number).is_some()),
        Role::Algorithm | Role::ClaimName => (has_private, name_of(role, number).is_some()),
        Role::ContentFormat | Role::KeyType | Role::Operation => {
            (!has_private, name_of(role, number).is_some())
        }
        _ => (false, true),
    };
    asks && !is_named && !is_private(role, number)
}

impl<'e> Hunt<'e> {
    pub(crate) fn of(error: Option<&'e CoseError>) -> Hunt<'e> {
        Hunt {
            error,
            labels: BTreeSet::new(),
        }
    }

    /// Returns the fault that is searched for, if this item of the frame, which is this part, has
    /// it.
    pub(crate) fn at(&mut self, frame: &Frame, part: &Part, item: &Item) -> Option<Fault> {
        let error = self.error.filter(|_| part.is_read)?;
        let is_too_deep = frame.layers == 0
            && matches!(
                error,
                CoseError::DecodeFailed(Error::RecursionLimitExceeded)
            );
        let is_faulty = match part.role {
            // A protected header in chunks isn't opened.
            Role::Protected if is_chunked_bytes(&item.head) => {
                has_header_fault(error, &content_of(item.bytes))
            }
            Role::Protected if is_too_deep => return Some(Fault::Layers),
            role => self.is_shape_fault(error, frame, role, item),
        };
        is_faulty.then_some(Fault::Shape)
    }

    /// Returns true if the item has the fault that the error names.
    fn is_shape_fault(
        &mut self,
        error: &CoseError,
        frame: &Frame,
        role: Role,
        item: &Item,
    ) -> bool {
        let (head, bytes) = (&item.head, item.bytes);
        match error {
            CoseError::UnexpectedItem(got, want) => match *got {
                "non-signature" => frame.role == Role::Signatures && !is_signature(bytes),
                "repeated array entry" => role == Role::Operation && self.repeats(frame, item),
                "IV and partial-IV specified" => {
                    role == Role::HeaderLabel && self.is_other_iv(frame, head)
                }
                "leading/trailing whitespace" => {
                    role == Role::ContentFormat && is_no_media_type(bytes, true)
                }
                "arbitrary text" => role == Role::ContentFormat && is_no_media_type(bytes, false),
                got => asks(role, want) && unexpected(frame, role, head, bytes) == Some(got),
            },
            CoseError::DuplicateMapKey => frame.is_at_key() && self.repeats(frame, item),
            CoseError::OutOfRangeIntegerValue => is_out_of_range(role, head),
            CoseError::UnregisteredIanaValue => is_unregistered(role, head, false),
            CoseError::UnregisteredIanaNonPrivateValue => is_unregistered(role, head, true),
            _ => false,
        }
    }

    /// Returns true if decoding this content of a protected header gives the error of CBOR that is
    /// searched for.
    pub(crate) fn is_in(&self, part: &Part, content: &[u8]) -> bool {
        let is_protected = part.is_read && part.role == Role::Protected;
        let error = self.error.filter(|error| {
            is_protected
                && matches!(
                    error,
                    CoseError::DecodeFailed(_) | CoseError::ExtraneousData
                )
        });
        error.is_some_and(|error| has_header_fault(error, content))
    }

    /// Returns true if this label came before in this map, or this key operation in this array.
    fn repeats(&mut self, frame: &Frame, item: &Item) -> bool {
        let label = integer(&item.head).map(Label::Int);
        let label = label.or_else(|| text_of(item.bytes).map(Label::Text));
        label.is_some_and(|label| !self.labels.insert((frame.id, label)))
    }

    /// Returns true if the head is that of IV or Partial IV, and the other came before in this map.
    fn is_other_iv(&mut self, frame: &Frame, head: &Head) -> bool {
        let Some(number @ (5 | 6)) = integer(head) else {
            return false;
        };
        self.labels.insert((frame.id, Label::Int(number)));
        self.labels.contains(&(frame.id, Label::Int(11 - number)))
    }
}
