//! Messages, read by a form, by their tag, or by what they fit.

use crate::seals::countersigned::Target;
use coset::cbor::head::{MajorType, read_head};
use coset::{
    CoseEncrypt, CoseEncrypt0, CoseMac, CoseMac0, CoseSign, CoseSign1, Header, ProtectedHeader,
    TaggedCborSerializable,
};
use coset_cwt::Form;

/// The tag of web tokens (RFC 8392, section 6).
const CWT: u64 = 61;

/// The forms that are tried for bytes without a tag, in this order.
const TRIED: [Form; 6] = [
    Form::Sign1,
    Form::Mac0,
    Form::Encrypt0,
    Form::Sign,
    Form::Mac,
    Form::Encrypt,
];

/// A message.
pub(crate) enum Message {
    Sign1(CoseSign1),
    Mac0(CoseMac0),
    Encrypt0(CoseEncrypt0),
    Sign(CoseSign),
    Mac(CoseMac),
    Encrypt(CoseEncrypt),
}

impl Message {
    /// Returns the protected and the unprotected header.
    pub(crate) fn headers(&self) -> (&ProtectedHeader, &Header) {
        match self {
            Message::Sign1(message) => (&message.protected, &message.unprotected),
            Message::Mac0(message) => (&message.protected, &message.unprotected),
            Message::Encrypt0(message) => (&message.protected, &message.unprotected),
            Message::Sign(message) => (&message.protected, &message.unprotected),
            Message::Mac(message) => (&message.protected, &message.unprotected),
            Message::Encrypt(message) => (&message.protected, &message.unprotected),
        }
    }

    /// Returns the parts of the message that countersignatures cover.
    pub(crate) fn target(&self) -> Target<'_> {
        let (protected, unprotected) = self.headers();
        let (content, other) = match self {
            Message::Sign1(message) => (&message.payload, Some(&message.signature)),
            Message::Mac0(message) => (&message.payload, Some(&message.tag)),
            Message::Encrypt0(message) => (&message.ciphertext, None),
            Message::Sign(message) => (&message.payload, None),
            Message::Mac(message) => (&message.payload, Some(&message.tag)),
            Message::Encrypt(message) => (&message.ciphertext, None),
        };
        let other = other.map(Vec::as_slice);
        Target {
            protected,
            unprotected,
            content: content.as_deref(),
            other,
        }
    }

    /// Returns the payload. Returns `None` if it is detached or encrypted.
    pub(crate) fn into_payload(self) -> Option<Vec<u8>> {
        match self {
            Message::Sign1(message) => message.payload,
            Message::Mac0(message) => message.payload,
            Message::Sign(message) => message.payload,
            Message::Mac(message) => message.payload,
            Message::Encrypt0(_) | Message::Encrypt(_) => None,
        }
    }
}

/// Returns the form that a tag names (RFC 8152, table 1).
fn form_of(tag: u64) -> Option<Form> {
    match tag {
        16 => Some(Form::Encrypt0),
        17 => Some(Form::Mac0),
        18 => Some(Form::Sign1),
        96 => Some(Form::Encrypt),
        97 => Some(Form::Mac),
        98 => Some(Form::Sign),
        _ => None,
    }
}

/// Returns the number of the tag at the front, and the bytes after its head.
fn tag_at_front(bytes: &[u8]) -> Option<(u64, &[u8])> {
    let (head, rest) = read_head(bytes).ok()?;
    head.number()
        .filter(|_| head.major_type == MajorType::Tag)
        .map(|tag| (tag, rest))
}

/// Reads a message of this form, plain or under its tag.
fn read_as(form: Form, bytes: &[u8]) -> Option<Message> {
    match form {
        Form::Sign1 => CoseSign1::from_any_slice(bytes).map(Message::Sign1),
        Form::Mac0 => CoseMac0::from_any_slice(bytes).map(Message::Mac0),
        Form::Encrypt0 => CoseEncrypt0::from_any_slice(bytes).map(Message::Encrypt0),
        Form::Sign => CoseSign::from_any_slice(bytes).map(Message::Sign),
        Form::Mac => CoseMac::from_any_slice(bytes).map(Message::Mac),
        Form::Encrypt => CoseEncrypt::from_any_slice(bytes).map(Message::Encrypt),
    }
    .ok()
}

/// Reads the message that the tag at the front names.
pub(crate) fn read_tagged(bytes: &[u8]) -> Option<Message> {
    let (tag, _) = tag_at_front(bytes)?;
    read_as(form_of(tag)?, bytes)
}

/// Reads the outermost message: of the form `form`, if it is given, plain or under its tag. Else it
/// is of the form that its tag names, with or without tag 61. Without any tag, it is of the first
/// form that fits. The content of tag 61 must have a tag (RFC 8392, section 6).
pub(crate) fn read_outermost(form: Option<Form>, bytes: &[u8]) -> Option<Message> {
    match (form, tag_at_front(bytes)) {
        (Some(form), _) => read_as(form, bytes),
        (None, Some((CWT, inner))) => read_tagged(inner),
        (None, Some(_)) => read_tagged(bytes),
        (None, None) => TRIED.into_iter().find_map(|form| read_as(form, bytes)),
    }
}
