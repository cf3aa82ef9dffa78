//! The role of an item at its place: the names of its labels and numbers, and the roles of its
//! parts.

use crate::explain::names;
use coset::iana::{
    Algorithm, CoapContentFormat, CwtClaimName, EllipticCurve, HeaderParameter, KeyOperation,
    KeyType, WithPrivateRange,
};

/// A message (RFC 8152, section 2).
#[derive(Clone, Copy, Debug, PartialEq, Eq)]
pub(crate) enum Message {
    Sign1,
    Sign,
    Mac0,
    Mac,
    Encrypt0,
    Encrypt,
}

/// The bucket of a header (RFC 8152, section 3).
#[derive(Clone, Copy, Debug, PartialEq, Eq)]
pub(crate) enum Bucket {
    Protected,
    /// The unprotected bucket of a message, a signature or a countersignature.
    Unprotected,
    /// The unprotected bucket of a recipient.
    OfRecipient,
}

/// The role of an item.
#[derive(Clone, Copy, Debug, PartialEq, Eq)]
pub(crate) enum Role {
    /// An unknown item, in which tags say nothing.
    Plain,
    /// An unknown item, in which tags say what they enclose.
    Any,
    /// The content of tag 61 (RFC 8392, section 6).
    Token,
    /// A message, and whether its payload is claims.
    Message(Message, bool),
    /// A signature of a message, or a countersignature.
    Signature,
    Signatures,
    /// One countersignature, or an array of several.
    Countersignatures,
    Recipient,
    Recipients,
    /// A protected header in its byte string (RFC 8152, section 3).
    Protected,
    Header(Bucket),
    /// A payload, and whether it is claims.
    Payload(bool),
    Bytes,
    /// A byte string that may not be empty.
    FilledBytes,
    Text,
    /// The labels of `crit`.
    Labels,
    CriticalLabel,
    Algorithm,
    ContentFormat,
    Key,
    KeySet,
    KeyType,
    Operations,
    Operation,
    Curve,
    Claims,
    /// The key that confirms who presents a token (RFC 8747, section 3).
    Confirmation,
    Expiry,
    Start,
    Time,
    /// The context of a key derivation (RFC 8152, section 11.2).
    Context,
    Party,
    Nonce,
    PublicInformation,
    Length,
    /// A byte string or null.
    MaybeBytes,
    HeaderLabel,
    /// A label of a key of this type, if the type is known.
    KeyLabel(Option<i64>),
    ClaimName,
    ConfirmationLabel,
    /// The submodules of an attestation token (RFC 9711, section 4.2.18). Each is claims, or a
    /// token.
    Submodules,
    Submodule,
    /// A certificate, or an array of several (RFC 9360, section 2).
    Certificates,
    /// The byte string of tag 24, which is encoded CBOR (RFC 8949, section 3.4.5.1).
    Encoded,
    /// The authenticator data of a WebAuthn attestation object (W3C WebAuthn, section 6.1).
    AuthenticatorData,
}

/// Returns the place of the value under a text label of WebAuthn or of mobile documents (ISO/IEC
/// 18013-5).
fn word_value(word: &[u8]) -> Part {
    let role = match word {
        b"authData" => Role::AuthenticatorData,
        b"issuerAuth" | b"deviceSignature" => Role::Message(Message::Sign1, false),
        b"deviceMac" => Role::Message(Message::Mac0, false),
        b"deviceKey" => Role::Key,
        _ => Role::Any,
    };
    Part::named(role, "")
}

/// A place in an array or a map.
#[derive(Clone, Copy, Debug)]
pub(crate) struct Part {
    pub(crate) role: Role,
    /// The standard's name for it; it may be empty.
    pub(crate) name: &'static str,
    /// Whether the type's decoder checks it.
    pub(crate) is_read: bool,
}

impl Part {
    /// Returns a place that the type's decoder checks.
    pub(crate) fn read(role: Role, name: &'static str) -> Part {
        Part {
            role,
            name,
            is_read: true,
        }
    }

    /// Returns a place that is shown with names, and that the type's decoder doesn't check.
    pub(crate) fn named(role: Role, name: &'static str) -> Part {
        Part {
            role,
            name,
            is_read: false,
        }
    }
}

/// Returns the role of the content of a tag (RFC 8152, table 1; RFC 9338, section 3.1; RFC 8392,
/// section 6).
pub(crate) fn under_tag(role: Role, number: u64) -> Role {
    if role == Role::Plain {
        return Role::Plain;
    }
    let claims = role == Role::Token || matches!(role, Role::Message(_, true));
    match number {
        1 => Role::Time,
        16 => Role::Message(Message::Encrypt0, claims),
        17 => Role::Message(Message::Mac0, claims),
        18 => Role::Message(Message::Sign1, claims),
        19 => Role::Signature,
        24 => Role::Encoded,
        61 => Role::Token,
        96 => Role::Message(Message::Encrypt, claims),
        97 => Role::Message(Message::Mac, claims),
        98 => Role::Message(Message::Sign, claims),
        _ => Role::Any,
    }
}

/// Returns the place of a message at this index, counted from 0.
fn message_place(message: Message, claims: bool, index: u64) -> Part {
    match (index, message) {
        (0, _) => Part::read(Role::Protected, "protected"),
        (1, _) => Part::read(Role::Header(Bucket::Unprotected), "unprotected"),
        (2, Message::Encrypt0 | Message::Encrypt) => Part::read(Role::MaybeBytes, "ciphertext"),
        (2, _) => Part::read(Role::Payload(claims), "payload"),
        (3, Message::Sign1) => Part::read(Role::Bytes, "signature"),
        (3, Message::Sign) => Part::read(Role::Signatures, "signatures"),
        (3, Message::Mac0 | Message::Mac) => Part::read(Role::Bytes, "tag"),
        (3, Message::Encrypt) | (4, Message::Mac) => Part::read(Role::Recipients, "recipients"),
        _ => Part::named(Role::Any, ""),
    }
}

/// Returns the place of a key derivation's context at this index, counted from 0.
fn context_place(index: u64) -> Part {
    match index {
        0 => Part::read(Role::Algorithm, "AlgorithmID"),
        1 => Part::read(Role::Party, "PartyUInfo"),
        2 => Part::read(Role::Party, "PartyVInfo"),
        3 => Part::read(Role::PublicInformation, "SuppPubInfo"),
        _ => Part::read(Role::Bytes, "SuppPrivInfo"),
    }
}

/// Returns the place of an array with this role at this index, counted from 0.
pub(crate) fn place(role: Role, index: u64) -> Part {
    match (role, index) {
        (Role::Message(message, claims), _) => message_place(message, claims, index),
        (Role::Context, _) => context_place(index),
        (Role::Signature | Role::Recipient, 0) => Part::read(Role::Protected, "protected"),
        (Role::Signature, 1) => Part::read(Role::Header(Bucket::Unprotected), "unprotected"),
        (Role::Recipient, 1) => Part::read(Role::Header(Bucket::OfRecipient), "unprotected"),
        (Role::Signature, 2) => Part::read(Role::Bytes, "signature"),
        (Role::Recipient, 2) => Part::read(Role::MaybeBytes, "ciphertext"),
        (Role::Recipient, 3) => Part::read(Role::Recipients, "recipients"),
        (Role::Party, 0) => Part::read(Role::MaybeBytes, "identity"),
        (Role::Party, 1) => Part::read(Role::Nonce, "nonce"),
        (Role::Party, 2) => Part::read(Role::MaybeBytes, "other"),
        (Role::PublicInformation, 0) => Part::read(Role::Length, "keyDataLength"),
        (Role::PublicInformation, 1) => Part::read(Role::Protected, "protected"),
        (Role::PublicInformation, 2) => Part::read(Role::Bytes, "other"),
        (Role::Signatures | Role::Countersignatures, _) => Part::read(Role::Signature, ""),
        (Role::Recipients, _) => Part::read(Role::Recipient, ""),
        (Role::Labels, _) => Part::read(Role::CriticalLabel, ""),
        (Role::Operations, _) => Part::read(Role::Operation, ""),
        (Role::KeySet, _) => Part::read(Role::Key, ""),
        (Role::Certificates, _) => Part::named(Role::Certificates, ""),
        (Role::Plain, _) => Part::named(Role::Plain, ""),
        _ => Part::named(Role::Any, ""),
    }
}

/// Returns the place of a label in a map with this role. `key_type` is the type of a key, if it is
/// known.
pub(crate) fn label_of(role: Role, key_type: Option<i64>) -> Part {
    match role {
        Role::Header(_) => Part::read(Role::HeaderLabel, ""),
        Role::Key => Part::read(Role::KeyLabel(key_type), ""),
        Role::Claims => Part::read(Role::ClaimName, ""),
        Role::Confirmation => Part::named(Role::ConfirmationLabel, ""),
        Role::Plain => Part::named(Role::Plain, ""),
        _ => Part::named(Role::Any, ""),
    }
}

/// Returns the place of the value under a header's label.
fn header_value(label: i64) -> Part {
    match label {
        1 => Part::read(Role::Algorithm, ""),
        2 => Part::read(Role::Labels, ""),
        3 => Part::read(Role::ContentFormat, ""),
        4..=6 => Part::read(Role::FilledBytes, ""),
        7 | 11 => Part::read(Role::Countersignatures, ""),
        12 => Part::read(Role::Bytes, ""),
        13 => Part::named(Role::Token, ""),
        14 | 15 => Part::named(Role::Claims, ""),
        32 | 33 => Part::named(Role::Certificates, ""),
        -1 | -2 => Part::named(Role::Key, ""),
        _ => Part::named(Role::Any, ""),
    }
}

/// Returns the place of the value under a key's label.
fn key_value(label: i64, key_type: Option<i64>) -> Part {
    match label {
        1 => Part::read(Role::KeyType, ""),
        2 | 5 => Part::read(Role::FilledBytes, ""),
        3 => Part::read(Role::Algorithm, ""),
        4 => Part::read(Role::Operations, ""),
        -1 if matches!(key_type, Some(1 | 2)) => Part::named(Role::Curve, ""),
        _ => Part::named(Role::Any, ""),
    }
}

/// Returns the place of the value under a claim's name.
fn claim_value(name: i64) -> Part {
    match name {
        1..=3 => Part::read(Role::Text, ""),
        4 => Part::read(Role::Expiry, ""),
        5 => Part::read(Role::Start, ""),
        6 => Part::read(Role::Time, ""),
        7 => Part::read(Role::Bytes, ""),
        8 => Part::named(Role::Confirmation, ""),
        266 => Part::named(Role::Submodules, ""),
        _ => Part::named(Role::Any, ""),
    }
}

/// Returns the place of a value in a map with this role. `label` is `None` if the label is no
/// integer, and `word` is what it is as a text.
pub(crate) fn value_of(role: Role, label: Option<i64>, word: &[u8], key_type: Option<i64>) -> Part {
    match (role, label) {
        (Role::Submodules, _) => Part::named(Role::Submodule, ""),
        (Role::Plain, _) => Part::named(Role::Plain, ""),
        (Role::Any, None) => word_value(word),
        (Role::Header(_), Some(label)) => header_value(label),
        (Role::Key, Some(label)) => key_value(label, key_type),
        (Role::Claims, Some(label)) => claim_value(label),
        (Role::Confirmation, Some(1)) => Part::named(Role::Key, ""),
        _ => Part::named(Role::Any, ""),
    }
}

/// Returns the standard's name for an array or a map with this role. It may be empty.
pub(crate) fn title(role: Role) -> &'static str {
    match role {
        Role::Message(Message::Sign1, _) => "COSE_Sign1",
        Role::Message(Message::Sign, _) => "COSE_Sign",
        Role::Message(Message::Mac0, _) => "COSE_Mac0",
        Role::Message(Message::Mac, _) => "COSE_Mac",
        Role::Message(Message::Encrypt0, _) => "COSE_Encrypt0",
        Role::Message(Message::Encrypt, _) => "COSE_Encrypt",
        Role::Signature => "COSE_Signature",
        Role::Recipient => "COSE_recipient",
        Role::Key => "COSE_Key",
        Role::KeySet => "COSE_KeySet",
        Role::Claims => "claims",
        Role::Context => "COSE_KDF_Context",
        _ => "",
    }
}

/// Returns the name that a number with this role has in its registry.
pub(crate) fn name_of(role: Role, number: i64) -> Option<&'static str> {
    match role {
        Role::HeaderLabel | Role::CriticalLabel => names::header_label(number),
        Role::KeyLabel(key_type) => names::key_label(key_type, number),
        Role::ClaimName => names::registered::<CwtClaimName>(number),
        Role::ConfirmationLabel => confirmation(number),
        Role::Algorithm => names::registered::<Algorithm>(number),
        Role::ContentFormat => names::registered::<CoapContentFormat>(number),
        Role::KeyType => names::registered::<KeyType>(number),
        Role::Operation => names::registered::<KeyOperation>(number),
        Role::Curve => names::registered::<EllipticCurve>(number),
        _ => None,
    }
}

/// Returns the name of an element of the claim `cnf` (RFC 8747, section 3.1).
fn confirmation(number: i64) -> Option<&'static str> {
    match number {
        1 => Some("COSE_Key"),
        2 => Some("Encrypted_COSE_Key"),
        3 => Some("kid"),
        _ => None,
    }
}

/// Returns true if numbers with this role have names in a registry.
pub(crate) fn is_registered(role: Role) -> bool {
    matches!(
        role,
        Role::HeaderLabel
            | Role::CriticalLabel
            | Role::KeyLabel(Some(_))
            | Role::ClaimName
            | Role::Algorithm
            | Role::ContentFormat
            | Role::KeyType
            | Role::Operation
            | Role::Curve
    )
}

/// Returns true if a number with this role is for private use.
pub(crate) fn is_private(role: Role, number: i64) -> bool {
    match role {
        Role::HeaderLabel | Role::CriticalLabel => HeaderParameter::is_private(number),
        Role::ClaimName => CwtClaimName::is_private(number),
        Role::Algorithm => Algorithm::is_private(number),
        Role::Curve => EllipticCurve::is_private(number),
        _ => false,
    }
}
