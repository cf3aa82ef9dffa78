//! The kinds that input can have.

use crate::explain::head::tag;
use crate::explain::role::{Message, Role};
use coset::cbor::head::read_head;
use coset::cbor::value::Value;
use coset::cwt::ClaimsSet;
use coset::{
    CborSerializable, CoseCountersignature, CoseEncrypt, CoseEncrypt0, CoseError, CoseKdfContext,
    CoseKey, CoseKeySet, CoseMac, CoseMac0, CoseSign, CoseSign1, TaggedCborSerializable,
};

/// The kind that bytes should have.
#[derive(Clone, Copy, Debug, Default, PartialEq, Eq)]
pub enum Kind {
    /// Chosen by the tag: a message, a countersignature, or under tag 61 a web token (RFC 8392,
    /// section 6). Without such a tag, a CBOR item.
    #[default]
    Auto,
    /// A web token with claims as its payload (RFC 8392, section 7). The tag chooses the message,
    /// with or without tag 61. Without a message's tag, it is a CBOR item. `refusal` doesn't judge
    /// the payload.
    Cwt,
    /// A CBOR item (RFC 8949, section 3).
    Value,
    /// A message with one signature (RFC 8152, section 4.2).
    Sign1,
    /// A message with any number of signatures (RFC 8152, section 4.1).
    Sign,
    /// A message with a MAC and recipients (RFC 8152, section 6.1).
    Mac,
    /// A message with a MAC, for receivers that know the key (RFC 8152, section 6.2).
    Mac0,
    /// An encrypted message with recipients (RFC 8152, section 5.1).
    Encrypt,
    /// An encrypted message, for receivers that know the key (RFC 8152, section 5.2).
    Encrypt0,
    /// A countersignature of version 2.
    Countersignature,
    /// A key (RFC 8152, section 7).
    Key,
    /// A set of keys (RFC 8152, section 7).
    Keyset,
    /// The claims of a web token (RFC 8392, section 3).
    Claims,
    /// The context of a key derivation (RFC 8152, section 11.2).
    Kdf,
}

/// Returns the content of a tag of this number at the front, or other bytes as they are.
fn without_tag(number: u64, bytes: &[u8]) -> &[u8] {
    match read_head(bytes) {
        Ok((head, rest)) if tag(&head) == Some(number) => rest,
        _ => bytes,
    }
}

impl Kind {
    /// All kinds, as the page numbers them.
    pub const ALL: [Kind; 14] = [
        Kind::Auto,
        Kind::Cwt,
        Kind::Value,
        Kind::Sign1,
        Kind::Sign,
        Kind::Mac,
        Kind::Mac0,
        Kind::Encrypt,
        Kind::Encrypt0,
        Kind::Countersignature,
        Kind::Key,
        Kind::Keyset,
        Kind::Claims,
        Kind::Kdf,
    ];

    /// Returns the kind of that name.
    pub fn of(name: &str) -> Option<Kind> {
        Kind::ALL.into_iter().find(|kind| kind.name() == name)
    }

    /// Returns the name of the kind.
    pub fn name(self) -> &'static str {
        match self {
            Kind::Auto => "auto",
            Kind::Cwt => "cwt",
            Kind::Value => "value",
            Kind::Sign1 => "sign1",
            Kind::Sign => "sign",
            Kind::Mac => "mac",
            Kind::Mac0 => "mac0",
            Kind::Encrypt => "encrypt",
            Kind::Encrypt0 => "encrypt0",
            Kind::Countersignature => "countersignature",
            Kind::Key => "key",
            Kind::Keyset => "keyset",
            Kind::Claims => "claims",
            Kind::Kdf => "kdf",
        }
    }

    /// Returns the kind of the tag at the front (RFC 8152, table 1; RFC 9338, section 3.1).
    fn by_tag(bytes: &[u8]) -> Kind {
        let Ok((head, _)) = read_head(bytes) else {
            return Kind::Value;
        };
        match tag(&head) {
            Some(16) => Kind::Encrypt0,
            Some(17) => Kind::Mac0,
            Some(18) => Kind::Sign1,
            Some(19) => Kind::Countersignature,
            Some(96) => Kind::Encrypt,
            Some(97) => Kind::Mac,
            Some(98) => Kind::Sign,
            _ => Kind::Value,
        }
    }

    /// Returns the role of the whole input.
    pub(crate) fn role(self) -> Role {
        match self {
            Kind::Auto => Role::Any,
            Kind::Cwt => Role::Token,
            Kind::Value => Role::Plain,
            Kind::Sign1 => Role::Message(Message::Sign1, false),
            Kind::Sign => Role::Message(Message::Sign, false),
            Kind::Mac => Role::Message(Message::Mac, false),
            Kind::Mac0 => Role::Message(Message::Mac0, false),
            Kind::Encrypt => Role::Message(Message::Encrypt, false),
            Kind::Encrypt0 => Role::Message(Message::Encrypt0, false),
            Kind::Countersignature => Role::Signature,
            Kind::Key => Role::Key,
            Kind::Keyset => Role::KeySet,
            Kind::Claims => Role::Claims,
            Kind::Kdf => Role::Context,
        }
    }

    /// Returns the kind by name, and the bytes that should be of it. `Auto` and `Cwt` become the
    /// kind of the tag, after tag 61 is removed.
    pub(crate) fn named(self, bytes: &[u8]) -> (Kind, &[u8]) {
        match self {
            Kind::Auto | Kind::Cwt => {
                let inner = without_tag(61, bytes);
                (Kind::by_tag(inner), inner)
            }
            _ => (self, bytes),
        }
    }

    /// Returns why the bytes aren't of the kind, or `None` if they are. The reason is the error of
    /// the library's decoder.
    pub fn refusal(self, bytes: &[u8]) -> Option<CoseError> {
        let (kind, bytes) = self.named(bytes);
        match kind {
            Kind::Auto | Kind::Cwt | Kind::Value => Value::from_slice(bytes).err(),
            Kind::Sign1 => CoseSign1::from_any_slice(bytes).err(),
            Kind::Sign => CoseSign::from_any_slice(bytes).err(),
            Kind::Mac => CoseMac::from_any_slice(bytes).err(),
            Kind::Mac0 => CoseMac0::from_any_slice(bytes).err(),
            Kind::Encrypt => CoseEncrypt::from_any_slice(bytes).err(),
            Kind::Encrypt0 => CoseEncrypt0::from_any_slice(bytes).err(),
            Kind::Countersignature => CoseCountersignature::from_any_slice(bytes).err(),
            Kind::Key => CoseKey::from_slice(bytes).err(),
            Kind::Keyset => CoseKeySet::from_slice(bytes).err(),
            Kind::Claims => ClaimsSet::from_slice(bytes).err(),
            Kind::Kdf => CoseKdfContext::from_slice(bytes).err(),
        }
    }
}
