//! The parts of messages that signatures, MACs and ciphertexts cover (RFC 8152, sections 4.4, 5.3
//! and 6.3).

use crate::explain::frame::{Container, Frame};
use crate::explain::role::{Message, Role};

/// How a signature, a MAC or a ciphertext covers a part of the input.
#[derive(Clone, Copy, Debug, PartialEq, Eq)]
pub enum Cover {
    /// Not at all, or in no known way.
    Plain,
    /// A signature covers the part.
    Signed,
    /// The part is a header of a message or a signature, or a payload, and no signature covers it.
    NotSigned,
    /// A MAC covers the part.
    Authenticated,
    /// The part is authenticated together with a ciphertext.
    Associated,
    /// The part is a header, and neither a MAC nor a ciphertext covers it.
    NotAuthenticated,
    /// The part is the signature, the MAC, or the ciphertext.
    Seal,
    /// The part was refused.
    Refused,
}

impl Cover {
    /// Returns the cover in words. `Plain` has none, and neither has `Seal`, because the part's
    /// name in the standard says it.
    pub fn text(self) -> &'static str {
        match self {
            Cover::Plain | Cover::Seal => "",
            Cover::Signed => "covered by the signature",
            Cover::Authenticated => "covered by the MAC",
            Cover::Associated => "covered by the ciphertext",
            Cover::NotSigned | Cover::NotAuthenticated => "not covered",
            Cover::Refused => "refused",
        }
    }
}

/// Returns the cover of the next element of a message, a signature or a recipient. Its place
/// decides: protected header, unprotected header, payload or ciphertext, signature or MAC. Returns
/// `None` for other items.
pub(crate) fn of_element(frame: &Frame) -> Option<Cover> {
    if frame.container != Container::Array {
        return None;
    }
    match (frame.role, frame.index) {
        (Role::Message(Message::Sign, _), 0..=2) if frame.is_unsigned => Some(Cover::NotSigned),
        (Role::Message(Message::Sign1 | Message::Sign, _), 0 | 2) | (Role::Signature, 0) => {
            Some(Cover::Signed)
        }
        (Role::Message(Message::Sign1 | Message::Sign, _) | Role::Signature, 1) => {
            Some(Cover::NotSigned)
        }
        (Role::Message(Message::Mac0 | Message::Mac, _), 0 | 2) => Some(Cover::Authenticated),
        (Role::Message(Message::Encrypt0 | Message::Encrypt, _), 0) => Some(Cover::Associated),
        (Role::Message(_, _) | Role::Recipient, 1) => Some(Cover::NotAuthenticated),
        (Role::Message(Message::Encrypt0 | Message::Encrypt, _) | Role::Recipient, 2) => {
            Some(Cover::Seal)
        }
        (Role::Message(Message::Sign1 | Message::Mac0 | Message::Mac, _), 3)
        | (Role::Signature, 2) => Some(Cover::Seal),
        _ => None,
    }
}

/// Returns the cover of the next item: that of its place, otherwise that of the frame.
pub(crate) fn of_next(frame: &Frame) -> Cover {
    of_element(frame).unwrap_or(frame.cover)
}
