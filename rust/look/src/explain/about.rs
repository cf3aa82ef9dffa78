//! The facts that a summary tells, as the walk finds them.

use crate::explain::frame::{Container, Frame, Standing};
use crate::explain::head::{is_chunked_bytes, tag};
use crate::explain::moment::{is_early, is_over, moment};
use crate::explain::role::{Message, Role, title};
use coset::CoseError;
use coset::cbor::head::{Head, MajorType};
use coset::cwt::Timestamp;

/// The most messages and claims inside that are named.
const NAMED: usize = 6;

/// The least bytes of authenticator data (W3C WebAuthn, section 6.1).
const AUTH_DATA: u64 = 37;

/// The numbers of the parts that have to be checked with a key.
#[derive(Clone, Copy, Debug, Default)]
pub(crate) struct Seals {
    pub(crate) signatures: usize,
    pub(crate) countersignatures: usize,
    pub(crate) macs: usize,
    pub(crate) ciphertexts: usize,
    /// The messages with a list of signatures, and those of them that have any.
    pub(crate) lists: usize,
    pub(crate) filled_lists: usize,
}

/// The facts that a summary tells.
#[derive(Default)]
pub(crate) struct About {
    /// The tags before the first item that is no tag.
    pub(crate) tags: Vec<u64>,
    /// The role of that item, and its major type.
    pub(crate) item: Option<(Role, MajorType)>,
    /// The name of the format of which the item is, by the labels of its maps.
    pub(crate) format: Option<&'static str>,
    /// Whether a label says that an array of documents was seen.
    has_documents: bool,
    /// The messages and claims inside it, by name and in order, but no more than [`NAMED`].
    pub(crate) inside: Vec<&'static str>,
    pub(crate) seals: Seals,
    /// Whether a payload or a ciphertext is detached.
    pub(crate) is_detached: bool,
    /// Whether a payload or a protected header is in chunks, which aren't opened.
    pub(crate) is_chunked: bool,
    /// The claims of which the times are below: the number of input bytes after the map's head.
    claims: Option<usize>,
    /// Whether these are claims of a header.
    is_of_header: bool,
    pub(crate) expiry: Option<Timestamp>,
    pub(crate) start: Option<Timestamp>,
    pub(crate) issued: Option<Timestamp>,
    /// Whether other claims have expired.
    pub(crate) others_expired: bool,
    /// Whether other claims aren't valid yet.
    pub(crate) others_early: bool,
    /// Why the payload isn't read as claims, if it should be.
    pub(crate) unread: Option<String>,
    /// Why other claims aren't read, if there are such.
    pub(crate) others_unread: Option<String>,
}

impl About {
    /// Takes the facts of the next item of the frame, which has this role and this head.
    pub(crate) fn see(&mut self, frame: &Frame, role: Role, head: &Head, now: Option<i64>) {
        if self.item.is_some() {
            self.see_inside(frame, role, head);
        } else if let Some(number) = tag(head) {
            self.tags.push(number);
            return;
        } else {
            self.item = Some((role, head.major_type));
        }
        self.see_word(frame, head);
        self.see_seal(frame, role, head);
        self.see_chunks(role, head);
        if frame.role == Role::Claims && frame.is_at_value() {
            self.see_time(frame, role, head, now);
        }
    }

    /// Takes the name of a message or claims inside the input's item.
    fn see_inside(&mut self, frame: &Frame, role: Role, head: &Head) {
        if self.inside.len() >= NAMED {
            return;
        }
        let name = match (role, head.major_type) {
            (Role::Claims, MajorType::Map) if matches!(frame.role, Role::Header(_)) => {
                "claims in a header"
            }
            (Role::Claims, MajorType::Map) if frame.role != Role::Submodules => title(role),
            (Role::Message(_, _), MajorType::Array) => title(role),
            _ => return,
        };
        self.inside.push(name);
    }

    /// Takes the format that the label of the next value tells.
    fn see_word(&mut self, frame: &Frame, head: &Head) {
        if !frame.is_at_value() || frame.role != Role::Any {
            return;
        }
        let count = head.number().unwrap_or(0);
        let format = match (frame.word, head.major_type) {
            (b"documents", MajorType::Array) => {
                self.has_documents = true;
                return;
            }
            (b"authData", MajorType::Bytes) if AUTH_DATA <= count => "WebAuthn attestation object",
            (b"issuerAuth", MajorType::Array) if count != 4 => return,
            (b"issuerAuth", MajorType::Array) if self.has_documents => "mdoc DeviceResponse",
            (b"issuerAuth", MajorType::Array) => "mdoc IssuerSigned",
            (b"valueDigests", MajorType::Map) => "mdoc MobileSecurityObject",
            _ => return,
        };
        let is_outer = matches!(self.item, Some((Role::Any, MajorType::Map)));
        if is_outer && self.format.is_none() {
            self.format = Some(format);
        } else if frame.word == b"valueDigests" && self.inside.len() < NAMED {
            self.inside.push("a MobileSecurityObject");
        }
    }

    /// Counts a signature, a MAC or a ciphertext.
    fn see_seal(&mut self, frame: &Frame, role: Role, head: &Head) {
        let seals = &mut self.seals;
        let is_signature = role == Role::Signature && head.major_type == MajorType::Array;
        if is_signature && frame.role == Role::Signatures {
            seals.signatures += 1;
            seals.filled_lists += usize::from(frame.index == 0);
        } else if is_signature {
            seals.countersignatures += 1;
        }
        if matches!(frame.role, Role::Header(_)) && matches!(frame.value_label(), Some(9 | 12)) {
            seals.countersignatures += 1;
        }
        if frame.container != Container::Array {
            return;
        }
        match (frame.role, frame.index) {
            (Role::Message(Message::Sign1, _), 3) => seals.signatures += 1,
            (Role::Message(Message::Sign, _), 3) => seals.lists += 1,
            (Role::Message(Message::Mac0 | Message::Mac, _), 3) => seals.macs += 1,
            (Role::Message(Message::Encrypt0 | Message::Encrypt, _), 2) => seals.ciphertexts += 1,
            _ => {}
        }
        let is_content = matches!((frame.role, frame.index), (Role::Message(..), 2));
        self.is_detached |= is_content && head.is_null();
    }

    /// Takes whether a payload or a protected header is in chunks.
    fn see_chunks(&mut self, role: Role, head: &Head) {
        let is_opened = matches!(role, Role::Payload(_) | Role::Protected);
        self.is_chunked |= is_opened && is_chunked_bytes(head);
    }

    /// Takes why a payload or other claims aren't read. Their times, and those of headers around
    /// them, say nothing then. Claims that anyone can add don't count.
    pub(crate) fn see_unread(&mut self, frame: &Frame, role: Role, error: &CoseError) {
        match (frame.standing, role) {
            (Standing::Added | Standing::Unread, _) => {}
            (Standing::Own, Role::Payload(_)) => self.unread = Some(error.to_string()),
            _ => self.others_unread = Some(error.to_string()),
        }
    }

    /// Takes a time of claims. The first claims with a time give the times of the summary, but
    /// those of a payload precede those of a header. Times that anyone can add don't count.
    fn see_time(&mut self, frame: &Frame, role: Role, head: &Head, now: Option<i64>) {
        let is_added = matches!(frame.standing, Standing::Added | Standing::Unread);
        if is_added || !matches!(role, Role::Expiry | Role::Start | Role::Time) {
            return;
        }
        let Some(timestamp) = moment(head) else {
            return;
        };
        if self.is_of_header && frame.standing == Standing::Own {
            self.replace_times(now);
            self.claims = None;
        }
        if self.claims.is_none() {
            self.claims = Some(frame.id);
            self.is_of_header = frame.standing == Standing::Header;
        }
        let is_first = self.claims == Some(frame.id);
        match role {
            Role::Expiry if is_first => self.expiry = Some(timestamp),
            Role::Start if is_first => self.start = Some(timestamp),
            Role::Time if is_first => self.issued = Some(timestamp),
            Role::Expiry => self.others_expired |= is_over(&timestamp, now),
            Role::Start => self.others_early |= is_early(&timestamp, now),
            _ => {}
        }
    }

    /// Makes the times so far those of other claims.
    fn replace_times(&mut self, now: Option<i64>) {
        let expiry = self.expiry.take();
        self.others_expired |= expiry.is_some_and(|expiry| is_over(&expiry, now));
        let start = self.start.take();
        self.others_early |= start.is_some_and(|start| is_early(&start, now));
        self.issued = None;
    }
}
