//! The containers that are open at a position: arrays, maps, tags, strings in chunks, and byte
//! strings whose content is shown.

use crate::explain::cover::{Cover, of_next};
use crate::explain::fault::Fault;
use crate::explain::head::{argument, integer};
use crate::explain::role::{Bucket, Part, Role, label_of, place, value_of};
use crate::explain::walk::Item;
use coset::cbor::head::{Head, MajorType};

/// The most levels of arrays, maps and tags in one item.
const LEVELS: u32 = 256;

/// The most nested protected headers.
const LAYERS: u32 = 16;

/// The kind of an open container.
#[derive(Clone, Copy, Debug, PartialEq, Eq)]
pub(crate) enum Container {
    /// The whole input.
    Input,
    Array,
    Map,
    Tag,
    /// A byte string whose content is shown as an item.
    Embedded,
    /// A byte string or a text string in chunks.
    Chunks(MajorType),
}

/// Whose facts a container of the input has.
#[derive(Clone, Copy, Debug, PartialEq, Eq)]
pub(crate) enum Standing {
    /// Those of the input, or of its payload.
    Own,
    /// Those of a protected header of the message.
    Header,
    /// Those of a submodule.
    Nested,
    /// Those of an unprotected header, a signature or a recipient, which anyone can add.
    Added,
    /// Those of claims that the library doesn't read.
    Unread,
}

impl Standing {
    /// Returns whose facts a container with this role has, in a container with this standing.
    fn of(self, role: Role) -> Standing {
        match (self, role) {
            (Standing::Unread, _) => Standing::Unread,
            (
                _,
                Role::Header(Bucket::Unprotected | Bucket::OfRecipient)
                | Role::Signature
                | Role::Signatures
                | Role::Recipient
                | Role::Recipients,
            ) => Standing::Added,
            (Standing::Own, Role::Header(Bucket::Protected)) => Standing::Header,
            (Standing::Own, Role::Submodules) => Standing::Nested,
            _ => self,
        }
    }
}

/// An open container, and the position in it.
#[derive(Clone, Copy, Debug)]
pub(crate) struct Frame<'a> {
    pub(crate) container: Container,
    /// The role of the container.
    pub(crate) role: Role,
    /// Whether the type's decoder checks the container.
    is_read: bool,
    /// The number of items still to come, or `None` for an indefinite length.
    pub(crate) left: Option<u64>,
    /// The number of input bytes after the head. It distinguishes an array or a map from others.
    pub(crate) id: usize,
    /// The number of items so far. In a map, keys and values count one each.
    pub(crate) index: u64,
    /// The label of the next value, if it is an integer.
    label: Option<i64>,
    /// The label of the next value, if it is a text, or empty.
    pub(crate) word: &'a [u8],
    /// The type of the key, if the map is a key and its type is an integer.
    key_type: Option<i64>,
    /// The number of input bytes from the last key of the map on.
    pub(crate) key_left: usize,
    /// The width of a byte string's head if it is shown, otherwise 0.
    pub(crate) width: u8,
    /// The number of input bytes after the byte string that contains this container.
    pub(crate) behind: usize,
    /// The number of levels that may still nest.
    levels: u32,
    /// The number of protected headers that may still nest.
    pub(crate) layers: u32,
    /// The number of nested byte strings that may still be opened for their messages and claims.
    pub(crate) openings: u32,
    /// How a signature, a MAC or a ciphertext covers the container.
    pub(crate) cover: Cover,
    /// Whose facts the container has.
    pub(crate) standing: Standing,
    /// Whether the container is a `COSE_Sign` without signatures.
    pub(crate) is_unsigned: bool,
}

impl<'a> Frame<'a> {
    /// Returns the frame of the whole input, in which `openings` nested byte strings are opened for
    /// their content.
    pub(crate) fn input(role: Role, openings: u32) -> Frame<'a> {
        Frame {
            container: Container::Input,
            role,
            is_read: true,
            left: Some(1),
            id: 0,
            index: 0,
            label: None,
            word: &[],
            key_type: None,
            key_left: 0,
            width: 0,
            behind: 0,
            levels: LEVELS,
            layers: LAYERS,
            openings,
            cover: Cover::Plain,
            standing: Standing::Own,
            is_unsigned: false,
        }
    }

    /// Returns the frame of a container in this one that has one item.
    fn inner(&self, container: Container, part: Part) -> Frame<'a> {
        Frame {
            container,
            is_read: part.is_read,
            behind: self.behind,
            levels: self.levels,
            layers: self.layers,
            cover: of_next(self),
            standing: self.standing.of(part.role),
            ..Frame::input(part.role, self.openings)
        }
    }

    /// Returns the frame of an array, a map, a tag or a string in chunks in this one. `rest` bytes
    /// of this frame follow its head.
    pub(crate) fn nested(
        &self,
        container: Container,
        part: Part,
        left: Option<u64>,
        rest: usize,
    ) -> Frame<'a> {
        let (id, levels) = (self.behind + rest, self.levels.saturating_sub(1));
        Frame {
            left,
            id,
            levels,
            ..self.inner(container, part)
        }
    }

    /// Returns this frame of a key's map, with the type of the key.
    pub(crate) fn with_key_type(self, key_type: Option<i64>) -> Frame<'a> {
        Frame { key_type, ..self }
    }

    /// Returns this frame of a message with a list of signatures, and whether the list is empty.
    pub(crate) fn with_signatures(self, is_unsigned: bool) -> Frame<'a> {
        Frame {
            is_unsigned,
            ..self
        }
    }

    /// Returns this frame of claims that the library doesn't read.
    pub(crate) fn unread(self) -> Frame<'a> {
        Frame {
            standing: Standing::Unread,
            ..self
        }
    }

    /// Returns the frame of the content of a byte string in this one. `behind` bytes of this frame
    /// follow the byte string.
    fn embedded(&self, part: Part, behind: usize, width: u8) -> Frame<'a> {
        let behind = self.behind + behind;
        Frame {
            width,
            behind,
            levels: LEVELS,
            ..self.inner(Container::Embedded, part)
        }
    }

    /// Returns the frame of a protected header, the content of a byte string in this one.
    pub(crate) fn protected(&self, is_read: bool, behind: usize, width: u8) -> Frame<'a> {
        let part = Part {
            role: Role::Header(Bucket::Protected),
            name: "",
            is_read,
        };
        Frame {
            layers: self.layers.saturating_sub(1),
            ..self.embedded(part, behind, width)
        }
    }

    /// Returns the frame of a message or claims, the content of a byte string in this one.
    pub(crate) fn held(&self, role: Role, behind: usize, width: u8) -> Frame<'a> {
        let openings = self.openings.saturating_sub(1);
        Frame {
            openings,
            ..self.embedded(Part::named(role, ""), behind, width)
        }
    }

    /// Returns true if the next item is a key of a set of keys.
    pub(crate) fn is_key_set(&self) -> bool {
        self.role == Role::KeySet && self.container == Container::Array
    }

    /// Returns true if the next item is a key of a map.
    pub(crate) fn is_at_key(&self) -> bool {
        self.container == Container::Map && self.index % 2 == 0
    }

    /// Returns true if the next item is the value of a map's key.
    pub(crate) fn is_at_value(&self) -> bool {
        self.container == Container::Map && self.index % 2 == 1
    }

    /// Returns the label of the next item, if the item is the value of an integer label.
    pub(crate) fn value_label(&self) -> Option<i64> {
        self.label.filter(|_| self.is_at_value())
    }

    /// Returns the index of the next item. In a map, it is the index of the item's pair.
    pub(crate) fn place(&self) -> usize {
        let per_place = if self.container == Container::Map {
            2
        } else {
            1
        };
        (self.index / per_place) as usize
    }

    /// Returns the part that the next item is. The decoder checks it only if it checks this
    /// container too.
    pub(crate) fn next_part(&self) -> Part {
        let part = match self.container {
            Container::Array => place(self.role, self.index),
            Container::Map if self.is_at_key() => label_of(self.role, self.key_type),
            Container::Map => value_of(self.role, self.label, self.word, self.key_type),
            _ => Part::read(self.role, ""),
        };
        Part {
            is_read: part.is_read && self.is_read,
            ..part
        }
    }

    /// Moves past this item.
    pub(crate) fn pass(&mut self, item: &Item<'a>) {
        if self.is_at_key() {
            self.label = integer(&item.head);
            self.key_left = self.behind + item.bytes.len();
            let is_text = item.head.major_type == MajorType::Text;
            self.word = if is_text { item.content() } else { &[] };
        }
        self.index += 1;
        self.left = self.left.map(|left| left.saturating_sub(1));
    }

    /// Returns true if no item of the container is to come. `bytes` come next.
    pub(crate) fn has_ended(&self, bytes: &[u8]) -> bool {
        match self.left {
            Some(left) => left == 0,
            None => !self.is_at_value() && begins_break(bytes),
        }
    }

    /// Returns the separator after the item that was passed last. `bytes` come next.
    pub(crate) fn mark(&self, bytes: &[u8]) -> &'static str {
        if self.is_at_value() {
            ": "
        } else if self.has_ended(bytes) || bytes.is_empty() {
            ""
        } else {
            ","
        }
    }

    /// Returns the text that closes the container in diagnostic notation.
    pub(crate) fn end(&self) -> &'static str {
        match self.container {
            Container::Input => "",
            Container::Array => "]",
            Container::Map => "}",
            Container::Tag | Container::Chunks(_) => ")",
            Container::Embedded => ">>",
        }
    }

    /// Returns the fault of the next item, if it has one. The bytes before it are known to have no
    /// fault.
    pub(crate) fn fault(&self, item: &Item) -> Option<Fault> {
        let head = &item.head;
        if let Container::Chunks(major_type) = self.container {
            if head.major_type != major_type || head.is_indefinite() {
                return Some(Fault::Malformed);
            }
        }
        let room = item.rest.len() as u64;
        let is_too_deep = self.levels == 0;
        match head.major_type {
            MajorType::Unsigned | MajorType::Negative | MajorType::Tag if head.is_indefinite() => {
                Some(Fault::Malformed)
            }
            MajorType::Unsigned | MajorType::Negative => None,
            MajorType::Array | MajorType::Map | MajorType::Tag if is_too_deep => {
                Some(Fault::Levels)
            }
            MajorType::Tag => None,
            MajorType::Map => (room / 2 < argument(head)).then_some(Fault::Ends),
            _ if head.major_type != MajorType::Simple && room < argument(head) => Some(Fault::Ends),
            MajorType::Text => std::str::from_utf8(item.content())
                .is_err()
                .then_some(Fault::Malformed),
            MajorType::Bytes | MajorType::Array => None,
            MajorType::Simple => simple_fault(head),
        }
    }
}

/// Returns true if the bytes begin with the break that ends an item of indefinite length.
pub(crate) fn begins_break(bytes: &[u8]) -> bool {
    bytes.first() == Some(&0xff)
}

/// Returns the fault of a simple value, or of a break in the place of an item. A float has none.
fn simple_fault(head: &Head) -> Option<Fault> {
    match head.info {
        20..=22 | 25..=27 => None,
        24 if argument(head) < 32 => Some(Fault::Malformed),
        31 => Some(Fault::Malformed),
        _ => Some(Fault::Simple),
    }
}
