//! The frames that items with parts open, and the text that opens them in diagnostic notation.

use crate::explain::frame::{Container, Frame, Standing, begins_break};
use crate::explain::guess::has_registered_claim;
use crate::explain::head::{argument, is_whole_bytes, tag};
use crate::explain::kind::Kind;
use crate::explain::role::{Message, Part, Role, under_tag};
use crate::explain::text::{told_width, width_mark};
use crate::explain::walk::Item;
use coset::CoseError;
use coset::cbor::de::Pull;
use coset::cbor::head::{Head, MajorType, read_head};
use coset::cbor::value::Integer;

/// Refines the part that an item is. Countersignatures that begin with a byte string are a single
/// one. A submodule that is a map is claims.
pub(crate) fn opened_part(part: Part, item: &Item) -> Part {
    let is_one = item.head.major_type == MajorType::Array
        && item.head.number() != Some(0)
        && item.rest.first().is_some_and(|first| first / 32 == 2);
    let role = match part.role {
        Role::Countersignatures if is_one => Role::Signature,
        Role::Submodule if item.head.major_type == MajorType::Map => Role::Claims,
        role => role,
    };
    Part { role, ..part }
}

/// Returns the type of the key at the front of the bytes, if it is an integer (RFC 8152, section
/// 7.1).
fn key_type_of(bytes: &[u8]) -> Option<i64> {
    let (pull, _) = Pull::new(bytes).ok()?;
    let is_type = |label: &Pull| label.integer() == Some(Integer::from(1u8));
    let (_, value) = pull.pairs()?.find(|(label, _)| is_type(label))?;
    i64::try_from(value.integer()?).ok()
}

/// Returns true if a message with a list of signatures is at the front of the bytes, and the list
/// is empty. Returns `None` if it has no list.
fn has_no_signatures(bytes: &[u8]) -> Option<bool> {
    let (message, _) = Pull::new(bytes).ok()?;
    let mut signatures = message.items()?.nth(3)?.items()?;
    Some(signatures.next().is_none())
}

/// Returns the frame of an array. For a message with a list of signatures, it says whether the list
/// is empty.
fn opened_array<'a>(frame: Frame<'a>, bytes: &[u8]) -> Frame<'a> {
    let is_list = matches!(frame.role, Role::Message(Message::Sign, _));
    frame.with_signatures(is_list && has_no_signatures(bytes) == Some(true))
}

/// Returns the frame of a map. For a key, it has the key's type before the label of the type comes.
fn opened_map<'a>(frame: Frame<'a>, bytes: &[u8]) -> Frame<'a> {
    let is_key = frame.role == Role::Key;
    frame.with_key_type(if is_key { key_type_of(bytes) } else { None })
}

/// Returns the frame that the item opens, or `None` if it has no parts to show.
///
/// The content of a protected byte string is opened if it is one item. It is also opened if it has
/// the fault that is searched for, which `is_sought` says. The content of another byte string is
/// opened if it is a message or claims. The frame's `layers` and `openings` limit how deep this
/// goes.
pub(crate) fn opening<'a>(
    frame: &Frame<'a>,
    part: Part,
    item: &Item<'a>,
    is_sought: bool,
) -> Option<Frame<'a>> {
    let (head, count, part) = (&item.head, item.head.number(), opened_part(part, item));
    let nested = |container, part, left| frame.nested(container, part, left, item.rest.len());
    match head.major_type {
        MajorType::Bytes if is_whole_bytes(head) => embedding(frame, part, item, is_sought),
        MajorType::Array if count != Some(0) => Some(opened_array(
            nested(Container::Array, part, count),
            item.bytes,
        )),
        MajorType::Map if count != Some(0) => {
            let items = count.map(|pairs| pairs * 2);
            Some(opened_map(nested(Container::Map, part, items), item.bytes))
        }
        MajorType::Tag => {
            let role = under_tag(part.role, argument(head));
            let part = Part {
                role,
                name: "",
                ..part
            };
            Some(nested(Container::Tag, part, Some(1)))
        }
        MajorType::Bytes | MajorType::Text if count.is_none() && !begins_break(item.rest) => {
            Some(nested(
                Container::Chunks(head.major_type),
                Part::named(Role::Plain, ""),
                None,
            ))
        }
        _ => None,
    }
}

/// Returns the frame of a byte string's content, if it is shown: a protected header, a message, or
/// claims.
fn embedding<'a>(
    frame: &Frame<'a>,
    part: Part,
    item: &Item<'a>,
    is_sought: bool,
) -> Option<Frame<'a>> {
    let (content, width) = (item.content(), told_width(&item.head));
    let behind = item.rest.len() - content.len();
    if part.role == Role::Protected {
        let is_shown = 0 < frame.layers && (is_sought || is_item(content));
        return is_shown.then(|| frame.protected(part.is_read, behind, width));
    }
    let role = held(part.role, content).filter(|_| frame.openings != 0)?;
    Some(frame.held(role, behind, width))
}

/// Returns the role of the content of a byte string with this role, if it is a message, a token,
/// claims, or encoded CBOR.
fn held(role: Role, content: &[u8]) -> Option<Role> {
    let is_token = matches!(role, Role::Payload(true) | Role::Submodule);
    match role {
        Role::Plain => None,
        Role::Encoded => is_item(content).then_some(Role::Any),
        _ if begins_with_message(content) => {
            let role = if is_token { Role::Token } else { Role::Any };
            is_of(Kind::Auto, content).then_some(role)
        }
        Role::Payload(_) if tag_at_front(content) == Some(24) => {
            is_item(content).then_some(Role::Any)
        }
        Role::Payload(true) => is_item(content).then_some(Role::Claims),
        Role::Payload(false) | Role::Submodule => holds_claims(content).then_some(Role::Claims),
        _ => None,
    }
}

/// Returns the number of the tag at the front of the bytes.
fn tag_at_front(bytes: &[u8]) -> Option<u64> {
    read_head(bytes).ok().and_then(|(head, _)| tag(&head))
}

/// Returns true if the tag of a message or a token is at the front (RFC 8152, table 1; RFC 8392,
/// section 6).
fn begins_with_message(bytes: &[u8]) -> bool {
    matches!(tag_at_front(bytes), Some(16 | 17 | 18 | 61 | 96 | 97 | 98))
}

/// Returns true if the library reads the bytes as this kind.
fn is_of(kind: Kind, bytes: &[u8]) -> bool {
    kind.refusal(bytes).is_none()
}

/// Returns true if the bytes are a map with a registered claim, and are read as claims or refused
/// for a name that isn't registered.
fn holds_claims(bytes: &[u8]) -> bool {
    has_registered_claim(bytes)
        && matches!(
            Kind::Claims.refusal(bytes),
            None | Some(CoseError::UnregisteredIanaNonPrivateValue)
        )
}

/// Returns why a payload isn't read as claims, or `None` if it is, or if it doesn't look like
/// claims. `must` says whether it must be claims.
fn payload_refusal(must: bool, content: &[u8]) -> Option<CoseError> {
    if begins_with_message(content) && (!must || is_of(Kind::Auto, content)) {
        return None;
    }
    if !must && (!has_registered_claim(content) || is_of(Kind::Key, content)) {
        return None;
    }
    Kind::Claims.refusal(content)
}

/// Returns why the item isn't read as claims, if it is a payload or a map that looks like claims.
/// Returns `None` for another item, and for claims that are read.
pub(crate) fn claims_refusal(frame: &Frame, part: &Part, item: &Item) -> Option<CoseError> {
    match (part.role, item.head.major_type) {
        (Role::Payload(must), _) if is_whole_bytes(&item.head) => {
            payload_refusal(must, item.content())
        }
        (Role::Claims, MajorType::Map) if frame.standing != Standing::Unread => {
            let (claims, _) = Pull::new(item.bytes).ok()?;
            Kind::Claims.refusal(claims.slice())
        }
        _ => None,
    }
}

/// Returns true if the bytes are one CBOR item.
fn is_item(bytes: &[u8]) -> bool {
    matches!(Pull::new(bytes), Ok((_, [])))
}

/// Returns the text that opens an item with parts in diagnostic notation.
pub(crate) fn opening_text(opened: &Frame, head: &Head) -> String {
    let mark = if head.is_indefinite() {
        "_"
    } else {
        width_mark(told_width(head))
    };
    match opened.container {
        Container::Tag => format!("{}{mark}(", argument(head)),
        Container::Embedded => "<<".into(),
        Container::Chunks(_) => "(_".into(),
        Container::Array => format!("[{mark}"),
        Container::Map | Container::Input => format!("{{{mark}"),
    }
}
