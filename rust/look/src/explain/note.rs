//! Remarks on an item, from its head.

use crate::explain::cover::of_element;
use crate::explain::frame::Frame;
use crate::explain::head::{integer, is_chunked_bytes, is_shortest};
use crate::explain::moment::{distance, is_no_moment, moment};
use crate::explain::role::{Bucket, Part, Role, is_private, is_registered, name_of, title};
use coset::cbor::head::{Head, MajorType};
use coset::cwt::Timestamp;
use coset::iana::{Algorithm, EnumI64};

/// Adds a remark to a note, unless it is empty. The separator follows remarks that are there.
pub(crate) fn add(note: &mut String, separator: &str, remark: &str) {
    if !note.is_empty() && !remark.is_empty() {
        note.push_str(separator);
    }
    note.push_str(remark);
}

/// Returns what a time of a token says about `now` (RFC 8392, section 3.1). The text may be empty.
fn judgement(frame: &Frame, role: Role, timestamp: &Timestamp, now: i64) -> &'static str {
    let is_later = timestamp.is_after(now);
    let is_issued = role == Role::Time && frame.role == Role::Claims;
    match role {
        Role::Expiry if is_no_moment(timestamp) => "no moment, expired",
        Role::Start if is_no_moment(timestamp) => "no moment, not valid",
        _ if is_no_moment(timestamp) && is_issued => "no moment",
        _ if is_no_moment(timestamp) => "",
        Role::Expiry if !is_later => "expired",
        Role::Start if is_later => "not valid yet",
        _ if is_issued && is_later => "issued in the future",
        _ => "",
    }
}

/// Returns the date of a time of a token. With `now`, also returns how far it is from there, and
/// what it says.
fn dates(frame: &Frame, role: Role, head: &Head, now: Option<i64>) -> [String; 2] {
    let is_time = matches!(role, Role::Expiry | Role::Start | Role::Time);
    match (moment(head).filter(|_| is_time), now) {
        (Some(timestamp), Some(now)) => [
            format!("{timestamp}{}", distance(&timestamp, now)),
            judgement(frame, role, &timestamp, now).into(),
        ],
        (Some(timestamp), None) => [timestamp.to_string(), String::new()],
        (None, _) => Default::default(),
    }
}

/// Returns the registered name of a number, or that it has none. The text is empty if the role has
/// no registry.
fn name(role: Role, number: i64) -> &'static str {
    match name_of(role, number) {
        Some(name) => name,
        None if is_private(role, number) => "private use",
        None if is_registered(role) => "not registered",
        None => "",
    }
}

/// Returns true if a recipient with the algorithm of this head has an empty protected header.
///
/// The algorithms are the direct use of a key, and AES Key Wrap (RFC 8152, sections 12.1.1 and
/// 12.2.1).
fn forbids_protected(head: &Head) -> bool {
    matches!(
        integer(head).and_then(Algorithm::from_i64),
        Some(Algorithm::Direct | Algorithm::A128KW | Algorithm::A192KW | Algorithm::A256KW)
    )
}

/// Returns a remark on a value of an unprotected header, which no signature covers (RFC 8152,
/// section 3; on `alg` and `crit`, section 3.1). It may be empty.
fn unprotected(frame: &Frame, role: Role, head: &Head) -> &'static str {
    match (frame.role, role) {
        (Role::Header(Bucket::Protected), _) => "",
        (Role::Header(Bucket::OfRecipient), Role::Algorithm) if forbids_protected(head) => "",
        (Role::Header(_), Role::Algorithm) => "the algorithm isn't protected",
        (Role::Header(_), Role::Labels) => "critical labels have to be protected",
        _ => "",
    }
}

/// Returns "detached" if `nil` is in the place of the payload or the ciphertext (RFC 8152, sections
/// 4.1, 5.1 and 6.1), otherwise an empty text.
fn detached(frame: &Frame, head: &Head) -> &'static str {
    match (frame.role, frame.index) {
        (Role::Message(..), 2) if head.is_null() => "detached",
        _ => "",
    }
}

/// Returns that the item is a certificate, and its length if the head announces it.
fn certificate(head: &Head) -> String {
    match head.number() {
        Some(length) => format!("certificate, {length} bytes"),
        None => "certificate".into(),
    }
}

/// Returns the standard's name of an array or a map with this role, or a remark on a byte string.
fn titled(role: Role, head: &Head) -> String {
    match head.major_type {
        MajorType::Map if role == Role::Submodule => title(Role::Claims).into(),
        MajorType::Array | MajorType::Map => title(role).into(),
        MajorType::Bytes if role == Role::Protected && is_chunked_bytes(head) => {
            "in chunks, and not opened".into()
        }
        MajorType::Bytes if role == Role::Certificates => certificate(head),
        MajorType::Bytes if role == Role::Encoded => "encoded CBOR".into(),
        _ => String::new(),
    }
}

/// Adds all remarks on the item with this head, which is this part.
pub(crate) fn push(note: &mut String, frame: &Frame, part: &Part, head: &Head, now: Option<i64>) {
    let role = part.role;
    let [date, judgement] = dates(frame, role, head, now);
    let is_longer = !head.is_float() && !is_shortest(head);
    let remarks = [
        part.name,
        of_element(frame).map_or("", |cover| cover.text()),
        detached(frame, head),
        integer(head).map_or("", |number| name(role, number)),
        &date,
        &judgement,
        unprotected(frame, role, head),
        &titled(role, head),
        if is_longer {
            "not the shortest head"
        } else {
            ""
        },
    ];
    let remarks: Vec<&str> = remarks
        .into_iter()
        .filter(|remark| !remark.is_empty())
        .collect();
    add(
        note,
        if frame.is_at_value() { ": " } else { ", " },
        &remarks.join(", "),
    );
}
