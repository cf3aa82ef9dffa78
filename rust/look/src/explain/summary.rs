//! What is known of an input, in a few short sentences.

use crate::explain::about::About;
use crate::explain::apart::Explained;
use crate::explain::cover::Cover;
use crate::explain::kind::Kind;
use crate::explain::moment::{date, distance, is_early, is_no_moment, is_over};
use crate::explain::role::{Role, title};
use coset::cbor::head::MajorType;
use coset::cwt::Timestamp;

/// The most tags that are named.
const TAGS: usize = 8;

/// The tag of a web token (RFC 8392, section 6).
const CWT: u64 = 61;

/// Returns the standard's name of an item with this role and major type.
fn item_name(role: Role, major_type: MajorType) -> &'static str {
    match (role, major_type) {
        (Role::Signature, _) => "COSE_Countersignature",
        (Role::Claims, _) => "CWT claims",
        (role, _) if !title(role).is_empty() => title(role),
        (_, MajorType::Unsigned | MajorType::Negative) => "CBOR integer",
        (_, MajorType::Bytes) => "CBOR byte string",
        (_, MajorType::Text) => "CBOR text string",
        (_, MajorType::Array) => "CBOR array",
        (_, MajorType::Map) => "CBOR map",
        (_, MajorType::Tag) => "CBOR tag",
        (_, MajorType::Simple) => "CBOR simple value or float",
    }
}

/// Returns the tags around the item.
fn tags(tags: &[u64]) -> String {
    let numbers: Vec<String> = tags.iter().take(TAGS).map(u64::to_string).collect();
    let name = if tags.len() == 1 { "tag" } else { "tags" };
    let more = if TAGS < tags.len() { " and more" } else { "" };
    format!("{name} {}{more}", numbers.join(", "))
}

/// Returns true if the item is a COSE message.
fn is_message(about: &About) -> bool {
    matches!(about.item, Some((Role::Message(..), _)))
}

/// Returns remarks on the item in brackets: its tags, that a message has none, and other kinds that
/// it could be.
fn remarks(about: &About, others: &[Kind]) -> String {
    let mut remarks = Vec::new();
    if !about.tags.is_empty() {
        remarks.push(tags(&about.tags));
    } else if is_message(about) {
        remarks.push("no tag".into());
    }
    if !others.is_empty() {
        let names: Vec<&str> = others.iter().map(|kind| title(kind.role())).collect();
        remarks.push(format!("could also be {}", names.join(" or ")));
    }
    if remarks.is_empty() {
        String::new()
    } else {
        format!(" ({})", remarks.join("; "))
    }
}

/// Returns the messages and claims inside the item.
fn inside(names: &[&str]) -> String {
    let (mut text, mut before_message) = (String::new(), " with a nested ");
    for name in names {
        if name.starts_with("COSE_") {
            text.push_str(before_message);
            before_message = " with a nested ";
        } else {
            text.push_str(" with ");
            before_message = " and a nested ";
        }
        text.push_str(name);
    }
    text
}

/// Returns the name of the item, its tags, and the messages and claims inside it.
fn item(about: &About, others: &[Kind]) -> String {
    let remarks = remarks(about, others);
    let Some((role, major_type)) = about.item else {
        return format!("Input{remarks}");
    };
    let is_token = about.tags.contains(&CWT) && is_message(about);
    let token = if is_token { "CWT: " } else { "" };
    let name = about.format.unwrap_or_else(|| item_name(role, major_type));
    format!("{token}{name}{remarks}{}", inside(&about.inside))
}

/// Returns that one or several parts, such as signatures, were not checked.
fn unchecked(count: usize, one: &str, several: &str) -> String {
    match count {
        0 => String::new(),
        1 => format!(" {one} not checked."),
        _ => format!(" {count} {several} not checked."),
    }
}

/// Returns the sentence, if it is true.
fn sentence(is_true: bool, sentence: &str) -> String {
    if is_true {
        sentence.into()
    } else {
        String::new()
    }
}

/// Returns what was not checked, because it needs a key.
fn seals(about: &About) -> String {
    let seals = &about.seals;
    let is_unsigned = seals.filled_lists < seals.lists;
    [
        sentence(about.is_detached, " Content detached."),
        sentence(is_unsigned, " No signatures: nothing is signed."),
        unchecked(seals.signatures, "Signature", "signatures"),
        unchecked(
            seals.countersignatures,
            "Countersignature",
            "countersignatures",
        ),
        unchecked(seals.macs, "MAC", "MACs"),
        sentence(0 < seals.ciphertexts, " Not decrypted."),
    ]
    .concat()
}

/// Returns a sentence about a moment. For an infinity or NaN, it says that it is none.
fn moment(words: &str, timestamp: &Timestamp, now: i64) -> String {
    match timestamp {
        Timestamp::FractionalSeconds(seconds) if is_no_moment(timestamp) => {
            format!(" {words}: no moment ({}).", seconds.to_f64())
        }
        _ => format!(" {words} {}{}.", date(timestamp), distance(timestamp, now)),
    }
}

/// Returns the claims' times, judged by `now` (RFC 8392, sections 3.1.4 to 3.1.6).
fn times(about: &About, now: i64) -> String {
    let expiry = about.expiry.as_ref().map(|expiry| {
        let words = if is_over(expiry, Some(now)) {
            "Expired"
        } else {
            "Expires"
        };
        moment(words, expiry, now)
    });
    let start = about
        .start
        .as_ref()
        .filter(|start| is_early(start, Some(now)));
    let start = start.map(|start| moment("Not valid before", start, now));
    let issued = about
        .issued
        .as_ref()
        .filter(|issued| is_early(issued, Some(now)));
    let issued = issued.map(|issued| {
        let words = if is_no_moment(issued) {
            "Issued"
        } else {
            "Issued in the future,"
        };
        moment(words, issued, now)
    });
    [expiry, start, issued].into_iter().flatten().collect()
}

/// Returns that claims weren't read, so that their times aren't judged.
fn unread(about: &About) -> String {
    let mut text = String::new();
    if let Some(error) = &about.unread {
        text +=
            &format!(" Its payload isn't read as claims ({error}), and its times aren't judged.");
    }
    if let Some(error) = &about.others_unread {
        text += &format!(" Nested claims aren't read ({error}), and their times aren't judged.");
    }
    if about.is_chunked {
        text += " Payloads and protected headers in chunks aren't opened, ";
        text += "so claims in them aren't judged.";
    }
    text
}

/// Returns what is known of claims: their times, if a payload was read as claims or needn't be, and
/// those of nested claims.
fn claims(about: &About, now: Option<i64>) -> String {
    let Some(now) = now else {
        return unread(about);
    };
    let times = if about.unread.is_none() {
        times(about, now)
    } else {
        String::new()
    };
    [
        unread(about),
        times,
        sentence(about.others_expired, " Nested claims expired."),
        sentence(about.others_early, " Nested claims not valid yet."),
    ]
    .concat()
}

impl Explained<'_> {
    /// Returns why and where the first line that was refused was refused, without other remarks on
    /// it.
    fn refusal(&self) -> Option<&str> {
        let refused = self
            .lines
            .iter()
            .find(|line| line.cover == Cover::Refused)?;
        refused.note.split("; ").next()
    }

    /// Returns a summary of the input in a few short sentences.
    ///
    /// It names the item and its tags, and the messages and claims inside it. It says that no
    /// signature or MAC was checked, and judges the claims' times by `now`. `others` are other
    /// kinds that the input could be. If the input was refused, the summary says where and why
    /// instead.
    pub fn summary(&self, others: &[Kind], now: Option<i64>) -> String {
        let about = &self.about;
        let item = item(about, others);
        if let Some(refusal) = self.refusal() {
            return format!("{item}, {refusal}.");
        }
        let is_no_token = about.tags.contains(&CWT) && !is_message(about);
        let no_token = sentence(is_no_token, " Tag 61 without a message: no web token.");
        format!(
            "{item}, well-formed.{no_token}{}{}",
            seals(about),
            claims(about, now)
        )
    }
}
