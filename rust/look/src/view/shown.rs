//! The output for an input.

use crate::explain::{
    Kind, Line, Style, annotated, commented, date, explain, explain_whole, fault, fitting,
    notation, shortened_note, structure_notes,
};
use crate::view::asked::{Asked, Form};
use crate::view::json::{Told, object};
use crate::view::page::section;
use crate::view::read::{Reading, read_bytes};
use crate::view::rows::rows;
use crate::view::sequence::{Position, items};
use coset::cwt::Timestamp;

/// The status of an input that has its kind.
pub const TAKEN: u8 = 0;

/// The status of an input that was refused.
pub const REFUSED: u8 = 1;

/// The status if a file can't be read, or an argument isn't understood.
pub const UNANSWERED: u8 = 2;

/// The output for an input.
pub struct Shown {
    /// A line for standard error: how the input was read, or where it is misspelled.
    pub said: String,
    /// The text about the bytes.
    pub text: String,
    /// The status.
    pub status: u8,
}

/// The bytes of an input, the kind by which they are shown, and the input's name.
#[derive(Clone, Copy)]
struct Input<'a> {
    bytes: &'a [u8],
    kind: Kind,
    name: &'a str,
}

/// The lines of an input, the notes under them, the summary, and the status.
#[derive(Default)]
struct Answer<'a> {
    lines: Vec<Line<'a>>,
    notes: Vec<String>,
    summary: String,
    status: u8,
}

/// Returns the kind by which the bytes are shown, and the other kinds that read them. If neither
/// `asked` nor a tag says the kind, this is the first that reads them, otherwise `Auto`.
fn kinds_of(asked: &Asked, bytes: &[u8]) -> (Kind, Vec<Kind>) {
    let begins_with_tag = bytes.first().is_some_and(|first| first / 32 == 6);
    let is_known = asked.kind != Kind::Auto || begins_with_tag;
    if is_known || Kind::Value.refusal(bytes).is_some() {
        return (asked.kind, Vec::new());
    }
    let mut kinds = fitting(bytes).into_iter();
    (kinds.next().unwrap_or(Kind::Auto), kinds.collect())
}

/// Returns one line with the offset of the fault, its path and the error, or `accepted` if there is
/// no fault.
fn fault_line(kind: Kind, bytes: &[u8]) -> (String, u8) {
    let Some(refusal) = fault(kind, bytes) else {
        return ("accepted\n".into(), TAKEN);
    };
    let place = match &refusal.place {
        Some(place) => format!("{} {}", place.offset, place.path),
        None => "? ?".into(),
    };
    (format!("{place} {}\n", refusal.error), REFUSED)
}

/// Returns the structures that are signed, authenticated, or go with the ciphertext. They are cut
/// if `asked` says so.
fn notes_of(asked: &Asked, kind: Kind, bytes: &[u8]) -> Vec<String> {
    let notes = structure_notes(kind, bytes, &asked.external_aad);
    if !asked.is_short || asked.form == Form::Json {
        return notes;
    }
    notes.iter().map(|note| shortened_note(note)).collect()
}

/// Returns the answer as an object in JSON.
fn json_of(asked: &Asked, input: Input, answer: &Answer, said: &str) -> String {
    let told = Told {
        name: input.name,
        read_as: said,
        summary: &answer.summary,
        kind: input.kind.name(),
        now: asked.now,
        status: answer.status,
    };
    let refusal = fault(input.kind, input.bytes);
    object(told, &answer.lines, &answer.notes, refusal.as_ref())
}

/// Returns the answer as a part of a page.
fn page_of(asked: &Asked, input: Input, answer: &Answer, said: &str) -> String {
    let judged = asked.now.map(|now| {
        let date = date(&Timestamp::WholeSeconds(now));
        format!(" Judged at {date}.")
    });
    let said = format!("{said}. {}{}", answer.summary, judged.unwrap_or_default());
    section(
        input.name,
        &said,
        &answer.lines,
        &answer.notes,
        asked.is_short,
    )
}

/// Returns the answer in the form that `asked` has. `said` tells how the input was read.
fn answer_text(asked: &Asked, input: Input, answer: &Answer, said: &str) -> String {
    match asked.form {
        Form::Rows => rows(said, &answer.summary, &answer.lines, &answer.notes),
        Form::Json => json_of(asked, input, answer, said),
        Form::Page => page_of(asked, input, answer, said),
        Form::Plain => notation(&answer.lines),
        Form::Annotated | Form::Where => {
            let style = Style {
                is_colored: asked.is_colored,
                is_short: asked.is_short,
            };
            annotated(&answer.lines, style) + &commented(&answer.notes)
        }
    }
}

/// Returns the answer for bytes that should be one item. Diagnostic notation alone ends before a
/// fault, and doesn't open byte strings.
fn answer_of<'a>(asked: &Asked, kind: Kind, bytes: &'a [u8], others: &[Kind]) -> Answer<'a> {
    let explained = explain_whole(kind, bytes, asked.now);
    Answer {
        summary: explained.summary(others, asked.now),
        status: if explained.error.is_some() {
            REFUSED
        } else {
            TAKEN
        },
        lines: match asked.form {
            Form::Plain => explain(kind, bytes, asked.now).lines,
            _ => explained.lines,
        },
        notes: notes_of(asked, kind, bytes),
    }
}

/// Returns the output for bytes that should be one item. `said` tells how the input was read.
fn look_at_item(asked: &Asked, bytes: &[u8], said: &str, name: &str) -> Shown {
    let (kind, others) = kinds_of(asked, bytes);
    let answer = answer_of(asked, kind, bytes, &others);
    let (text, status) = match asked.form {
        Form::Where => fault_line(kind, bytes),
        _ => (
            answer_text(asked, Input { bytes, kind, name }, &answer, said),
            answer.status,
        ),
    };
    Shown {
        said: format!("{said}. {}", answer.summary),
        text,
        status,
    }
}

/// Returns the output for a sequence of these items. A decoder of one item refuses it.
fn look_at_items(asked: &Asked, bytes: &[u8], items: &[&[u8]], said: &str, name: &str) -> Shown {
    let count = items.len();
    let summary = format!("A sequence of {count} items.");
    let mut answer = Answer {
        summary,
        status: REFUSED,
        ..Answer::default()
    };
    let mut offset = 0;
    for (index, item) in items.iter().enumerate() {
        let position = Position {
            number: index + 1,
            count,
            offset,
        };
        let (kind, others) = kinds_of(asked, item);
        let mut of_item = answer_of(asked, kind, item, &others);
        position.mark(&mut of_item.lines);
        answer.summary += &position.summary(&of_item.summary);
        answer.lines.append(&mut of_item.lines);
        answer.notes.append(&mut of_item.notes);
        offset += item.len();
    }
    let input = Input {
        bytes,
        kind: Kind::Auto,
        name,
    };
    let text = answer_text(asked, input, &answer, said);
    Shown {
        said: format!("{said}. {}", answer.summary),
        text,
        status: REFUSED,
    }
}

/// Returns the output for the bytes of an input of that name. `said` tells how the input was read.
/// A sequence is shown item by item, unless `asked` names a kind.
fn look_at(asked: &Asked, bytes: &[u8], said: &str, name: &str) -> Shown {
    let may_be_sequence = asked.kind == Kind::Auto && asked.form != Form::Where;
    let items = if may_be_sequence {
        items(bytes)
    } else {
        Vec::new()
    };
    match items.len() {
        0 | 1 => look_at_item(asked, bytes, said, name),
        _ => look_at_items(asked, bytes, &items, said, name),
    }
}

/// Returns the output for an input that spells no bytes.
fn unread(asked: &Asked, said: String, name: &str) -> Shown {
    let (now, status) = (asked.now, REFUSED);
    let told = Told {
        name,
        read_as: &said,
        summary: "",
        kind: "",
        now,
        status,
    };
    let text = match asked.form {
        Form::Page => section(name, &said, &[], &[], false),
        Form::Rows => rows(&said, "", &[], &[]),
        Form::Json => object(told, &[], &[], None),
        _ => String::new(),
    };
    Shown { said, text, status }
}

/// Returns the output for an input of that name.
///
/// The status is 0 only if the library reads the input's bytes as its kind.
pub fn look(asked: &Asked, input: &[u8], name: &str) -> Shown {
    match read_bytes(asked.is_notation, input) {
        Ok(Reading { bytes, said }) => look_at(asked, &bytes, &said, name),
        Err(said) => unread(asked, said, name),
    }
}
