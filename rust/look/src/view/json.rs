//! The output for scripts: an object in JSON (RFC 8259).

use crate::encode::hex;
use crate::explain::{Cover, Line, Refusal};

/// What is told of an input, apart from its lines.
#[derive(Clone, Copy, Debug)]
pub(crate) struct Told<'a> {
    /// The input's name.
    pub(crate) name: &'a str,
    /// How the input was read.
    pub(crate) read_as: &'a str,
    pub(crate) summary: &'a str,
    /// The name of the kind by which it was judged.
    pub(crate) kind: &'a str,
    /// The moment for which times were judged.
    pub(crate) now: Option<i64>,
    pub(crate) status: u8,
}

/// Returns a text as a string of JSON.
fn string(text: &str) -> String {
    let mut json = String::from('"');
    for c in text.chars() {
        match c {
            '"' | '\\' => json.extend(['\\', c]),
            c if c.is_control() => json.push_str(&format!("\\u{:04x}", u32::from(c))),
            c => json.push(c),
        }
    }
    json.push('"');
    json
}

/// Returns the object of a line, whose bytes are at the offset.
fn row(line: &Line, offset: usize) -> String {
    let cover = if line.cover == Cover::Seal {
        "seal"
    } else {
        line.cover.text()
    };
    let (bytes, depth) = (hex(line.bytes), line.depth);
    let place = format!(r#""offset": {offset}, "bytes": "{bytes}", "depth": {depth}"#);
    let (text, note, cover) = (string(&line.text), string(&line.note), string(cover));
    format!(r#"{{{place}, "text": {text}, "note": {note}, "cover": {cover}}}"#)
}

/// Returns the fault, or null.
fn fault(refusal: Option<&Refusal>) -> String {
    let Some(refusal) = refusal else {
        return "null".into();
    };
    let error = string(&refusal.error.to_string());
    match &refusal.place {
        Some(place) => {
            let path = string(&place.path);
            format!(
                r#"{{"offset": {}, "path": {path}, "error": {error}}}"#,
                place.offset
            )
        }
        None => format!(r#"{{"error": {error}}}"#),
    }
}

/// Returns a line with the object of an input.
pub(crate) fn object(
    told: Told,
    lines: &[Line],
    notes: &[String],
    refusal: Option<&Refusal>,
) -> String {
    let mut offset = 0;
    let rows = lines.iter().map(|line| {
        let row = row(line, offset);
        offset += line.bytes.len();
        row
    });
    let rows: Vec<String> = rows.collect();
    let notes: Vec<String> = notes.iter().map(|note| string(note)).collect();
    format!(
        "{{\"name\": {}, \"read\": {}, \"summary\": {}, \"kind\": {}, \"now\": {}, \"status\": {}, \
         \"fault\": {}, \"rows\": [{}], \"structures\": [{}]}}\n",
        string(told.name),
        string(told.read_as),
        string(told.summary),
        string(told.kind),
        told.now.map_or("null".into(), |now| now.to_string()),
        told.status,
        fault(refusal),
        rows.join(", "),
        notes.join(", ")
    )
}
