//! Lines as an HTML page, without scripts and outside links.

use crate::encode::hex;
use crate::explain::{Cover, Line, isolated, shortened};

/// The part of the page before all inputs.
pub const FRONT: &str = include_str!("front.html");

/// The part of the page after all inputs.
pub const END: &str = "</body>\n</html>\n";

/// The most levels that are indented.
const STEPS: usize = 32;

/// The most bytes of a line that is shown short.
const BYTES: usize = 32;

/// The most levels of lines that fold. Deeper lines don't fold.
const FOLDS: usize = 100;

/// Adds the character, escaped if HTML reserves it, or replaced if it is a control character.
fn push_character(page: &mut String, c: char) {
    match c {
        '&' => page.push_str("&amp;"),
        '<' => page.push_str("&lt;"),
        '>' => page.push_str("&gt;"),
        '"' => page.push_str("&quot;"),
        '\'' => page.push_str("&#39;"),
        c if c.is_control() => page.push('\u{fffd}'),
        c => page.push(c),
    }
}

/// Returns the text with its characters escaped.
fn escaped(text: &str) -> String {
    let mut page = String::new();
    text.chars().for_each(|c| push_character(&mut page, c));
    page
}

/// Returns diagnostic notation with its characters escaped and its text strings isolated.
fn notation(text: &str) -> String {
    isolated(text, ("<bdi>", "</bdi>"), push_character)
}

/// Returns the CSS class of a line.
fn class(cover: Cover) -> &'static str {
    match cover {
        Cover::Plain => "",
        Cover::Signed | Cover::Authenticated | Cover::Associated => " covered",
        Cover::NotSigned | Cover::NotAuthenticated => " open",
        Cover::Seal => " seal",
        Cover::Refused => " refused",
    }
}

/// Returns the bytes in hexadecimal. With `is_short`, no more than [`BYTES`] of them.
fn digits(bytes: &[u8], is_short: bool) -> String {
    if is_short && BYTES < bytes.len() {
        let (shown, left) = bytes.split_at(BYTES);
        return format!("{}\u{2026} {} more bytes", hex(shown), left.len());
    }
    hex(bytes)
}

/// Returns a line in an element of that name: its bytes, its cover in words, its text and its note.
fn row(line: &Line, element: &str, is_short: bool) -> String {
    let (class, depth) = (class(line.cover), line.depth.min(STEPS));
    let (digits, words) = (digits(line.bytes, is_short), line.cover.text());
    let text = notation(&if is_short {
        shortened(&line.text)
    } else {
        line.text.clone()
    });
    let note = notation(&line.note);
    format!(
        "<{element} class=\"row{class}\"><code>{digits}</code><span>{words}</span>\
         <span style=\"padding-left:{depth}em\"><code>{text}</code> \
         <em>{note}</em></span></{element}>\n"
    )
}

/// Returns the lines. A line folds the deeper lines after it, up to the one that ends it.
fn rows(lines: &[Line], is_short: bool) -> String {
    let (mut page, mut folds) = (String::new(), Vec::new());
    // Ends the folds at this depth and deeper.
    let end_folds = |page: &mut String, folds: &mut Vec<usize>, depth| {
        while folds.last().is_some_and(|last| depth <= *last) {
            folds.pop();
            page.push_str("</details>\n");
        }
    };
    for (index, line) in lines.iter().enumerate() {
        let next_depth = lines.get(index + 1).map_or(0, |next| next.depth);
        end_folds(&mut page, &mut folds, line.depth + 1);
        if line.depth < next_depth && folds.len() < FOLDS {
            folds.push(line.depth);
            page.push_str("<details open>");
            page.push_str(&row(line, "summary", is_short));
        } else {
            page.push_str(&row(line, "div", is_short));
            end_folds(&mut page, &mut folds, line.depth);
        }
    }
    end_folds(&mut page, &mut folds, 0);
    page
}

/// Returns the part of the page for an input: its name, how it was read, its lines, and the notes
/// under them. With `is_short`, long strings and bytes of lines are cut.
pub(crate) fn section(
    name: &str,
    said: &str,
    lines: &[Line],
    notes: &[String],
    is_short: bool,
) -> String {
    let (name, said, rows) = (escaped(name), notation(said), rows(lines, is_short));
    let notes = notes
        .iter()
        .map(|note| format!("<p><code>{}</code></p>\n", escaped(note)));
    let notes: String = notes.collect();
    format!("<section>\n<h2>{name}</h2>\n<p>{said}</p>\n{rows}{notes}</section>\n")
}
