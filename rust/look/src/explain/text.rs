//! Diagnostic notation of items without parts (RFC 8949, section 8; RFC 8610, appendix G.2).

use crate::encode::hex;
use crate::explain::head::{argument, float, is_shortest};
use coset::cbor::head::{Head, MajorType};
use coset::cbor::value::Float;

/// Returns true if a reader sees the character in its own place.
///
/// Such a character is no control character, no format character and no separator of lines. It has
/// a meaning in the Unicode of Rust's library, is not for private use, and isn't left out where a
/// font lacks it (Default_Ignorable_Code_Point). An older Unicode excludes more characters.
pub fn is_shown(c: char) -> bool {
    if c.is_ascii() {
        return !c.is_control();
    }
    // A string's `escape_debug` escapes all that are excluded but for these, and all spaces. Its
    // first character would be escaped if it combined with one before it.
    let is_ignored = matches!(
        c,
        '\u{34f}' | '\u{115f}' | '\u{1160}' | '\u{17b4}' | '\u{17b5}' | '\u{180b}'..='\u{180f}'
            | '\u{3164}' | '\u{fe00}'..='\u{fe0f}' | '\u{ffa0}' | '\u{e0100}'..='\u{e01ef}'
    );
    let is_space = c.is_whitespace() && !c.is_control() && !matches!(c, '\u{2028}' | '\u{2029}');
    let mut buffer = [b'x'; 5];
    let length = c.encode_utf8(&mut buffer[1..]).len();
    let pair = std::str::from_utf8(&buffer[..=length]).unwrap_or_default();
    !is_ignored && (is_space || pair.escape_debug().nth(1) == Some(c))
}

/// Adds the escape of a character, as in JSON (RFC 8259, section 7). A character above U+FFFF is
/// escaped as two surrogates.
fn push_escape(text: &mut String, c: char) {
    for unit in c.encode_utf16(&mut [0; 2]) {
        text.push_str(&format!("\\u{unit:04x}"));
    }
}

/// Returns a file's name for people. It is in quotes if it has a space, a quote, a backslash, or a
/// character that [`is_shown`] excludes. Such a character is escaped.
pub fn quoted_name(name: &str) -> String {
    let is_plain = |c| is_shown(c) && !char::is_whitespace(c) && c != '"' && c != '\\';
    if name.chars().all(is_plain) {
        return name.to_string();
    }
    quoted(name, '"')
}

/// Returns the text in these quotes.
fn quoted(content: &str, quote: char) -> String {
    let mut text = String::from(quote);
    for c in content.chars() {
        if c == quote || c == '\\' {
            text.push('\\');
            text.push(c);
        } else if is_shown(c) {
            text.push(c);
        } else {
            push_escape(&mut text, c);
        }
    }
    text.push(quote);
    text
}

/// Returns a text string, or a chunk of one. It is empty if the bytes aren't UTF-8.
fn text_string(content: &[u8]) -> String {
    std::str::from_utf8(content).map_or(String::new(), |content| quoted(content, '"'))
}

/// Returns a byte string, or a chunk of one. It is shown as text if all of it is printable.
fn byte_string(content: &[u8]) -> String {
    let is_printable = content.iter().all(|byte| matches!(byte, b' '..=b'~'));
    match std::str::from_utf8(content) {
        Ok(content) if is_printable && !content.is_empty() => quoted(content, '\''),
        _ => format!("h'{}'", hex(content)),
    }
}

/// Returns a float by its bits. RFC 8949 has no notation for the payload of a NaN.
fn bits(float: Float) -> String {
    match float {
        Float::Half(bits) => format!("float'{bits:04x}'"),
        Float::Single(bits) => format!("float'{bits:08x}'"),
        Float::Double(bits) => format!("float'{bits:016x}'"),
    }
}

/// Returns a float, with its width.
fn float_text(head: &Head) -> String {
    let (float, mark) = (float(head), width_mark(head.width()));
    // The NaN that `NaN` writes in each width.
    let is_usual = matches!(
        float,
        Float::Half(0x7e00) | Float::Single(0x7fc0_0000) | Float::Double(0x7ff8_0000_0000_0000)
    );
    let value = float.to_f64();
    if value.is_nan() && !is_usual {
        bits(float)
    } else if value.is_nan() {
        format!("NaN{mark}")
    } else if value.is_finite() {
        format!("{value:?}{mark}")
    } else {
        format!("{}Infinity{mark}", if value > 0.0 { "" } else { "-" })
    }
}

/// Returns false, true, null or another simple value.
fn simple(number: u64) -> String {
    match number {
        20 => "false".into(),
        21 => "true".into(),
        22 => "null".into(),
        23 => "undefined".into(),
        _ => format!("simple({number})"),
    }
}

/// Returns the width of a head if it isn't the shortest, otherwise 0. The head must not be a
/// float's.
pub(crate) fn told_width(head: &Head) -> u8 {
    if is_shortest(head) { 0 } else { head.width() }
}

/// Returns the encoding indicator of a width (RFC 8949, section 8.1). It may be empty.
pub(crate) fn width_mark(width: u8) -> &'static str {
    match width {
        1 => "_0",
        2 => "_1",
        4 => "_2",
        8 => "_3",
        _ => "",
    }
}

/// Returns an item without parts, or an empty array, map or string in chunks. `content` is that of
/// a string.
pub(crate) fn leaf(head: &Head, content: &[u8]) -> String {
    let (number, mark) = (argument(head), width_mark(told_width(head)));
    match head.major_type {
        MajorType::Text if head.is_indefinite() => "\"\"_".into(),
        _ if head.is_indefinite() => "''_".into(),
        MajorType::Unsigned => format!("{number}{mark}"),
        MajorType::Negative => format!("{}{mark}", -1 - i128::from(number)),
        MajorType::Bytes => byte_string(content) + mark,
        MajorType::Text => text_string(content) + mark,
        MajorType::Array => format!("[{mark}]"),
        MajorType::Map => format!("{{{mark}}}"),
        MajorType::Simple if head.is_float() => float_text(head),
        MajorType::Simple | MajorType::Tag => simple(number) + mark,
    }
}
