//! Strings (RFC 8949, section 8; RFC 8610, appendices G.1, G.2 and G.4).

use crate::notation::base::{Base, based};
use crate::notation::fault::{Expected, Stop};
use crate::notation::head::{BREAK, push_open, push_told};
use crate::notation::reader::{Reader, is_space};
use coset::cbor::head::MajorType;

/// Returns the type of the string at the front of the text, or `None` if there is no string.
pub(crate) fn type_at_front(text: &[u8]) -> Option<MajorType> {
    match text.first() {
        Some(b'"') => Some(MajorType::Text),
        Some(b'\'') => Some(MajorType::Bytes),
        _ => Base::at_front(text).map(|_| MajorType::Bytes),
    }
}

/// Returns the number that one to eight hexadecimal digits write, or `None` for another text.
fn code_of(digits: &[u8]) -> Option<u32> {
    if !(1..=8).contains(&digits.len()) {
        return None;
    }
    digits.iter().try_fold(0, |code, digit| {
        Some(code << 4 | char::from(*digit).to_digit(16)?)
    })
}

/// Reads the number of four hexadecimal digits after `\u`.
fn unit(reader: &mut Reader) -> Option<u32> {
    let (digits, rest) = reader.left.split_at_checked(4)?;
    reader.left = rest;
    code_of(digits)
}

/// Reads the character whose code is after `\u`, in braces or as one or two UTF-16 code units (RFC
/// 8259, section 7).
fn character(reader: &mut Reader) -> Option<char> {
    if reader.take(b"{") {
        let end = reader.left.iter().position(|byte| *byte == b'}')?;
        let (digits, rest) = reader.left.split_at(end);
        reader.left = &rest[1..];
        return char::from_u32(code_of(digits)?);
    }
    let high = unit(reader)?;
    if !(0xd800..0xdc00).contains(&high) {
        return char::from_u32(high);
    }
    let low = Some(reader.take(b"\\u"))
        .filter(|is_pair| *is_pair)
        .and_then(|_| unit(reader))?;
    let low = low.checked_sub(0xdc00).filter(|low| *low < 1024)?;
    char::from_u32(0x10000 + (high - 0xd800) * 1024 + low)
}

/// Reads the character of an escape whose backslash is before the position.
fn escaped(reader: &mut Reader) -> Result<char, Stop> {
    let start = *reader;
    match reader.next() {
        Some(c @ (b'"' | b'\'' | b'\\' | b'/')) => Ok(c.into()),
        Some(b'b') => Ok('\u{8}'),
        Some(b'f') => Ok('\u{c}'),
        Some(b'n') => Ok('\n'),
        Some(b'r') => Ok('\r'),
        Some(b't') => Ok('\t'),
        Some(b'u') => {
            let code = *reader;
            character(reader).ok_or(code.stop(Expected::Character))
        }
        _ => Err(start.stop(Expected::Escape)),
    }
}

/// Returns true if the character may be in quotes without an escape. White space may be in a byte
/// string.
fn may_be_quoted(quote: u8, byte: u8) -> bool {
    b' ' <= byte || quote == b'\'' && is_space(byte)
}

/// Adds the content of a string whose opening quote is before the position, and moves behind its
/// closing quote.
fn quoted(reader: &mut Reader, quote: u8, out: &mut Vec<u8>) -> Result<(), Stop> {
    loop {
        let start = *reader;
        match reader.next() {
            Some(byte) if byte == quote => return Ok(()),
            Some(b'\\') => {
                let c = escaped(reader)?;
                out.extend_from_slice(c.encode_utf8(&mut [0; 4]).as_bytes());
            }
            Some(byte) if may_be_quoted(quote, byte) => out.push(byte),
            _ => return Err(start.stop(Expected::Quote)),
        }
    }
}

/// Adds the content of a string, and moves behind it. Strings that are concatenated with it remain.
fn piece(reader: &mut Reader, out: &mut Vec<u8>) -> Result<(), Stop> {
    if reader.take(b"\"") {
        return quoted(reader, b'"', out);
    }
    if reader.take(b"'") {
        return quoted(reader, b'\'', out);
    }
    let (base, rest) = Base::at_front(reader.left).ok_or(reader.stop(Expected::Item))?;
    reader.left = rest;
    based(base, reader, out)
}

/// Adds the content of strings that are concatenated, with white space or a comment between them
/// (RFC 8610, appendix G.4).
fn pieces(reader: &mut Reader, major_type: MajorType, out: &mut Vec<u8>) -> Result<(), Stop> {
    loop {
        piece(reader, out)?;
        let mut next = *reader;
        next.blanks()?;
        match type_at_front(next.left).filter(|_| next.left.len() < reader.left.len()) {
            None => return Ok(()),
            Some(MajorType::Text) if major_type != MajorType::Text => {
                return Err(next.stop(Expected::SameType));
            }
            Some(_) => *reader = next,
        }
    }
}

/// Adds the string at the position, which has this type, and moves behind it.
///
/// `""_` and `''_` are strings of indefinite length without chunks.
pub(crate) fn string(
    reader: &mut Reader,
    major_type: MajorType,
    out: &mut Vec<u8>,
) -> Result<(), Stop> {
    let mut behind = *reader;
    if (behind.take(b"\"\"") || behind.take(b"''")) && behind.take_open() {
        push_open(out, major_type);
        out.push(BREAK);
        *reader = behind;
        return Ok(());
    }
    definite(reader, major_type, out)
}

/// Adds a string with this content, and moves behind the encoding indicator.
pub(crate) fn push_string(
    reader: &mut Reader,
    major_type: MajorType,
    content: &[u8],
    out: &mut Vec<u8>,
) -> Result<(), Stop> {
    let indicator = *reader;
    let width = reader.width()?;
    push_told(out, major_type, content.len() as u64, width, indicator)?;
    out.extend_from_slice(content);
    Ok(())
}

/// Adds the string of definite length at the position, which has this type, and moves behind it.
fn definite(reader: &mut Reader, major_type: MajorType, out: &mut Vec<u8>) -> Result<(), Stop> {
    let (start, mut content) = (*reader, Vec::new());
    pieces(reader, major_type, &mut content)?;
    if major_type == MajorType::Text && std::str::from_utf8(&content).is_err() {
        return Err(start.stop(Expected::Utf8));
    }
    push_string(reader, major_type, &content, out)
}

/// Adds a string in chunks whose `(_` is before the position, and moves behind it.
pub(crate) fn chunks(reader: &mut Reader, out: &mut Vec<u8>) -> Result<(), Stop> {
    reader.blanks()?;
    let major_type = type_at_front(reader.left).ok_or(reader.stop(Expected::Chunk))?;
    push_open(out, major_type);
    loop {
        if type_at_front(reader.left) != Some(major_type) {
            return Err(reader.stop(Expected::Chunk));
        }
        definite(reader, major_type, out)?;
        reader.blanks()?;
        if !reader.take(b",") {
            break;
        }
        reader.blanks()?;
    }
    reader.expect(b")", Expected::CommaOrEnd)?;
    out.push(BREAK);
    Ok(())
}
