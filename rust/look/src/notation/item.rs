//! Items, and the items in them.
//!
//! The functions call each other. The levels that are left bound how deep.

use crate::notation::fault::{Expected, Fault, Stop};
use crate::notation::head::{BREAK, push_open, push_told};
use crate::notation::number::{Number, number, push_number};
use crate::notation::reader::Reader;
use crate::notation::simple::word;
use crate::notation::string::{chunks, push_string, string, type_at_front};
use coset::cbor::head::MajorType;

/// The levels that are left.
#[derive(Clone, Copy)]
struct Levels {
    /// Those of arrays, maps and tags in the item.
    of_item: u32,
    /// Those of all items, together with the items in byte strings.
    of_all: u32,
}

/// The levels of a whole item.
const LEVELS: Levels = Levels {
    of_item: 256,
    of_all: 512,
};

impl Levels {
    /// Returns the levels in an array, a map or a tag at this position.
    fn inner(self, reader: Reader) -> Result<Levels, Stop> {
        let of_item = self
            .of_item
            .checked_sub(1)
            .ok_or(reader.stop(Expected::FewerLevels))?;
        Ok(Levels {
            of_item,
            ..self.embedded(reader)?
        })
    }

    /// Returns the levels of an item in a byte string at this position.
    fn embedded(self, reader: Reader) -> Result<Levels, Stop> {
        let of_all = self
            .of_all
            .checked_sub(1)
            .ok_or(reader.stop(Expected::FewerLevels))?;
        Ok(Levels { of_all, ..LEVELS })
    }
}

/// Reads the items of a list up to its end, with commas between them, and returns how many there
/// are. In a map, they are pairs.
fn elements(
    reader: &mut Reader,
    end: &[u8],
    is_map: bool,
    levels: Levels,
    out: &mut Vec<u8>,
) -> Result<u64, Stop> {
    let mut count = 0;
    reader.blanks()?;
    while !reader.take(end) {
        if count != 0 {
            reader.expect(b",", Expected::CommaOrEnd)?;
            reader.blanks()?;
        }
        item(reader, levels, out)?;
        if is_map {
            reader.blanks()?;
            reader.expect(b":", Expected::Colon)?;
            reader.blanks()?;
            item(reader, levels, out)?;
        }
        reader.blanks()?;
        count += 1;
    }
    Ok(count)
}

/// Adds an array or a map whose opening bracket is before the position.
fn list(
    reader: &mut Reader,
    major_type: MajorType,
    end: &[u8],
    levels: Levels,
    out: &mut Vec<u8>,
) -> Result<(), Stop> {
    let is_map = major_type == MajorType::Map;
    if reader.take_open() {
        push_open(out, major_type);
        elements(reader, end, is_map, levels, out)?;
        out.push(BREAK);
        return Ok(());
    }
    let (indicator, mut content) = (*reader, Vec::new());
    let width = reader.width()?;
    let count = elements(reader, end, is_map, levels, &mut content)?;
    push_told(out, major_type, count, width, indicator)?;
    out.append(&mut content);
    Ok(())
}

/// Adds the number, or the tag of this number with its content.
fn number_or_tag(reader: &mut Reader, levels: Levels, out: &mut Vec<u8>) -> Result<(), Stop> {
    let start = *reader;
    let number = number(reader)?;
    let indicator = *reader;
    let width = reader.width()?;
    if !reader.take(b"(") {
        return push_number(out, &number, width, indicator);
    }
    let Number::Integer(MajorType::Unsigned, tag) = number else {
        return Err(start.stop(Expected::TagNumber));
    };
    push_told(out, MajorType::Tag, tag, width, indicator)?;
    reader.blanks()?;
    item(reader, levels.inner(start)?, out)?;
    reader.blanks()?;
    reader.expect(b")", Expected::Parenthesis)
}

/// Adds the item at the position, in which so many levels may nest, and moves behind it.
fn item(reader: &mut Reader, levels: Levels, out: &mut Vec<u8>) -> Result<(), Stop> {
    let start = *reader;
    if reader.take(b"[") {
        list(reader, MajorType::Array, b"]", levels.inner(start)?, out)
    } else if reader.take(b"{") {
        list(reader, MajorType::Map, b"}", levels.inner(start)?, out)
    } else if reader.take(b"<<") {
        let mut content = Vec::new();
        elements(reader, b">>", false, levels.embedded(start)?, &mut content)?;
        push_string(reader, MajorType::Bytes, &content, out)
    } else if matches!(reader.left, [b'0'..=b'9', ..] | [b'-', b'0'..=b'9', ..]) {
        number_or_tag(reader, levels, out)
    } else if let Some(major_type) = type_at_front(reader.left) {
        string(reader, major_type, out)
    } else if reader.take(b"(") {
        if reader.take_open() {
            chunks(reader, out)
        } else {
            Err(start.stop(Expected::Item))
        }
    } else {
        word(reader, out)
    }
}

/// Returns the items of the text, of which there is one at least, with commas between them.
fn sequence(text: &[u8]) -> Result<Vec<u8>, Stop> {
    let (mut reader, mut out) = (Reader { left: text }, Vec::new());
    loop {
        reader.blanks()?;
        item(&mut reader, LEVELS, &mut out)?;
        reader.blanks()?;
        if reader.left.is_empty() {
            return Ok(out);
        }
        reader.expect(b",", Expected::CommaOrEnd)?;
    }
}

/// Returns the bytes of the item that the text writes in diagnostic notation, or why it isn't
/// notation. Items with commas between them are a sequence (RFC 8742).
pub fn bytes_of(text: &str) -> Result<Vec<u8>, Fault> {
    sequence(text.as_bytes()).map_err(|Stop(left, expected)| Fault {
        offset: text.len() - left,
        expected,
    })
}
