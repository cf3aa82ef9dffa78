//! The layout of dumps: whether a text is a dump, and where the parts of its lines are.

use crate::spell::read::Why;

/// The properties of a text whose lines begin with offsets of one width.
#[derive(Clone, Copy, Default)]
struct Shape {
    /// The number of lines, without empty lines and lines `*`.
    lines: usize,
    /// The number of lines with a colon after the offset.
    colons: usize,
    /// The number of lines with a text beside the bytes.
    sides: usize,
    /// The number of lines `*`, each of which stands for repeated lines.
    stars: usize,
    /// The number of digits of an offset.
    width: usize,
    /// Whether a field after an offset has another number of digits than two.
    has_words: bool,
    /// The number of lines with nothing after the offset.
    bare: usize,
    /// Whether the last line has nothing after the offset.
    ends_bare: bool,
    /// Whether the first offset is zero.
    begins_at_zero: bool,
    /// Whether an offset doesn't begin with `00`, or isn't greater than the one before it.
    falls: bool,
}

/// Returns the number of hexadecimal digits at the front of the text.
pub(crate) fn offset_length(text: &[u8]) -> usize {
    text.iter()
        .take_while(|byte| byte.is_ascii_hexdigit())
        .count()
}

/// Returns true if the fields of a line end here: at two spaces, or at other white space.
fn ends_fields(pair: &[u8]) -> bool {
    match pair {
        [b' ', second] => second.is_ascii_whitespace(),
        [first, _] => first.is_ascii_whitespace(),
        _ => false,
    }
}

/// Returns the length of the fields at the front of a line without its offset.
///
/// After a colon the fields end at two spaces, otherwise at `|` or `>`.
pub(crate) fn fields_length(line: &[u8]) -> usize {
    let length = match line {
        [b':', _, fields @ ..] => fields
            .windows(2)
            .position(ends_fields)
            .map(|count| count + 2),
        _ => line.iter().position(|byte| matches!(byte, b'|' | b'>')),
    };
    length.unwrap_or(line.len())
}

/// Returns true if the characters are those that a dump shows for the bytes: printable ASCII, and
/// a full stop for another byte.
fn is_column(characters: &[u8], bytes: &[u8]) -> bool {
    let shown = bytes.iter().map(|byte| {
        if matches!(byte, b' '..=b'~') {
            *byte
        } else {
            b'.'
        }
    });
    characters.iter().copied().eq(shown)
}

/// Returns true if the text beside a line's bytes is empty, or shows these bytes.
pub(crate) fn agrees(side: &[u8], bytes: &[u8]) -> bool {
    match side.trim_ascii_end() {
        [] => true,
        [b'|', inner @ .., b'|'] | [b'>', inner @ .., b'<'] => is_column(inner, bytes),
        [b'|' | b'>', ..] => false,
        side => {
            let trailing = bytes.iter().rev().take_while(|byte| **byte == b' ').count();
            let shown = &bytes[..bytes.len() - trailing];
            let (gap, column) = side.split_at(side.len().saturating_sub(shown.len()));
            gap.iter().all(|byte| *byte == b' ') && is_column(column, shown)
        }
    }
}

impl Shape {
    /// Returns the properties of the text, or `None` if a line doesn't begin with an offset.
    fn of(text: &[u8]) -> Option<Shape> {
        let (mut shape, mut last): (Shape, &[u8]) = (Shape::default(), b"");
        for line in text.split(|byte| *byte == b'\n').map(<[u8]>::trim_ascii) {
            match line {
                b"" => {}
                b"*" => shape.stars += 1,
                _ => {
                    let (offset, rest) = line.split_at(offset_length(line));
                    shape.adds_offset(offset, last)?;
                    shape.adds_fields(rest)?;
                    last = offset;
                }
            }
        }
        Some(shape).filter(|shape| shape.lines != 0)
    }

    /// Adds an offset, which comes after another one. Returns `None` if the text can't be a dump.
    fn adds_offset(&mut self, offset: &[u8], last: &[u8]) -> Option<()> {
        if self.lines == 0 {
            self.width = offset.len();
            self.begins_at_zero = offset.iter().all(|digit| *digit == b'0');
        }
        self.lines += 1;
        self.falls |= !offset.starts_with(b"00") || offset <= last;
        ((4..=16).contains(&offset.len()) && offset.len() == self.width).then_some(())
    }

    /// Adds the part of a line after its offset. Returns `None` if the text can't be a dump.
    fn adds_fields(&mut self, line: &[u8]) -> Option<()> {
        let (fields, side) = line.split_at(fields_length(line));
        self.sides += usize::from(!side.trim_ascii_end().is_empty());
        self.ends_bare = line.is_empty();
        match fields {
            [] => self.bare += 1,
            [b':'] => self.colons += 1,
            [b':', second, ..] if second.is_ascii_whitespace() => self.colons += 1,
            [first, ..] if first.is_ascii_whitespace() => {
                let mut fields = fields.split(u8::is_ascii_whitespace);
                self.has_words |= fields.any(|field| !field.is_empty() && field.len() != 2);
            }
            _ => return None,
        }
        Some(())
    }

    /// Returns true if the lines can be those of one dump.
    fn is_dump(&self) -> bool {
        let is_one_form = self.colons == self.lines || self.colons == 0 && !self.has_words;
        is_one_form && self.bare <= usize::from(self.ends_bare)
    }

    /// Returns true if the first digits of each line can only be an offset.
    fn has_offsets(&self) -> bool {
        2 <= self.lines && 6 <= self.width && !self.falls
    }

    /// Returns true if the text is a single line whose first digits may be an offset or bytes.
    fn is_ambiguous(&self) -> bool {
        let is_offset = self.begins_at_zero && 6 <= self.width && self.bare == 0;
        self.lines == 1 && self.sides == 0 && is_offset
    }

    /// Returns why the text can't be read as a dump, whatever its offsets are.
    fn refusal(&self) -> Option<Why> {
        if self.has_offsets() && self.begins_at_zero && self.colons == 0 && self.has_words {
            Some(Why::Words)
        } else if !self.is_dump() {
            None
        } else if 0 < self.stars {
            Some(Why::Repeated)
        } else {
            self.is_ambiguous().then_some(Why::OffsetOrByte)
        }
    }
}

/// Returns true if the text may be a dump, or is one that can't be read.
pub(crate) fn is_dump(text: &[u8]) -> bool {
    Shape::of(text).is_some_and(|shape| {
        let is_read = shape.is_dump() && (2 <= shape.lines || 0 < shape.sides);
        is_read || shape.refusal().is_some()
    })
}

/// Returns true if the text can't be anything else than a dump.
pub(crate) fn is_certain(text: &[u8]) -> bool {
    Shape::of(text)
        .is_some_and(|shape| 0 < shape.sides || shape.has_offsets() || shape.refusal().is_some())
}

/// Returns why the text can't be read as a dump, whatever its offsets are.
pub(crate) fn refusal(text: &[u8]) -> Option<Why> {
    Shape::of(text)?.refusal()
}
