//! UTF-16 (RFC 2781) with a byte order mark.

/// Returns the text of an input in UTF-16 with a byte order mark. Returns `None` for another
/// input, or if a character isn't ASCII.
pub(crate) fn text(input: &[u8]) -> Option<Vec<u8>> {
    let unit: fn([u8; 2]) -> u16 = match input {
        [0xff, 0xfe, ..] => u16::from_le_bytes,
        [0xfe, 0xff, ..] => u16::from_be_bytes,
        _ => return None,
    };
    let characters = input[2..].chunks(2).map(|pair| {
        let unit = unit(pair.try_into().ok()?);
        u8::try_from(unit).ok().filter(u8::is_ascii)
    });
    characters.collect()
}
