//! Parts of a text, and places in it. White space is that of ASCII.

/// Returns the text after the word, if the text begins with it. The word's letters may be of
/// either case.
pub(crate) fn behind_word<'a>(text: &'a [u8], word: &[u8]) -> Option<&'a [u8]> {
    let (front, rest) = text.split_at_checked(word.len())?;
    front.eq_ignore_ascii_case(word).then_some(rest)
}

/// Returns the offset of a word in the text.
pub(crate) fn position(text: &[u8], word: &[u8]) -> Option<usize> {
    text.windows(word.len()).position(|window| window == word)
}

/// Returns the text without white space around it and without a byte order mark of UTF-8.
pub(crate) fn trimmed(text: &[u8]) -> &[u8] {
    let text = text.trim_ascii_end();
    text.strip_prefix(b"\xef\xbb\xbf")
        .unwrap_or(text)
        .trim_ascii_start()
}

/// Returns the number that the digits write in this radix, or `None` if a character is no digit or
/// the number is too large.
pub(crate) fn number(radix: u32, digits: &[u8]) -> Option<u64> {
    digits.iter().try_fold(0u64, |number, digit| {
        let value = char::from(*digit).to_digit(radix)?;
        number.checked_mul(radix.into())?.checked_add(value.into())
    })
}

/// Returns the line and the column of the byte at the offset, both counted from 1. A column is a
/// character.
pub fn line_and_column(input: &[u8], offset: usize) -> (usize, usize) {
    let front = &input[..offset.min(input.len())];
    let line = front.iter().filter(|byte| **byte == b'\n').count() + 1;
    let last = front
        .rsplit(|byte| *byte == b'\n')
        .next()
        .unwrap_or_default();
    let begins_character = |byte: &&u8| **byte / 64 != 2;
    (line, last.iter().filter(begins_character).count() + 1)
}
