//! The texts on how an input was read, or why it can't be read.

use crate::explain::Kind;
use crate::spell::{Content, Reading, Spelling, Unread, Why, content_of_bytes, content_of_text};

/// Returns the name of a spelling.
fn spelling_name(spelling: Spelling) -> &'static str {
    match spelling {
        Spelling::Binary => "binary",
        Spelling::Hexadecimal => "hexadecimal",
        Spelling::Base64 => "base64",
        Spelling::Commented => "hexadecimal with comments",
        Spelling::Array => "an array",
        Spelling::Literal => "a literal of bytes",
        Spelling::Dump => "a dump",
        Spelling::Percent => "percent-encoding",
    }
}

/// Returns the name of a digit of a spelling.
fn digit(spelling: Spelling) -> &'static str {
    match spelling {
        Spelling::Binary | Spelling::Base64 => "digit of base64",
        Spelling::Hexadecimal | Spelling::Commented | Spelling::Dump => "hexadecimal digit",
        Spelling::Array => "number from 0 to 255",
        Spelling::Literal => "character or escape of a literal",
        Spelling::Percent => "character of percent-encoding",
    }
}

/// Returns the sentence on a fault that concerns more than a character.
fn fault(why: Why) -> &'static str {
    match why {
        Why::Digit => "a digit is missing",
        Why::Comment => "the comment has no end",
        Why::NoEscape => {
            "b'..' without an escape may be characters or digits; to read digits, remove the b"
        }
        Why::Offset => "the offset isn't the first one plus the number of bytes before the line",
        Why::Side => "the text beside the bytes doesn't show them",
        Why::Words => {
            "the dump has words of several bytes; `xxd` and `od -A x -t x1` write single bytes"
        }
        Why::Repeated => "the dump leaves out repeated lines; `-v` keeps them",
        Why::OffsetOrByte => {
            "the first digits may be an offset or bytes; remove an offset, or write bytes as h'..'"
        }
    }
}

/// Returns what to do with a text, or with bytes, that isn't CBOR.
pub(crate) fn advice(content: Content) -> &'static str {
    match content {
        Content::Nothing => "the input is empty",
        Content::Zlib => "the bytes are compressed by zlib, and must be inflated first",
        Content::Gzip => "the bytes are compressed by gzip, and must be unpacked first",
        Content::Der => "the bytes are DER, such as a certificate or a key, and not CBOR",
        Content::Zip => "the bytes are a zip archive, which must be unpacked first",
        Content::Utf16 => "the bytes are text in UTF-16 with characters other than ASCII",
        Content::WebToken => "the input is a JSON Web Token, which contains no CBOR",
        Content::Json => "the input is JSON; the text of one member can be read by itself",
        Content::Notation => "the input looks like diagnostic notation",
        Content::Pem => "the input has several PEM messages; one can be read by itself",
        Content::HealthCertificate => {
            "the input is a health certificate, whose base45 must be decoded and inflated first"
        }
        Content::Words => "the input is plain text, and neither hexadecimal nor base64",
        Content::Base64 => "write base64 that looks like hexadecimal as b64'..'",
    }
}

/// Returns true if the bytes are an item of well-formed CBOR.
pub(crate) fn is_item(bytes: &[u8]) -> bool {
    Kind::Value.refusal(bytes).is_none()
}

/// Returns the text that the input was read as so many bytes, in the spelling of this name.
pub(crate) fn read_as(name: &str, count: usize) -> String {
    format!("read as {name}, {count} bytes")
}

/// Returns the text on how the input spells its bytes. If these are no CBOR but something known,
/// the text says what, and what to do.
pub(crate) fn spelled_as(spelled: &Reading, input: &[u8]) -> String {
    let Reading { bytes, spelling } = spelled;
    if bytes.is_empty() && content_of_text(input) == Some(Content::Nothing) {
        return advice(Content::Nothing).into();
    }
    let text = read_as(spelling_name(*spelling), bytes.len());
    match content_of_bytes(bytes) {
        Some(content) if !is_item(bytes) => format!("{text}; {}", advice(content)),
        _ => text,
    }
}

/// Returns the text that the character at the fault is no digit, or that a digit is missing there.
/// A character is shown if it is printable ASCII, otherwise by its code point, so that it can't
/// confuse a terminal.
fn wrong_digit(unread: &Unread) -> String {
    let digit = digit(unread.spelling);
    match unread
        .character
        .filter(|character| !character.is_whitespace())
    {
        Some(_) if unread.spelling == Spelling::Array => {
            format!("a {digit} is missing, in decimal or after 0x")
        }
        Some(character @ '!'..='~') => format!("'{character}' is no {digit}"),
        Some(character) => format!("U+{:04X} is no {digit}", u32::from(character)),
        None => format!("a {digit} is missing"),
    }
}

/// Returns the text that the input is misspelled at this place, and what the input is if it is
/// something known.
pub(crate) fn misspelled(unread: &Unread, input: &[u8]) -> String {
    let Unread {
        line, column, why, ..
    } = unread;
    let place = format!("error: line {line}, column {column}");
    if *why != Why::Digit {
        return format!("{place}: {}", fault(*why));
    }
    let is_guess = |content: &Content| matches!(content, Content::Base64 | Content::Words);
    let content = content_of_text(input)
        .filter(|content| !is_guess(content) || unread.spelling == Spelling::Hexadecimal);
    let advice = content.map(|content| format!("; {}", advice(content)));
    format!(
        "{place}: {}{}",
        wrong_digit(unread),
        advice.unwrap_or_default()
    )
}
