//! The kinds of faults, and the text about input that was refused.

use coset::cbor::de::Error;
use coset::{CborSerializable, CoseError, EndOfFile, Header};

/// The kind of a fault at a place of the input.
#[derive(Clone, Copy, Debug, PartialEq, Eq)]
pub(crate) enum Fault {
    /// The bytes end, or a head announces more than is left (RFC 8949, appendix F).
    Ends,
    /// The bytes aren't well-formed (RFC 8949, section 3 and appendices C and F), or a text isn't
    /// UTF-8 (section 5.3.1).
    Malformed,
    /// A simple value other than false, true and null.
    Simple,
    /// The 257th level of arrays, maps and tags.
    Levels,
    /// The 17th of nested protected headers.
    Layers,
    /// Bytes after the one item.
    Extraneous,
    /// The fault for which the type's decoder refused the bytes.
    Shape,
}

impl Fault {
    /// Returns the fault of bytes from which no head can be read.
    pub(crate) fn of_head(error: &Error<EndOfFile>) -> Fault {
        match error {
            Error::Io(_) => Fault::Ends,
            _ => Fault::Malformed,
        }
    }

    fn text(self) -> &'static str {
        match self {
            Fault::Ends => "the bytes end, or more is announced than is left",
            Fault::Malformed => "not well-formed",
            Fault::Simple => "a simple value other than false, true and null",
            Fault::Levels => "more than 256 levels of arrays, maps and tags",
            Fault::Layers => "more than 16 protected headers inside one another",
            Fault::Extraneous => "bytes behind the item",
            Fault::Shape => "not as its place asks",
        }
    }
}

/// Returns the note of a line whose bytes were refused: where and why. It is empty without a fault
/// and an error.
pub(crate) fn refusal_note(
    error: Option<&CoseError>,
    fault: Option<(usize, Fault)>,
    path: &str,
) -> String {
    match (fault, error) {
        (Some((offset, Fault::Shape)), Some(error)) => {
            format!("refused at offset {offset}, {path}: {error}")
        }
        (Some((offset, fault)), _) => {
            format!("refused at offset {offset}, {path}: {}", fault.text())
        }
        (None, Some(error)) => format!("refused: {error}"),
        (None, None) => String::new(),
    }
}

/// Returns true if a protected header with this content has the fault that `error` names.
///
/// `content` is the content of the header's byte string. An empty content is a header without
/// parameters (RFC 8152, section 3).
pub(crate) fn has_header_fault(error: &CoseError, content: &[u8]) -> bool {
    let found = Header::from_slice(content).err();
    !content.is_empty() && found.is_some_and(|found| format!("{found:?}") == format!("{error:?}"))
}
