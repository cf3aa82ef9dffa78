//! The options by which an input is shown.

use crate::explain::Kind;

/// The form in which an input is shown.
#[derive(Clone, Copy, Debug, Default, PartialEq, Eq)]
pub enum Form {
    /// Lines with bytes and notes.
    #[default]
    Annotated,
    /// The same lines as a part of an HTML page.
    Page,
    /// The same lines for a program that shows them.
    Rows,
    /// The same lines as an object in JSON, for scripts.
    Json,
    /// Diagnostic notation alone.
    Plain,
    /// The place of the fault, and the fault.
    Where,
}

/// The options by which an input is shown. By default, the kind is that of the tag, no moment
/// judges times, and `external_aad` is empty.
#[derive(Default)]
pub struct Asked {
    /// The kind that the input should have.
    pub kind: Kind,
    /// The form of the output.
    pub form: Form,
    /// The moment for which a token's times are judged, in seconds since 1970 began.
    pub now: Option<i64>,
    /// The bytes that the application authenticates in addition to messages (RFC 8152, section
    /// 4.3).
    pub external_aad: Vec<u8>,
    /// Whether lines are written in colours.
    pub is_colored: bool,
    /// Whether long strings and rows of bytes are cut.
    pub is_short: bool,
    /// Whether the input is read as diagnostic notation only.
    pub is_notation: bool,
}
