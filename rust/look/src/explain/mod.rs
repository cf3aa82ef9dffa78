//! Takes input apart for debugging: a COSE message, a key, a set of keys, claims, or any CBOR. It
//! is shown in diagnostic notation (RFC 8949, section 8; RFC 8610, appendix G), line by line, next
//! to the bytes of each line.

mod about;
mod apart;
mod authenticator;
mod column;
mod cover;
mod fault;
mod frame;
mod guess;
mod head;
mod hunt;
mod kind;
mod moment;
mod names;
mod note;
mod opening;
mod paths;
mod print;
mod quotes;
mod role;
mod structures;
mod summary;
mod text;
mod walk;

pub use apart::{Explained, Place, Refusal, explain, explain_whole, fault};
pub use column::Line;
pub use cover::Cover;
pub use guess::fitting;
pub use kind::Kind;
pub use moment::date;
pub use print::{Style, annotated, comment, commented, notation};
pub(crate) use quotes::{isolated, shortened, shortened_note};
pub use structures::{structure, structure_notes};
pub use text::{is_shown, quoted_name};
