//! Takes the input apart.

use crate::explain::about::About;
use crate::explain::column::{Column, Line};
use crate::explain::fault::{Fault, refusal_note};
use crate::explain::kind::Kind;
use crate::explain::paths::path;
use crate::explain::walk::Walk;
use coset::CoseError;
use coset::cbor::de::Pull;

/// An input, taken apart.
pub struct Explained<'a> {
    /// The lines. If the input was refused, the last line has all bytes from the fault on.
    pub lines: Vec<Line<'a>>,
    /// The reason why the input isn't of the kind.
    pub error: Option<CoseError>,
    /// Facts for the summary.
    pub(crate) about: About,
}

/// The reason why an input isn't of a kind.
pub struct Refusal {
    /// The error of the library's decoder.
    pub error: CoseError,
    /// The place of the fault that the error names, if it was found.
    pub place: Option<Place>,
}

/// A place in an input.
pub struct Place {
    /// The offset in the input.
    pub offset: usize,
    /// The steps to the place:
    ///
    /// - `.` and a label for the value under it; `{`, a label and `}` for the label itself.
    /// - `.` and a name for an element that has one; `[`, an index and `]` for another element.
    /// - `()` for the content of a tag, `<<>>` for the content of a byte string.
    /// - `(_`, an index and `)` for a chunk.
    /// - `.` alone for the whole input.
    pub path: String,
}

/// Returns the lines of the walk. If the input was refused, one more line says so and has the rest
/// of the input.
fn lines_of<'a>(
    mut column: Column<'a>,
    error: Option<&CoseError>,
    fault: Option<(usize, Fault)>,
    path: &str,
) -> Vec<Line<'a>> {
    if fault.is_none() && error.is_none() {
        return column.finish();
    }
    column.note.push_str(&refusal_note(error, fault, path));
    column.is_refused = true;
    column.end_with_rest()
}

/// Returns the error of each key of a set, `None` for a key that is accepted. The list is empty for
/// another kind, and for bytes that aren't one array.
fn key_errors(kind: Kind, bytes: &[u8]) -> Vec<Option<CoseError>> {
    match Pull::new(bytes) {
        Ok((set, [])) if kind == Kind::Keyset => {
            let keys = set.items().into_iter().flatten();
            keys.map(|key| Kind::Key.refusal(key.slice())).collect()
        }
        _ => Vec::new(),
    }
}

/// Takes bytes that should be of `kind` apart into lines.
///
/// Each line has some bytes, their meaning with registered names, and a note. With `now`, in
/// seconds since 1970 began, the notes say if a token has expired or isn't valid yet at that
/// moment.
///
/// The bytes of the lines are the input: each byte once and in order, whatever the input is. If the
/// bytes are refused, everything before the fault is shown, and the last line has the rest. A fault
/// of CBOR always has a place. A fault of a type has one if an item of the kind that the error
/// names is found, or a repeated label.
pub fn explain(kind: Kind, bytes: &[u8], now: Option<i64>) -> Explained<'_> {
    let error = kind.refusal(bytes);
    let walk = Walk::to_fault(bytes, kind.role(), error.as_ref(), now);
    let (fault, path) = (walk.end(), path(bytes, &walk.open, walk.column.left()));
    let lines = lines_of(walk.column, error.as_ref(), fault, &path);
    Explained {
        lines,
        about: walk.about,
        error,
    }
}

/// Takes all of the bytes apart as [`explain`] does, and goes further.
///
/// - It opens byte strings that contain a message or claims, and those of tag 24.
/// - It shows a faulty key of a set up to its fault, and then the keys after it.
/// - It shows a simple value other than false, true and null, and the bytes after it.
///
/// Each fault has its place in its note.
pub fn explain_whole(kind: Kind, bytes: &[u8], now: Option<i64>) -> Explained<'_> {
    let error = kind.refusal(bytes);
    let keys = key_errors(kind, bytes);
    let walk = Walk::through(bytes, kind.role(), error.as_ref(), &keys, now);
    let (fault, path) = (walk.end(), path(bytes, &walk.open, walk.column.left()));
    // Faults that the walk went past are in notes already.
    let unsaid = error.as_ref().filter(|_| !walk.has_passed_fault);
    let lines = lines_of(walk.column, unsaid, fault, &path);
    Explained {
        lines,
        about: walk.about,
        error,
    }
}

/// Returns why the bytes aren't of `kind` and where the fault is, or `None` if they are of `kind`.
///
/// The offset of the place is one in the input, also for a fault in a protected byte string. If
/// several items have the fault that the error names, the place is that of the first.
pub fn fault(kind: Kind, bytes: &[u8]) -> Option<Refusal> {
    let error = kind.refusal(bytes)?;
    let walk = Walk::to_fault(bytes, kind.role(), Some(&error), None);
    let place = walk.end().map(|(offset, _)| Place {
        offset,
        path: path(bytes, &walk.open, walk.column.left()),
    });
    Some(Refusal { error, place })
}
