//! The path to a place, as it is shown.

use crate::explain::frame::{Container, Frame};
use crate::explain::head::content;
use crate::explain::role::place;
use crate::explain::text::leaf;
use coset::cbor::head::{MajorType, read_head};

/// Returns the label at the front of the bytes. A label that has parts, or that can't be read, is
/// `?`.
fn label(bytes: &[u8]) -> String {
    let label = match read_head(bytes) {
        Ok((head, rest)) => match head.major_type {
            MajorType::Array | MajorType::Map | MajorType::Tag => String::new(),
            _ if head.is_indefinite() => String::new(),
            _ => leaf(&head, content(&head, rest)),
        },
        Err(_) => String::new(),
    };
    if label.is_empty() { "?".into() } else { label }
}

/// Returns the step from the container to its item.
fn step(bytes: &[u8], frame: &Frame) -> String {
    let index = frame.place();
    match frame.container {
        Container::Input => String::new(),
        Container::Array => match place(frame.role, frame.index).name {
            "" => format!("[{index}]"),
            name => format!(".{name}"),
        },
        Container::Map => {
            let label = label(&bytes[bytes.len().saturating_sub(frame.key_left)..]);
            if frame.is_at_key() {
                format!("{{{label}}}")
            } else {
                format!(".{label}")
            }
        }
        Container::Tag => "()".into(),
        Container::Embedded => "<<>>".into(),
        Container::Chunks(_) => format!("(_{index})"),
    }
}

/// Returns the path to the next item of the last frame. `left` is the number of bytes from that
/// item on. [`Place`](crate::explain::Place) lists the steps.
pub(crate) fn path(bytes: &[u8], open: &[Frame], left: usize) -> String {
    let mut frames = open.to_vec();
    if let Some((last, outer)) = frames.split_last_mut() {
        // The outer frames are behind the item that leads to the place.
        for frame in outer {
            frame.index = frame.index.saturating_sub(1);
        }
        if last.is_at_key() {
            last.key_left = left;
        }
    }
    let path: String = frames.iter().map(|frame| step(bytes, frame)).collect();
    if path.is_empty() { ".".into() } else { path }
}
