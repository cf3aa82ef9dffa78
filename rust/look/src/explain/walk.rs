//! The walk over the input, one head at a time. The open frames are in a list, so that the input
//! doesn't choose how much stack the walk takes.

use crate::explain::about::About;
use crate::explain::authenticator;
use crate::explain::column::Column;
use crate::explain::cover::of_next;
use crate::explain::fault::{Fault, refusal_note};
use crate::explain::frame::{Container, Frame};
use crate::explain::head::content;
use crate::explain::hunt::Hunt;
use crate::explain::note;
use crate::explain::opening::{claims_refusal, opened_part, opening, opening_text};
use crate::explain::paths::path;
use crate::explain::role::{Part, Role};
use crate::explain::text::{leaf, width_mark};
use coset::CoseError;
use coset::cbor::de::Pull;
use coset::cbor::head::{Head, read_head};

/// The number of open frames if the next item is a key of a set: the input and the set.
const KEYS: usize = 2;

/// The most nested byte strings that are opened for their messages and claims.
const OPENINGS: u32 = 16;

/// The state of the walk.
pub(crate) struct Walk<'a, 'e> {
    /// The whole input.
    bytes: &'a [u8],
    pub(crate) column: Column<'a>,
    /// What the summary says of the input so far.
    pub(crate) about: About,
    /// The open frames, from the input on. If the walk ended at a fault, the last frame has it.
    pub(crate) open: Vec<Frame<'a>>,
    /// The search for the fault.
    hunt: Hunt<'e>,
    /// The moment for which a token's times are judged, in seconds since 1970 began.
    now: Option<i64>,
    /// The fault at which the walk ended, if it did.
    fault: Option<Fault>,
    /// Whether the walk goes on after a fault if it can.
    goes_on: bool,
    /// Whether it did.
    pub(crate) has_passed_fault: bool,
    /// The error of each key of a set; `None` for a key that is accepted.
    keys: &'e [Option<CoseError>],
    /// The number of input bytes after the key that was begun last.
    behind_key: usize,
    /// Whether the rest of that key comes next.
    skips_key: bool,
}

/// An item at a place: its head, the bytes of its frame from the item on, and those after its head.
#[derive(Clone, Copy)]
pub(crate) struct Item<'a> {
    pub(crate) head: Head,
    pub(crate) bytes: &'a [u8],
    pub(crate) rest: &'a [u8],
}

impl<'a> Item<'a> {
    /// Returns the content, if the item is a string.
    pub(crate) fn content(&self) -> &'a [u8] {
        content(&self.head, self.rest)
    }
}

/// Returns the bytes from the position on that belong to the frame.
fn within<'a>(column: &Column<'a>, frame: &Frame) -> &'a [u8] {
    let ahead = column.ahead();
    &ahead[..ahead.len().saturating_sub(frame.behind)]
}

impl<'a, 'e> Walk<'a, 'e> {
    /// Walks over bytes that should have this role, up to the first fault or the end.
    pub(crate) fn to_fault(
        bytes: &'a [u8],
        role: Role,
        error: Option<&'e CoseError>,
        now: Option<i64>,
    ) -> Walk<'a, 'e> {
        let walk = Walk {
            bytes,
            column: Column::new(bytes),
            about: About::default(),
            open: vec![Frame::input(role, 0)],
            hunt: Hunt::of(error),
            now,
            fault: None,
            goes_on: false,
            has_passed_fault: false,
            keys: &[],
            behind_key: 0,
            skips_key: false,
        };
        walk.run()
    }

    /// Walks over bytes that should have this role. Opens the content of byte strings, and goes on
    /// after faults. `keys` are the errors of the keys of a set.
    pub(crate) fn through(
        bytes: &'a [u8],
        role: Role,
        error: Option<&'e CoseError>,
        keys: &'e [Option<CoseError>],
        now: Option<i64>,
    ) -> Walk<'a, 'e> {
        let walk = Walk {
            bytes,
            column: Column::new(bytes),
            about: About::default(),
            open: vec![Frame::input(role, OPENINGS)],
            hunt: Hunt::of(error),
            now,
            fault: None,
            goes_on: true,
            has_passed_fault: false,
            keys,
            behind_key: 0,
            skips_key: false,
        };
        walk.run()
    }

    /// Walks as far as the bytes can be shown. Each step shows at least one byte, closes a
    /// container that a byte opened, or notes the fault of a key of a set.
    fn run(mut self) -> Walk<'a, 'e> {
        while self.step() {}
        if self.column.has_begun() {
            self.column.end_line(self.open.len().saturating_sub(1));
        }
        self
    }

    /// Returns the offset and the kind of the fault at which the walk ended.
    pub(crate) fn end(&self) -> Option<(usize, Fault)> {
        self.fault
            .map(|fault| (self.bytes.len() - self.column.left(), fault))
    }

    /// Shows the next head, or the end of a container. Returns true if the walk goes on.
    fn step(&mut self) -> bool {
        if self.skips_key {
            return self.skip_key();
        }
        let Some(frame) = self.open.pop() else {
            return false;
        };
        let bytes = within(&self.column, &frame);
        if frame.has_ended(bytes) {
            return self.close(frame, bytes);
        }
        match read_head(bytes) {
            Ok((head, rest)) => self.item(frame, Item { head, bytes, rest }),
            Err(error) => self.stop(frame, Fault::of_head(&error)),
        }
    }

    /// Ends the walk at this fault.
    fn stop(&mut self, frame: Frame<'a>, fault: Fault) -> bool {
        self.fault = Some(fault);
        self.open.push(frame);
        false
    }

    /// Shows the end of a container.
    fn close(&mut self, frame: Frame<'a>, bytes: &[u8]) -> bool {
        let has_one = matches!(frame.container, Container::Input | Container::Embedded);
        if has_one && !bytes.is_empty() {
            return self.stop(frame, Fault::Extraneous);
        }
        if frame.container == Container::Input {
            return false;
        }
        if frame.left.is_none() {
            self.column.hold(1);
        }
        let outer = self.open.last();
        let mark = outer.map_or("", |outer| outer.mark(within(&self.column, outer)));
        self.column.cover = frame.cover;
        self.column.text += frame.end();
        self.column.text += width_mark(frame.width);
        self.column.text += mark;
        self.column.end_line(self.open.len().saturating_sub(1));
        true
    }

    /// Begins the search for the fault of a set's key, which is at the front of the bytes and in
    /// this frame.
    fn begin_key(&mut self, frame: &Frame, bytes: &[u8]) {
        let Some(error) = self.keys.get(frame.place()) else {
            return;
        };
        self.hunt = Hunt::of(error.as_ref());
        if let Ok((_, rest)) = Pull::new(bytes) {
            self.behind_key = frame.behind + rest.len();
        }
    }

    /// Shows the item, or its fault.
    fn item(&mut self, frame: Frame<'a>, item: Item<'a>) -> bool {
        if frame.is_key_set() {
            self.begin_key(&frame, item.bytes);
        }
        let part = frame.next_part();
        let read = opened_part(part, &item);
        let fault = frame
            .fault(&item)
            .or_else(|| self.hunt.at(&frame, &read, &item));
        match fault {
            None => self.show(frame, part, item),
            Some(Fault::Simple) if self.goes_on => {
                self.note_fault(&frame, Fault::Simple);
                self.show(frame, part, item)
            }
            Some(Fault::Shape) if self.goes_on && self.is_in_key(&frame) => {
                self.end_key(frame, &item)
            }
            Some(fault) => self.stop(frame, fault),
        }
    }

    /// Puts the fault in the next item of the frame at the front of the note.
    fn note_fault(&mut self, frame: &Frame<'a>, fault: Fault) {
        let left = self.column.ahead().len();
        self.open.push(*frame);
        let path = path(self.bytes, &self.open, left);
        self.open.pop();
        let note = refusal_note(
            self.hunt.error,
            Some((self.bytes.len() - left, fault)),
            &path,
        );
        self.column.note = match self.column.note.as_str() {
            "" => note,
            others => format!("{note}; {others}"),
        };
        self.column.is_refused = true;
        self.has_passed_fault = true;
    }

    /// Returns true if the next item of the frame is a key of a set, or is in one.
    fn is_in_key(&self, frame: &Frame) -> bool {
        frame.is_key_set() || self.open.iter().any(Frame::is_key_set)
    }

    /// Ends a key of a set at a fault in this item, the next of the frame.
    fn end_key(&mut self, mut frame: Frame<'a>, item: &Item<'a>) -> bool {
        if self.column.has_begun() {
            self.column.end_line(self.open.len());
        }
        self.note_fault(&frame, Fault::Shape);
        if frame.is_key_set() {
            frame.pass(item);
            self.open.push(frame);
        } else {
            self.open.truncate(KEYS);
        }
        self.skips_key = true;
        true
    }

    /// Shows the rest of a key of a set.
    fn skip_key(&mut self) -> bool {
        self.skips_key = false;
        self.column
            .hold(self.column.ahead().len().saturating_sub(self.behind_key));
        self.column.end_line(KEYS - 1);
        true
    }

    /// Shows the item, which is this part.
    fn show(&mut self, mut frame: Frame<'a>, part: Part, item: Item<'a>) -> bool {
        self.column.cover = of_next(&frame);
        note::push(&mut self.column.note, &frame, &part, &item.head, self.now);
        if part.role == Role::AuthenticatorData {
            let described = authenticator::described(item.content());
            note::add(
                &mut self.column.note,
                ": ",
                described.as_deref().unwrap_or(""),
            );
        }
        let read = opened_part(part, &item);
        self.about.see(&frame, read.role, &item.head, self.now);
        let unread = claims_refusal(&frame, &read, &item);
        if let Some(error) = &unread {
            self.about.see_unread(&frame, read.role, error);
        }
        let is_sought = self.hunt.is_in(&part, item.content());
        let opened = opening(&frame, part, &item, is_sought);
        frame.pass(&item);
        match opened {
            Some(opened) if unread.is_some() => self.enter(frame, opened.unread(), &item.head),
            Some(opened) => self.enter(frame, opened, &item.head),
            None => self.leaf(frame, &item),
        }
    }

    /// Shows an item without parts. The frame is behind it.
    fn leaf(&mut self, frame: Frame<'a>, item: &Item) -> bool {
        self.column.text += &leaf(&item.head, item.content());
        // A string without chunks has a break.
        let end = usize::from(item.head.is_indefinite());
        self.column
            .hold(item.head.size() + item.content().len() + end);
        self.column.text += frame.mark(within(&self.column, &frame));
        if !frame.is_at_value() {
            self.column.end_line(self.open.len());
        }
        self.open.push(frame);
        true
    }

    /// Shows the head of an item with parts. The frame is behind it.
    fn enter(&mut self, frame: Frame<'a>, opened: Frame<'a>, head: &Head) -> bool {
        self.column.text += &opening_text(&opened, head);
        self.column.hold(head.size());
        self.column.end_line(self.open.len());
        self.open.push(frame);
        self.open.push(opened);
        true
    }
}
