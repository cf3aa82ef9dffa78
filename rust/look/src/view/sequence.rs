//! The items of a sequence (RFC 8742).

use crate::explain::Line;
use coset::cbor::de::Pull;

/// The most items whose summaries are told.
const TOLD: usize = 4;

/// Returns the items that the bytes are, one after the other. The list is empty if the bytes aren't
/// such a sequence.
pub(crate) fn items(bytes: &[u8]) -> Vec<&[u8]> {
    let (mut items, mut rest) = (Vec::new(), bytes);
    while !rest.is_empty() {
        let Ok((item, behind)) = Pull::new(rest) else {
            return Vec::new();
        };
        items.push(item.slice());
        rest = behind;
    }
    items
}

/// The place of an item in a sequence.
#[derive(Clone, Copy)]
pub(crate) struct Position {
    /// The number of the item, counted from 1.
    pub(crate) number: usize,
    /// The number of all items.
    pub(crate) count: usize,
    /// The offset at which the item begins.
    pub(crate) offset: usize,
}

impl Position {
    /// Notes in the first line of the item which item it is, and separates it from the next item.
    pub(crate) fn mark(self, lines: &mut [Line]) {
        let Position {
            number,
            count,
            offset,
        } = self;
        if let Some(last) = lines.last_mut().filter(|_| number < count) {
            last.text.push(',');
        }
        if let Some(first) = lines.first_mut() {
            let separator = if first.note.is_empty() { "" } else { "; " };
            let note = &first.note;
            first.note = format!("item {number} of {count}, at offset {offset}{separator}{note}");
        }
    }

    /// Returns the summary of the item, and after the last item how many aren't told.
    pub(crate) fn summary(self, of_item: &str) -> String {
        let Position { number, count, .. } = self;
        let told = if number <= TOLD {
            format!(" Item {number}: {of_item}")
        } else {
            String::new()
        };
        if number == count && TOLD < count {
            return format!("{told} And {} more.", count - TOLD);
        }
        told
    }
}
