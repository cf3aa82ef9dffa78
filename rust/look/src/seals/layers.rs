//! The seals of a message, and of the messages in its payload.

use crate::seals::message::{Message, read_outermost, read_tagged};
use crate::seals::own::own_seals;
use crate::seals::seal::Seal;
use coset_cwt::Form;

/// The greatest number of messages: the outermost one, and those inside it.
const LAYERS: usize = 4;

/// The greatest number of seals.
pub(crate) const MOST: usize = 16;

/// The layer whose seals are sought.
#[derive(Clone, Copy)]
pub(crate) struct Asked<'a> {
    /// The index of the message, from the outermost in.
    pub layer: usize,
    /// The bytes that the application authenticates in addition to messages.
    pub external_aad: &'a [u8],
}

/// The seals of a message and of the messages in its payload.
pub struct Seals {
    /// The seals, from the outermost layer in. There are at most 16.
    pub seals: Vec<Seal>,
    /// Whether there are more.
    pub has_more: bool,
}

/// Returns the seals of one message: its own, and its countersignatures. Of each list, they are the
/// first 17 at most. There are none if a structure can't be made, which happens to no message that
/// was read.
fn of_message(asked: &Asked, message: &Message) -> Vec<Seal> {
    let Ok(mut seals) = own_seals(asked, message) else {
        return Vec::new();
    };
    seals.append(&mut message.target().countersignatures(asked));
    seals
}

/// Returns the signatures, MACs and ciphertexts of a message, with its countersignatures, and of
/// those in its payload. Returns `None` if the bytes aren't a message.
///
/// The message is of the form `form`, plain or under its tag. Without a form, its tag names it. Tag
/// 61 may be around that tag (RFC 8392, section 6). A message without any tag is of the first form
/// that fits: `COSE_Sign1`, `COSE_Mac0`, `COSE_Encrypt0`, and then those with lists.
///
/// A payload that is a message under its tag is the next layer. There are at most four layers.
/// `external_aad` is that of each layer.
pub fn seals_of(form: Option<Form>, bytes: &[u8], external_aad: &[u8]) -> Option<Seals> {
    let outermost = read_outermost(form, bytes)?;
    let mut seals = Vec::new();
    let mut next = Some(outermost);
    for layer in 0..LAYERS {
        let Some(message) = next else {
            break;
        };
        seals.append(&mut of_message(
            &Asked {
                layer,
                external_aad,
            },
            &message,
        ));
        next = message
            .into_payload()
            .and_then(|payload| read_tagged(&payload));
    }
    let has_more = MOST < seals.len();
    seals.truncate(MOST);
    Some(Seals { seals, has_more })
}
