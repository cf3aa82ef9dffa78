//! What headers have that a receiver must understand, or must refuse.

use coset::{CoseRecipient, Header, Label};
use std::collections::BTreeSet;

/// What the headers of a layer have.
#[derive(Clone, Copy, Debug, Default, PartialEq, Eq)]
pub struct Remarks {
    /// Whether a header lists critical labels (RFC 9052, section 3.1).
    pub is_critical: bool,
    /// Whether a label is in both headers (RFC 9052, section 3).
    pub is_in_both: bool,
}

/// Returns which parameters that are fields of the header are set.
fn fields(header: &Header) -> [bool; 9] {
    [
        header.alg.is_some(),
        !header.crit.is_empty(),
        header.content_type.is_some(),
        !header.key_id.is_empty(),
        !header.iv.is_empty(),
        !header.partial_iv.is_empty(),
        !header.counter_signatures.is_empty(),
        !header.countersignatures_v2.is_empty(),
        header.countersignature0_v2.is_some(),
    ]
}

/// Returns true if both headers have a label.
fn share_label(one: &Header, other: &Header) -> bool {
    let mut pairs = fields(one).into_iter().zip(fields(other));
    let labels: BTreeSet<&Label> = one.rest.iter().map(|(label, _)| label).collect();
    pairs.any(|pair| pair == (true, true))
        || other.rest.iter().any(|(label, _)| labels.contains(label))
}

impl Remarks {
    /// Returns what the two headers of a layer have.
    pub(crate) fn of(protected: &Header, unprotected: &Header) -> Remarks {
        Remarks {
            is_critical: !protected.crit.is_empty() || !unprotected.crit.is_empty(),
            is_in_both: share_label(protected, unprotected),
        }
    }

    /// Returns that a recipient's header lists critical labels, if one does.
    pub(crate) fn of_recipients(recipients: &[CoseRecipient]) -> Remarks {
        let is_critical = recipients.iter().any(|recipient| {
            !recipient.protected.header.crit.is_empty() || !recipient.unprotected.crit.is_empty()
        });
        Remarks {
            is_critical,
            is_in_both: false,
        }
    }

    /// Returns what these headers or others have.
    pub(crate) fn or(self, other: Remarks) -> Remarks {
        Remarks {
            is_critical: self.is_critical || other.is_critical,
            is_in_both: self.is_in_both || other.is_in_both,
        }
    }

    /// Returns the words of the remarks, or `-` if there are none.
    pub fn words(self) -> &'static str {
        match (self.is_critical, self.is_in_both) {
            (false, false) => "-",
            (true, false) => "critical",
            (false, true) => "both",
            (true, true) => "critical,both",
        }
    }
}
