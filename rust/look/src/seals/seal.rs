//! A signature, MAC or ciphertext of a message, with what decides which key fits it.

use crate::seals::remarks::Remarks;
use coset::{Header, ProtectedHeader};
use coset_cwt::{Form, Sealed};

/// The part of a message that a seal is.
#[derive(Clone, Copy, Debug, PartialEq, Eq)]
pub enum Part {
    /// The signature of a `COSE_Sign1`.
    Signature,
    /// The signature at this index of a `COSE_Sign`.
    Signer(usize),
    /// The MAC of a `COSE_Mac0` or a `COSE_Mac`.
    Tag,
    /// The ciphertext of a `COSE_Encrypt0` or a `COSE_Encrypt`.
    Ciphertext,
    /// The countersignature at this index under label 7 (RFC 8152, section 4.5).
    Countersignature(usize),
    /// The countersignature of version 2 at this index under label 11 (RFC 9338, section 3.1).
    CountersignatureV2(usize),
    /// The abbreviated countersignature of version 2 under label 12 (RFC 9338, section 3.2).
    AbbreviatedV2,
}

/// A signature, MAC or ciphertext of a message, with the headers that say which key it is by.
pub struct Seal {
    /// The index of the message, from the outermost in.
    pub layer: usize,
    /// The part of the message.
    pub part: Part,
    /// The form of the layer. It is `Sign` for a signature with headers of its own.
    pub form: Form,
    /// The protected header, with the bytes as they were received.
    pub protected: ProtectedHeader,
    /// The unprotected header.
    pub unprotected: Header,
    /// The unprotected header of the only recipient, if there is exactly one.
    pub recipient: Option<Header>,
    /// The signature or the MAC; empty for a ciphertext.
    pub proof: Vec<u8>,
    /// The bytes that the signature or the MAC covers, or `None` if the payload is detached or the
    /// library makes no such structure. `None` for a ciphertext.
    pub structure: Option<Vec<u8>>,
    /// What headers outside the seal's own two have: those of the message around a signature of a
    /// `COSE_Sign`, and those of recipients.
    pub outside: Remarks,
}

impl Seal {
    /// Returns a seal with these headers and an empty proof, without a structure and a recipient.
    pub(crate) fn of(
        layer: usize,
        part: Part,
        form: Form,
        protected: &ProtectedHeader,
        unprotected: &Header,
    ) -> Seal {
        Seal {
            layer,
            part,
            form,
            protected: protected.clone(),
            unprotected: unprotected.clone(),
            recipient: None,
            proof: Vec::new(),
            structure: None,
            outside: Remarks::default(),
        }
    }

    /// Returns what the headers of the seal's layer have, and those of recipients and of a message
    /// around it.
    pub fn remarks(&self) -> Remarks {
        Remarks::of(&self.protected.header, &self.unprotected).or(self.outside)
    }

    /// Returns the parts that decide which key fits.
    pub fn sealed(&self) -> Sealed<'_> {
        let (protected, unprotected) = (&self.protected, &self.unprotected);
        let (proof, structure) = (&self.proof, self.structure.as_deref().unwrap_or_default());
        match &self.recipient {
            Some(recipient) => Sealed::for_recipient(
                self.form,
                protected,
                unprotected,
                proof,
                structure,
                recipient,
            ),
            None => Sealed::new(self.form, protected, unprotected, proof, structure),
        }
    }
}
