//! The countersignatures in the unprotected header of a message (RFC 8152, section 4.5; RFC 9338).

use crate::seals::layers::{Asked, MOST};
use crate::seals::seal::{Part, Seal};
use coset::{
    Header, ProtectedHeader, SignatureContext, countersign_v2_structure_data,
    countersign0_v2_structure_data, sig_structure_data,
};
use coset_cwt::Form;

/// The message that is countersigned.
#[derive(Clone, Copy)]
pub(crate) struct Target<'a> {
    /// Its protected header.
    pub protected: &'a ProtectedHeader,
    /// Its unprotected header, with the countersignatures.
    pub unprotected: &'a Header,
    /// Its payload or ciphertext, or `None` if that is detached.
    pub content: Option<&'a [u8]>,
    /// Its byte string after the second, or `None` if there is none.
    pub other: Option<&'a [u8]>,
}

impl Target<'_> {
    /// Returns the structure of a countersignature without other fields, with this protected
    /// header.
    fn structure(&self, asked: &Asked, signer: &ProtectedHeader) -> Option<Vec<u8>> {
        Some(sig_structure_data(
            SignatureContext::CounterSignature,
            self.protected.clone(),
            Some(signer.clone()),
            asked.external_aad,
            self.content?,
        ))
    }

    /// Returns the structure of a countersignature of version 2 with this protected header (RFC
    /// 9338, section 3.3).
    fn structure_v2(&self, asked: &Asked, signer: &ProtectedHeader) -> Option<Vec<u8>> {
        let Some(other) = self.other else {
            return self.structure(asked, signer);
        };
        Some(countersign_v2_structure_data(
            self.protected.clone(),
            signer.clone(),
            asked.external_aad,
            self.content?,
            &[other.to_vec()],
        ))
    }

    /// Returns the structure of an abbreviated countersignature of version 2 (RFC 9338, section
    /// 3.3). Returns `None` if the message has no other fields.
    fn structure_abbreviated(&self, asked: &Asked) -> Option<Vec<u8>> {
        let others = [self.other?.to_vec()];
        let (protected, content) = (self.protected.clone(), self.content?);
        Some(countersign0_v2_structure_data(
            protected,
            asked.external_aad,
            content,
            &others,
        ))
    }

    /// Returns the countersignatures under label 7, or the first `MOST` + 1 of them.
    fn first_version(&self, asked: &Asked) -> impl Iterator<Item = Seal> {
        let list = self
            .unprotected
            .counter_signatures
            .iter()
            .take(MOST + 1)
            .enumerate();
        list.map(|(index, signed)| Seal {
            proof: signed.signature.clone(),
            structure: self.structure(asked, &signed.protected),
            ..asked.countersignature(
                Part::Countersignature(index),
                &signed.protected,
                &signed.unprotected,
            )
        })
    }

    /// Returns the countersignatures under label 11, or the first `MOST` + 1 of them.
    fn second_version(&self, asked: &Asked) -> impl Iterator<Item = Seal> {
        let list = self
            .unprotected
            .countersignatures_v2
            .iter()
            .take(MOST + 1)
            .enumerate();
        list.map(|(index, signed)| Seal {
            proof: signed.signature.clone(),
            structure: self.structure_v2(asked, &signed.protected),
            ..asked.countersignature(
                Part::CountersignatureV2(index),
                &signed.protected,
                &signed.unprotected,
            )
        })
    }

    /// Returns the countersignature under label 12, if there is one. It has no headers of its own.
    fn abbreviated(&self, asked: &Asked) -> Option<Seal> {
        let (protected, unprotected) = (ProtectedHeader::default(), Header::default());
        Some(Seal {
            proof: self.unprotected.countersignature0_v2.clone()?,
            structure: self.structure_abbreviated(asked),
            ..asked.countersignature(Part::AbbreviatedV2, &protected, &unprotected)
        })
    }

    /// Returns the countersignatures under labels 7, 11 and 12, of each label the first `MOST` + 1.
    pub(crate) fn countersignatures(&self, asked: &Asked) -> Vec<Seal> {
        let lists = self.first_version(asked).chain(self.second_version(asked));
        lists.chain(self.abbreviated(asked)).collect()
    }
}

impl Asked<'_> {
    /// Returns a countersignature with these headers, of which the rest is empty.
    fn countersignature(
        &self,
        part: Part,
        protected: &ProtectedHeader,
        unprotected: &Header,
    ) -> Seal {
        Seal::of(self.layer, part, Form::Sign, protected, unprotected)
    }
}
