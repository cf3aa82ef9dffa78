//! A message's own signatures, its MAC or its ciphertext, each with the bytes that it covers (RFC
//! 8152, sections 4.4 and 6.3).

use crate::seals::layers::{Asked, MOST};
use crate::seals::message::Message;
use crate::seals::remarks::Remarks;
use crate::seals::seal::{Part, Seal};
use coset::{CoseMac, CoseSign, Result};
use coset_cwt::Form;

/// Returns the MAC of a message with recipients.
fn of_mac(asked: &Asked, message: &CoseMac) -> Result<Seal> {
    let recipient = match message.recipients.as_slice() {
        [recipient] => Some(recipient.unprotected.clone()),
        _ => None,
    };
    Ok(Seal {
        recipient,
        proof: message.tag.clone(),
        structure: message.tbm(asked.external_aad)?,
        outside: Remarks::of_recipients(&message.recipients),
        ..Seal::of(
            asked.layer,
            Part::Tag,
            Form::Mac,
            &message.protected,
            &message.unprotected,
        )
    })
}

/// Returns the signatures of a message with a list of them, or the first `MOST` + 1.
fn signers(asked: &Asked, message: &CoseSign) -> Vec<Seal> {
    let signer = |(index, signed): (usize, &coset::CoseSignature)| {
        let payload = message.payload.as_ref();
        let (protected, unprotected) = (&signed.protected, &signed.unprotected);
        Seal {
            proof: signed.signature.clone(),
            structure: payload.map(|_| message.tbs_data(asked.external_aad, signed)),
            outside: Remarks::of(&message.protected.header, &message.unprotected),
            ..Seal::of(
                asked.layer,
                Part::Signer(index),
                Form::Sign,
                protected,
                unprotected,
            )
        }
    };
    message
        .signatures
        .iter()
        .take(MOST + 1)
        .enumerate()
        .map(signer)
        .collect()
}

/// Returns the message's signatures, its MAC or its ciphertext. Of a list, they are the first 17 at
/// most.
pub(crate) fn own_seals(asked: &Asked, message: &Message) -> Result<Vec<Seal>> {
    let aad = asked.external_aad;
    let (protected, unprotected) = message.headers();
    let seal = |part, form| Seal::of(asked.layer, part, form, protected, unprotected);
    Ok(match message {
        Message::Sign1(message) => vec![Seal {
            proof: message.signature.clone(),
            structure: message.payload.as_ref().map(|_| message.tbs_data(aad)),
            ..seal(Part::Signature, Form::Sign1)
        }],
        Message::Mac0(message) => vec![Seal {
            proof: message.tag.clone(),
            structure: message.tbm(aad)?,
            ..seal(Part::Tag, Form::Mac0)
        }],
        Message::Mac(message) => vec![of_mac(asked, message)?],
        Message::Sign(message) => signers(asked, message),
        Message::Encrypt0(_) => vec![seal(Part::Ciphertext, Form::Encrypt0)],
        Message::Encrypt(_) => vec![seal(Part::Ciphertext, Form::Encrypt)],
    })
}
