//! Messages, with their structures and closures.

use crate::types::{copied, read_back};
use coset::{
    AsCborValue, CborSerializable, CoseCountersignature, CoseEncrypt, CoseEncrypt0, CoseMac,
    CoseMac0, CoseRecipient, CoseSign, CoseSign1, EncryptionContext, TaggedCborSerializable,
};
use std::fmt::Debug;

/// The number of types here.
pub const COUNT: u8 = 8;

const AAD: &[u8] = b"external";
const DETACHED: &[u8] = b"detached";

/// Reads a message of the type of that number, and makes its calls.
pub fn attack(kind: u8, is_tagged: bool, bytes: &[u8]) {
    match kind {
        0 => read(is_tagged, bytes, sign1),
        1 => read(is_tagged, bytes, sign),
        2 => read(is_tagged, bytes, mac0),
        3 => read(is_tagged, bytes, mac),
        4 => read(is_tagged, bytes, encrypt0),
        5 => read(is_tagged, bytes, encrypt),
        6 => read(is_tagged, bytes, |_: CoseCountersignature| ()),
        _ => drop(read_back(bytes).map(recipient)),
    }
}

/// Reads a message, under its tag or without it, and gives it to `calls`.
fn read<T>(is_tagged: bool, bytes: &[u8], calls: impl FnOnce(T))
where
    T: CborSerializable + TaggedCborSerializable + AsCborValue + Clone + PartialEq + Debug,
{
    if !is_tagged {
        read_back(bytes).map(calls);
        return;
    }
    let any = T::from_any_slice(bytes);
    let Ok(value) = T::from_tagged_slice(bytes) else {
        assert_eq!(any.is_ok(), T::from_slice(bytes).is_ok());
        return;
    };
    assert!(any.is_ok_and(|any| any == value));
    let written = copied(&value).to_tagged_vec().expect("it is written");
    let again = T::from_tagged_slice(&written).expect("what was written is read");
    assert!(again == value);
    calls(value);
}

/// A verifier that gets the bytes that the message says, and accepts.
fn accepts<'a>(
    proof: &'a [u8],
    structure: &'a [u8],
) -> impl FnOnce(&[u8], &[u8]) -> Result<(), ()> + 'a {
    move |got, bytes| {
        assert_eq!((got, bytes), (proof, structure));
        Ok(())
    }
}

/// A cipher that gets the bytes that the message says, and returns them in their order.
fn opens<'a>(aad: &'a [u8]) -> impl FnOnce(&[u8], &[u8]) -> Result<Vec<u8>, ()> + 'a {
    move |ciphertext, got| {
        assert_eq!(got, aad);
        Ok(ciphertext.to_vec())
    }
}

fn sign1(message: CoseSign1) {
    let structure = message.tbs_data(AAD);
    let accepted = message.verify_signature(AAD, accepts(&message.signature, &structure));
    assert_eq!(accepted, Ok(()));
    assert_eq!(message.verify_signature(AAD, |_, _| Err(3)), Err(3));
    if message.payload.is_none() {
        let structure = message.tbs_detached_data(DETACHED, AAD);
        let verifier = accepts(&message.signature, &structure);
        assert_eq!(
            message.verify_detached_signature(DETACHED, AAD, verifier),
            Ok(())
        );
    }
}

fn sign(message: CoseSign) {
    for (which, signature) in message.signatures.iter().enumerate() {
        let structure = message.tbs_data(AAD, signature);
        let accepted =
            message.verify_signature(which, AAD, accepts(&signature.signature, &structure));
        assert_eq!(accepted, Ok(()));
        if message.payload.is_none() {
            let structure = message.tbs_detached_data(DETACHED, AAD, signature);
            let verifier = accepts(&signature.signature, &structure);
            let accepted = message.verify_detached_signature(which, DETACHED, AAD, verifier);
            assert_eq!(accepted, Ok(()));
        }
    }
}

fn mac0(message: CoseMac0) {
    if message.payload.is_some() {
        let refused = message.verify_tag(AAD, |tag, structure| {
            assert!(!structure.is_empty() && tag == message.tag);
            Err(3)
        });
        assert_eq!(refused, Err(3));
    }
    let accepted = message.verify_payload_tag(AAD, || false, |_, _| Ok(()));
    assert_eq!(accepted.is_ok(), message.payload.is_some());
}

fn mac(message: CoseMac) {
    if message.payload.is_some() {
        let refused = message.verify_tag(AAD, |tag, structure| {
            assert!(!structure.is_empty() && tag == message.tag);
            Err(3)
        });
        assert_eq!(refused, Err(3));
    }
    message.recipients.into_iter().for_each(recipient);
}

fn encrypt0(message: CoseEncrypt0) {
    let aad = message.aad(AAD);
    if message.ciphertext.is_some() {
        assert_eq!(message.decrypt(AAD, opens(&aad)).ok(), message.ciphertext);
    }
}

fn encrypt(message: CoseEncrypt) {
    let aad = message.aad(AAD);
    if message.ciphertext.is_some() {
        assert_eq!(message.decrypt(AAD, opens(&aad)).ok(), message.ciphertext);
    }
    message.recipients.into_iter().for_each(recipient);
}

fn recipient(recipient: CoseRecipient) {
    let context = EncryptionContext::RecRecipient;
    let aad = recipient.aad(context, AAD);
    if recipient.ciphertext.is_some() {
        let opened = recipient.decrypt(context, AAD, opens(&aad));
        assert_eq!(opened.ok(), recipient.ciphertext);
    }
}
