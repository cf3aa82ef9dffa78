//! A call whose condition the caller breaks panics, with the text of coset 0.4.2 if it has one.

use coset::cbor::value::Value;
use coset::cwt::ClaimsSetBuilder;
use coset::iana::CwtClaimName;
use coset::*;

fn value() -> Value {
    Value::Null
}

fn bytes(_: &[u8]) -> Vec<u8> {
    Vec::new()
}

fn try_bytes(_: &[u8]) -> Result<Vec<u8>, ()> {
    Ok(Vec::new())
}

fn agrees(_: &[u8], _: &[u8]) -> Result<(), ()> {
    Ok(())
}

fn ciphertext(_: &[u8], _: &[u8]) -> Vec<u8> {
    Vec::new()
}

fn opens(_: &[u8], _: &[u8]) -> Result<Vec<u8>, ()> {
    Ok(Vec::new())
}

fn missing() {}

fn sign1() -> CoseSign1Builder {
    CoseSign1Builder::new().payload(vec![1])
}

fn sign() -> CoseSignBuilder {
    let signature = CoseSignature::default();
    CoseSignBuilder::new()
        .payload(vec![1])
        .add_signature(signature)
}

/// A recipient with a ciphertext.
fn recipient() -> CoseRecipient {
    CoseRecipientBuilder::new().ciphertext(vec![1]).build()
}

/// A header that has a label twice, and so no encoding.
fn twice() -> Header {
    let header = HeaderBuilder::new().value(70, value());
    header.value(70, value()).build()
}

fn protected() -> ProtectedHeader {
    ProtectedHeader::default()
}

/// Each call must panic with a text that contains this one.
macro_rules! panics {
    ($text:literal: $($name:ident => $call:expr,)*) => {$(
        #[test]
        #[should_panic(expected = $text)]
        fn $name() {
            let _ = $call;
        }
    )*};
}

panics! { "value() method used to set core header parameter":
    header_alg => HeaderBuilder::new().value(1, value()),
    header_counter_signature => HeaderBuilder::new().value(7, value()),
    header_countersignature_v2 => HeaderBuilder::new().value(11, value()),
    header_countersignature0_v2 => HeaderBuilder::new().value(12, value()),
}

panics! { "param() method used to set KeyParameter":
    key_reserved => CoseKeyBuilder::new_symmetric_key(vec![1]).param(0, value()),
    key_type => CoseKeyBuilder::new_symmetric_key(vec![1]).param(1, value()),
    key_base_iv => CoseKeyBuilder::new_symmetric_key(vec![1]).param(5, value()),
}

panics! { "claim() method used to set core claim":
    claim_issuer => ClaimsSetBuilder::new().claim(CwtClaimName::Iss, value()),
    claim_id => ClaimsSetBuilder::new().claim(CwtClaimName::Cti, value()),
}

panics! { "assertion failed: iana::CwtClaimName::is_private(id)":
    claim_of_the_registry => ClaimsSetBuilder::new().private_claim(8, value()),
    claim_at_the_bound => ClaimsSetBuilder::new().private_claim(-65_536, value()),
}

panics! { "assertion failed: self.payload.is_none()":
    sign1_data => sign1().build().tbs_detached_data(b"", b""),
    sign1_verify => sign1().build().verify_detached_signature(b"", b"", agrees),
    sign1_create => sign1().create_detached_signature(b"", b"", bytes),
    sign1_try_create => sign1().try_create_detached_signature(b"", b"", try_bytes),
    sign_data => sign().build().tbs_detached_data(b"", b"", &CoseSignature::default()),
    sign_verify => sign().build().verify_detached_signature(0, b"", b"", agrees),
    sign_add => sign().add_detached_signature(CoseSignature::default(), b"", b"", bytes),
    sign_try_add =>
        sign().try_add_detached_signature(CoseSignature::default(), b"", b"", try_bytes),
}

panics! { "index out of bounds: the len is 1 but the index is 1":
    sign_no_such_signature => sign().build().verify_signature(1, b"", agrees),
    sign_no_such_detached => sign().build().verify_detached_signature(1, b"", b"", agrees),
}

panics! { "payload missing":
    mac0_verify => CoseMac0::default().verify_tag(b"", agrees),
    mac0_create => CoseMac0Builder::new().create_tag(b"", bytes),
    mac0_try_create => CoseMac0Builder::new().try_create_tag(b"", try_bytes),
    mac_verify => CoseMac::default().verify_tag(b"", agrees),
    mac_create => CoseMacBuilder::new().create_tag(b"", bytes),
    mac_try_create => CoseMacBuilder::new().try_create_tag(b"", try_bytes),
}

panics! { "called `Option::unwrap()` on a `None` value":
    encrypt0_decrypt => CoseEncrypt0::default().decrypt(b"", opens),
    encrypt_decrypt => CoseEncrypt::default().decrypt(b"", opens),
    recipient_decrypt =>
        CoseRecipient::default().decrypt(EncryptionContext::EncRecipient, b"", opens),
}

panics! { "unsupported encryption context CoseEncrypt":
    recipient_context => recipient().decrypt(EncryptionContext::CoseEncrypt, b"", opens),
    recipient_context_of_a_message =>
        recipient().decrypt_ciphertext(EncryptionContext::CoseEncrypt0, b"", missing, opens),
    recipient_create => CoseRecipientBuilder::new()
        .create_ciphertext(EncryptionContext::CoseEncrypt, b"", b"", ciphertext),
    recipient_try_create => CoseRecipientBuilder::new()
        .try_create_ciphertext(EncryptionContext::CoseEncrypt, b"", b"", opens),
}

panics! { "failed to serialize header: duplicate map key":
    header_twice_tbs => CoseSign1Builder::new().protected(twice()).build().tbs_data(b""),
    header_twice_verify =>
        CoseSign1Builder::new().protected(twice()).build().verify_signature(b"", agrees),
    header_twice_create =>
        CoseSign1Builder::new().protected(twice()).create_signature(b"", bytes),
}

panics! { "assertion failed: !other_fields.is_empty()":
    countersigned => countersign_v2_structure_data(protected(), protected(), b"", b"", &[]),
    countersigned0 => countersign0_v2_structure_data(protected(), b"", b"", &[]),
    countersignature_verify => verify_countersignature(
        &CoseCountersignature::default(), protected(), b"", b"", &[], agrees,
    ),
}
