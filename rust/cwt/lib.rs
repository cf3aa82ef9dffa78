//! Verifies CBOR web tokens (CWT, RFC 8392) by the caller's keys, ciphers and policy.
//!
//! A token is one message of COSE or several, nested, around a set of claims. [`verify_token`]
//! returns the claims if the keys accept each message and the token meets a [`Policy`]. It checks
//! algorithms, keys, critical labels, issuer, audience, times and types. It doesn't check for
//! replay.
//!
//! # Example
//!
//! This program verifies the signed token of RFC 8392, appendix A.3.
//!
//! ```
//! use coset::CoseKey;
//! use coset::iana::Algorithm;
//! use coset_cwt::{Audience, Ciphers, Issuer, KeyRing, Policy, keys_from_slice, verify_token};
//!
//! struct MyCiphers;
//!
//! impl Ciphers for MyCiphers {
//!     type Error = Refused;
//!
//!     fn verify(
//!         &self,
//!         key: &CoseKey,
//!         algorithm: Algorithm,
//!         input: &[u8],
//!         proof: &[u8],
//!     ) -> Result<(), Refused> {
//!         let point = key.to_sec1_octet_string().map_err(|_| Refused)?;
//!         match algorithm {
//!             // This function is your cryptographic library's.
//!             Algorithm::ES256 if es256_accepts(&point, input, proof) => Ok(()),
//!             _ => Err(Refused),
//!         }
//!     }
//!
//!     fn decrypt(
//!         &self,
//!         _: &CoseKey,
//!         _: Algorithm,
//!         _nonce: &[u8],
//!         _aad: &[u8],
//!         _ciphertext: &[u8],
//!     ) -> Result<Vec<u8>, Refused> {
//!         Err(Refused)
//!     }
//! }
//!
//! # mod a3 {
//! #     include!(concat!(env!("CARGO_MANIFEST_DIR"), "/tests/a3/mod.rs"));
//! # }
//! # use a3::{KEYS, TOKEN};
//! # #[derive(Debug)]
//! # struct Refused;
//! # impl std::fmt::Display for Refused {
//! #     fn fmt(&self, f: &mut std::fmt::Formatter<'_>) -> std::fmt::Result {
//! #         f.write_str("refused")
//! #     }
//! # }
//! # impl std::error::Error for Refused {}
//! # // Knows the one signature of the example, which OpenSSL verifies in tests/openssl.rs.
//! # fn es256_accepts(point: &[u8], input: &[u8], proof: &[u8]) -> bool {
//! #     let signed = [b"\x84\x6aSignature1\x43\xa1\x01\x26\x40", &TOKEN[27..109]].concat();
//! #     let of_key = [b"\x04", &KEYS[40..72], &KEYS[5..37]].concat();
//! #     point == of_key && input == signed && proof == &TOKEN[111..]
//! # }
//! # fn main() -> Result<(), Box<dyn std::error::Error>> {
//! let keys = keys_from_slice(KEYS)?;
//! let issuers = [Issuer { name: Some("coap://as.example.com"), keys: &keys }];
//! let ring = KeyRing { issuers: &issuers, ciphers: MyCiphers };
//! let policy = Policy {
//!     algorithms: &[Algorithm::ES256],
//!     audience: Audience::OneOf(&["coap://light.example.com"]),
//!     ..Policy::strict()
//! };
//! let token = verify_token(&policy, &ring, TOKEN, 1_443_944_944)?;
//! assert_eq!(token.issuer, Some("coap://as.example.com"));
//! assert_eq!(token.claims.subject.as_deref(), Some("erikw"));
//! # let mut changed = TOKEN.to_vec();
//! # changed[TOKEN.len() - 1] ^= 1;
//! # assert!(verify_token(&policy, &ring, &changed, 1_443_944_944).is_err());
//! # Ok(())
//! # }
//! ```
//!
//! The time is in seconds since 1970 began in UTC. Remember `issuer` and `cti` of a token until it
//! expires, and refuse a token that you remember.
//!
//! # Ciphers and keys
//!
//! - This crate has no ciphers. Implement [`Ciphers`] by a cryptographic library. The folder
//!   `rust/ring` of the repository does it by the crate `ring`, to be copied.
//! - A [`KeyRing`] tries the keys that fit a message, at most [`MAX_KEYS`]. A key fits if its
//!   `alg`, type, curve, lengths and operations are right for the message ([`fits`]). So your
//!   ciphers get only such keys.
//! - For keys that aren't in a set, such as those of a hardware module, implement [`Keys`]. Its
//!   comment lists what you then check yourself.
//! - If a token has the claim `cnf`, its sender must prove to possess a key. [`confirmation`] reads
//!   it. [`nonces`] reads the nonces of an attestation token.
//! - [`thumbprint_input`] returns the bytes that are hashed for the thumbprint of a key.
//! - [`judge`] checks one signature and two times, and nothing else.
//!
//! # Names
//!
//! Comments name the crates of the proved sources: `cwt_keys`, `cwt_ring`, `cwt_verify`,
//! `cwt_confirm`, `cwt_gate` and `cose_thumbprint`. Their public items are all at the root here. A
//! `view` in a comment is what contracts know of a caller's type. There is none in Rust.
//!
//! # What is proved
//!
//! Proved are the Rattle sources and their x86-64 build, as the page of [`coset`] says. This
//! package is made from the same text by a program and by rustc. Neither step is proved. Tests show
//! that it answers the same.

#![no_std]
#![forbid(unsafe_code)]

#[doc(inline)]
pub use coset::__proved::cose_thumbprint::{ThumbprintError, thumbprint_input};
#[doc(inline)]
pub use coset::__proved::cwt_confirm::{
    Confirmation, ConfirmationError, EncryptedKey, NonceError, confirmation, nonces,
};
#[doc(inline)]
pub use coset::__proved::cwt_gate::{GateError, judge};
#[doc(inline)]
pub use coset::__proved::cwt_keys::{
    Form, KeyKind, Keys, Row, Sealed, is_for, row_for, single_form,
};
#[doc(inline)]
pub use coset::__proved::cwt_ring::{
    Ciphers, Issuer, KeyError, KeyRing, MAX_KEYS, Nonce, fits, keys_from_slice,
};
#[doc(inline)]
pub use coset::__proved::cwt_verify::{
    Audience, Authentication, LayerError, Part, Policy, TokenError, VerifiedLayer, VerifiedToken,
    verify_token,
};
