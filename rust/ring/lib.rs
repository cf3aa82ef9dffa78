//! Ciphers for web tokens by the crate `ring`: an example to copy.
//!
//! Of a token's algorithms it has those of `ring`: ECDSA on P-256 and P-384, Ed25519, RSA, HMAC
//! without shortened tags, AES-GCM except with 192 bits, and ChaCha20/Poly1305. Keys with
//! compressed points are refused.

#![forbid(unsafe_code)]

use coset::cbor::value::Value;
use coset::iana::{Algorithm, EnumI64, OkpKeyParameter, RsaKeyParameter, SymmetricKeyParameter};
use coset::{CoseKey, Label};
use coset_cwt::Ciphers;
use ring::error::Unspecified;
use ring::signature::{RsaPublicKeyComponents, UnparsedPublicKey};
use ring::{aead, hmac, signature};

/// The ciphers of `ring`, for a [`KeyRing`](coset_cwt::KeyRing).
#[derive(Clone, Copy, Debug)]
pub struct RingCiphers;

/// Returns a member of the key that is a byte string.
fn member(key: &CoseKey, label: i64) -> Result<&[u8], Unspecified> {
    match key.get(&Label::Int(label)) {
        Some(Value::Bytes(bytes)) => Ok(bytes),
        _ => Err(Unspecified),
    }
}

/// A signature or MAC, and the bytes that it is over.
struct Proof<'a> {
    key: &'a CoseKey,
    input: &'a [u8],
    proof: &'a [u8],
}

impl Proof<'_> {
    /// Verifies a signature by ECDSA.
    fn by_curve(&self, algorithm: &'static signature::EcdsaVerificationAlgorithm) -> Outcome {
        let point = self.key.to_sec1_octet_string().map_err(|_| Unspecified)?;
        UnparsedPublicKey::new(algorithm, point).verify(self.input, self.proof)
    }

    /// Verifies a signature on Ed25519.
    fn by_ed25519(&self) -> Outcome {
        let x = member(self.key, OkpKeyParameter::X.to_i64())?;
        UnparsedPublicKey::new(&signature::ED25519, x).verify(self.input, self.proof)
    }

    /// Verifies a signature by RSA.
    fn by_rsa(&self, parameters: &'static signature::RsaParameters) -> Outcome {
        let n = member(self.key, RsaKeyParameter::N.to_i64())?;
        let e = member(self.key, RsaKeyParameter::E.to_i64())?;
        RsaPublicKeyComponents { n, e }.verify(parameters, self.input, self.proof)
    }

    /// Verifies a MAC.
    fn by_hmac(&self, algorithm: hmac::Algorithm) -> Outcome {
        let k = member(self.key, SymmetricKeyParameter::K.to_i64())?;
        hmac::verify(&hmac::Key::new(algorithm, k), self.input, self.proof)
    }
}

/// The result of verifying.
type Outcome = Result<(), Unspecified>;

impl Ciphers for RingCiphers {
    type Error = Unspecified;

    fn verify(
        &self,
        key: &CoseKey,
        algorithm: Algorithm,
        input: &[u8],
        proof: &[u8],
    ) -> Result<(), Unspecified> {
        let it = Proof { key, input, proof };
        match algorithm {
            Algorithm::ES256 | Algorithm::ESP256 => {
                it.by_curve(&signature::ECDSA_P256_SHA256_FIXED)
            }
            Algorithm::ES384 | Algorithm::ESP384 => {
                it.by_curve(&signature::ECDSA_P384_SHA384_FIXED)
            }
            Algorithm::EdDSA | Algorithm::Ed25519 => it.by_ed25519(),
            Algorithm::RS256 => it.by_rsa(&signature::RSA_PKCS1_2048_8192_SHA256),
            Algorithm::RS384 => it.by_rsa(&signature::RSA_PKCS1_2048_8192_SHA384),
            Algorithm::RS512 => it.by_rsa(&signature::RSA_PKCS1_2048_8192_SHA512),
            Algorithm::PS256 => it.by_rsa(&signature::RSA_PSS_2048_8192_SHA256),
            Algorithm::PS384 => it.by_rsa(&signature::RSA_PSS_2048_8192_SHA384),
            Algorithm::PS512 => it.by_rsa(&signature::RSA_PSS_2048_8192_SHA512),
            Algorithm::HMAC_256_256 => it.by_hmac(hmac::HMAC_SHA256),
            Algorithm::HMAC_384_384 => it.by_hmac(hmac::HMAC_SHA384),
            Algorithm::HMAC_512_512 => it.by_hmac(hmac::HMAC_SHA512),
            _ => Err(Unspecified),
        }
    }

    fn decrypt(
        &self,
        key: &CoseKey,
        algorithm: Algorithm,
        nonce: &[u8],
        aad: &[u8],
        ciphertext: &[u8],
    ) -> Result<Vec<u8>, Unspecified> {
        let cipher = match algorithm {
            Algorithm::A128GCM => &aead::AES_128_GCM,
            Algorithm::A256GCM => &aead::AES_256_GCM,
            Algorithm::ChaCha20Poly1305 => &aead::CHACHA20_POLY1305,
            _ => return Err(Unspecified),
        };
        let secret = member(key, SymmetricKeyParameter::K.to_i64())?;
        let opener = aead::LessSafeKey::new(aead::UnboundKey::new(cipher, secret)?);
        let nonce = aead::Nonce::try_assume_unique_for_key(nonce)?;
        let mut opened = ciphertext.to_vec();
        let len = opener
            .open_in_place(nonce, aead::Aad::from(aad), &mut opened)?
            .len();
        opened.truncate(len);
        Ok(opened)
    }
}
