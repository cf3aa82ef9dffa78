//! The token of RFC 8392, appendix A.3, verified by the command `openssl`. Without it the tests are
//! left out.

use a3::{KEYS, TOKEN};
use coset::CoseKey;
use coset::iana::Algorithm;
use coset_cwt::{Audience, Ciphers, Issuer, KeyRing, Policy, keys_from_slice, verify_token};
use std::fs;
use std::path::Path;
use std::process::Command;
use std::thread;

mod a3;

/// A second between `nbf` and `exp` of the token.
const NOW: i64 = 1_444_000_000;

/// The offset of the label of `kid`, which no signature covers.
const KEY_ID_LABEL: usize = 7;

/// What comes before a point on P-256 in a public key's DER (RFC 5480, section 2).
const POINT_INFO: &[u8] = b"\x30\x59\x30\x13\x06\x07\x2a\x86\x48\xce\x3d\x02\x01\x06\x08\x2a\x86\
    \x48\xce\x3d\x03\x01\x07\x03\x42\x00";

/// ES256 on P-256, by the command `openssl`.
struct OpenSsl;

/// Returns an unsigned number's DER.
fn der_integer(number: &[u8]) -> Vec<u8> {
    let zeros = number.iter().take_while(|byte| **byte == 0).count();
    let mut digits = number[zeros.min(number.len() - 1)..].to_vec();
    if digits[0] >= 0x80 {
        digits.insert(0, 0);
    }
    [&[2, digits.len() as u8], &digits[..]].concat()
}

/// Returns true if `openssl` accepts the signature `r || s` of the input.
fn is_accepted(folder: &Path, point: &[u8], input: &[u8], proof: &[u8]) -> bool {
    let numbers = [der_integer(&proof[..32]), der_integer(&proof[32..])].concat();
    let signature = [&[0x30, numbers.len() as u8], &numbers[..]].concat();
    fs::create_dir_all(folder).unwrap();
    fs::write(folder.join("key"), [POINT_INFO, point].concat()).unwrap();
    fs::write(folder.join("signature"), signature).unwrap();
    fs::write(folder.join("input"), input).unwrap();
    let words = "dgst -sha256 -keyform DER -verify key -signature signature input";
    let mut command = Command::new("openssl");
    command.args(words.split(' ')).current_dir(folder);
    command.output().unwrap().status.success()
}

impl Ciphers for OpenSsl {
    type Error = &'static str;

    fn verify(
        &self,
        key: &CoseKey,
        algorithm: Algorithm,
        input: &[u8],
        proof: &[u8],
    ) -> Result<(), &'static str> {
        let test = thread::current();
        let folder = Path::new(env!("CARGO_TARGET_TMPDIR")).join(test.name().unwrap_or("main"));
        let point = key.to_sec1_octet_string().map_err(|_| "no point")?;
        match algorithm {
            Algorithm::ES256 if is_accepted(&folder, &point, input, proof) => Ok(()),
            _ => Err("refused"),
        }
    }

    fn decrypt(
        &self,
        _: &CoseKey,
        _: Algorithm,
        _nonce: &[u8],
        _aad: &[u8],
        _ciphertext: &[u8],
    ) -> Result<Vec<u8>, &'static str> {
        Err("no ciphers")
    }
}

/// Verifies a token, with the key of A.2.3. Returns its subject.
fn subject_of(token: &[u8]) -> Result<String, String> {
    let keys = keys_from_slice(KEYS).unwrap();
    let issuers = [Issuer {
        name: Some("coap://as.example.com"),
        keys: &keys,
    }];
    let ring = KeyRing {
        issuers: &issuers,
        ciphers: OpenSsl,
    };
    let policy = Policy {
        algorithms: &[Algorithm::ES256],
        audience: Audience::OneOf(&["coap://light.example.com"]),
        ..Policy::strict()
    };
    match verify_token(&policy, &ring, token, NOW) {
        Ok(token) => Ok(token.claims.subject.unwrap()),
        Err(error) => Err(format!("{error:?}")),
    }
}

/// Returns true if the command `openssl` is there. Says so if it isn't.
fn has_openssl() -> bool {
    let asked = Command::new("openssl").arg("version").output();
    let found = asked.is_ok_and(|told| told.status.success());
    if !found {
        eprintln!("openssl isn't in PATH: left out");
    }
    found
}

#[test]
fn the_example_is_verified() {
    if has_openssl() {
        assert_eq!(subject_of(TOKEN), Ok("erikw".into()));
    }
}

#[test]
fn a_changed_bit_is_refused() {
    if !has_openssl() {
        return;
    }
    let refused = |place: &usize| {
        let mut changed = TOKEN.to_vec();
        changed[*place] ^= 1;
        subject_of(&changed).is_err()
    };
    let accepted: Vec<usize> = (0..TOKEN.len()).filter(|place| !refused(place)).collect();
    assert_eq!(accepted, [KEY_ID_LABEL]);
}
