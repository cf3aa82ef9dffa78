//! The token of RFC 8392, appendix A.3: it is verified, and with a changed bit it isn't.

use a3::{KEYS, TOKEN};
use coset::iana::Algorithm;
use coset_cwt::{Audience, Issuer, KeyRing, Policy, keys_from_slice, verify_token};
use coset_ring::RingCiphers;

#[path = "../../cwt/tests/a3/mod.rs"]
mod a3;

/// Returns the subject of a token that is meant for the light, or `None` if it is refused.
fn subject_of(token: &[u8]) -> Option<String> {
    let keys = keys_from_slice(KEYS).ok()?;
    let issuers = [Issuer {
        name: Some("coap://as.example.com"),
        keys: &keys,
    }];
    let ring = KeyRing {
        issuers: &issuers,
        ciphers: RingCiphers,
    };
    let policy = Policy {
        algorithms: &[Algorithm::ES256],
        audience: Audience::OneOf(&["coap://light.example.com"]),
        ..Policy::strict()
    };
    verify_token(&policy, &ring, token, 1_444_000_000)
        .ok()?
        .claims
        .subject
}

#[test]
fn one_changed_bit_is_refused() {
    assert_eq!(subject_of(TOKEN).as_deref(), Some("erikw"));
    for place in [3, 40, TOKEN.len() - 1] {
        let mut changed = TOKEN.to_vec();
        changed[place] ^= 1;
        assert_eq!(subject_of(&changed), None);
    }
}
