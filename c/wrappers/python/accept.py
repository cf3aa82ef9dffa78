"""Accepts web tokens (RFC 8392) of the issuers whose keys are known."""
import coset


def accepted(token, issuers, now=None, ciphers=None):
    """Returns a token that a key of one of the issuers signed. `issuers` has a COSE_KeySet for each issuer's name.
    `ciphers` are those of the package `cryptography` if it is None."""
    ring = coset.KeyRing(issuers, ciphers)
    return coset.verify_token(token, ring, [coset.ES256], audience=["coap://light.example.com"], leeway=60, now=now)
