"""Issues a signed web token (RFC 8392), with the caller's cryptography."""
import coset


def issued(claims, key_id, sign):
    """Returns a token with these claims, signed by ES256, or None if `sign` returns None or no bytes. `sign` gets the
    bytes to sign."""
    payload = coset.put_all(coset.CLAIMS, b"", claims)
    protected = coset.put(coset.HEADER, b"", 1, -7)
    unprotected = coset.put(coset.HEADER, b"", 4, key_id)
    signature = sign(coset.structure_of(coset.SIGN1, protected, payload))
    if not signature:
        return None
    return coset.make(coset.SIGN1 + coset.TAGGED, protected, unprotected, payload, signature)
