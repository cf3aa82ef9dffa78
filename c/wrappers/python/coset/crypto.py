"""Ciphers for `coset.KeyRing`, over the package `cryptography`, which is imported when a cipher needs it.

- Signatures: ES256, ES384, ES512, ES256K, ESP256, ESP384, ESP512; EdDSA, Ed25519, Ed448; PS256, PS384, PS512, RS256,
  RS384, RS512.
- MACs: HMAC 256/64, 256/256, 384/384 and 512/512, which need Python's own `hmac` alone.
- Encryption: AES-GCM, AES-CCM and ChaCha20/Poly1305.

A key for another algorithm is refused. The ciphers don't decide which key fits. Call them only with a key that
`coset.key_fits` accepts, and with the nonce that it returns.
"""
import hmac
from importlib import import_module

import coset

_LABEL_CRV, _LABEL_X, _LABEL_Y, _LABEL_K, _LABEL_N, _LABEL_E = -1, -2, -3, -1, -1, -2
_FALSE, _TRUE = b"\xf4", b"\xf5"

# The hash functions of the algorithms, by their names in `hashlib` and in upper case in `cryptography`.
_ECDSA = {coset.ES256: "sha256", coset.ES384: "sha384", coset.ES512: "sha512", coset.ES256K: "sha256"}
_ECDSA |= {coset.ESP256: "sha256", coset.ESP384: "sha384", coset.ESP512: "sha512"}
_PSS = {coset.PS256: "sha256", coset.PS384: "sha384", coset.PS512: "sha512"}
_PKCS1 = {coset.RS256: "sha256", coset.RS384: "sha384", coset.RS512: "sha512"}
# The hash function of a MAC, and the number of bytes to which the MAC is truncated.
_HMAC = {
    coset.HMAC_256_64: ("sha256", 8),
    coset.HMAC_256_256: ("sha256", 32),
    coset.HMAC_384_384: ("sha384", 48),
    coset.HMAC_512_512: ("sha512", 64),
}
# The curves of EC2 keys (RFC 9053, section 7.1), with the length of a coordinate in bytes.
_CURVES = {1: ("SECP256R1", 32), 2: ("SECP384R1", 48), 3: ("SECP521R1", 66), 8: ("SECP256K1", 32)}
# The curves of OKP keys for EdDSA (RFC 9053, section 7.2).
_ED25519, _ED448 = 6, 7
_GCM = (coset.A128GCM, coset.A192GCM, coset.A256GCM)
# The length of the tag of AES-CCM in bytes.
_CCM = {
    coset.AES_CCM_16_64_128: 8,
    coset.AES_CCM_16_64_256: 8,
    coset.AES_CCM_64_64_128: 8,
    coset.AES_CCM_64_64_256: 8,
    coset.AES_CCM_16_128_128: 16,
    coset.AES_CCM_16_128_256: 16,
    coset.AES_CCM_64_128_128: 16,
    coset.AES_CCM_64_128_256: 16,
}

# The errors for a key that doesn't have the members of the algorithm.
_UNFIT = coset.Fault, coset.WrongType, LookupError


def _imported(module):
    """Returns a module of the package `cryptography`."""
    try:
        return import_module(f"cryptography.{module}")
    except ImportError as error:
        raise ImportError("this cipher of coset.crypto needs the package `cryptography`: pip install cryptography") from error


def _hash(name):
    return getattr(_imported("hazmat.primitives.hashes"), name.upper())()


def _member(key, name):
    """Returns the content of a string of the key."""
    return coset.label_bytes(coset.KEY, key, coset.IN_ITEM, name)


def _curve(key):
    return coset.label_int(coset.KEY, key, coset.IN_ITEM, _LABEL_CRV)


def _point(key, length):
    """Returns the public point of an EC2 key as SEC 1 encodes it. If y is a bool, it is the sign of a compressed point
    (RFC 9053, section 7.1.1)."""
    x, y = _member(key, _LABEL_X), coset.label(coset.KEY, key, coset.IN_ITEM, _LABEL_Y)
    if y in (_FALSE, _TRUE):
        sign, y = b"\x03" if y == _TRUE else b"\x02", b""
    else:
        sign, y = b"\x04", _member(key, _LABEL_Y)
    if len(x) != length or len(y) not in (0, length):
        raise ValueError("a coordinate of another length")
    return sign + x + y


def _verify_ecdsa(key, algorithm, input, proof):
    """The signature is r and s, each as long as a coordinate (RFC 9053, section 2.1). The point must be on the curve."""
    ec, utils = _imported("hazmat.primitives.asymmetric.ec"), _imported("hazmat.primitives.asymmetric.utils")
    name, length = _CURVES[_curve(key)]
    public = ec.EllipticCurvePublicKey.from_encoded_point(getattr(ec, name)(), _point(key, length))
    if len(proof) != 2 * length:
        raise ValueError("a signature of another length")
    r, s = (int.from_bytes(part, "big") for part in (proof[:length], proof[length:]))
    public.verify(utils.encode_dss_signature(r, s), input, ec.ECDSA(_hash(_ECDSA[algorithm])))


def _verify_eddsa(key, _, input, proof):
    if _curve(key) == _ED25519:
        public = _imported("hazmat.primitives.asymmetric.ed25519").Ed25519PublicKey
    elif _curve(key) == _ED448:
        public = _imported("hazmat.primitives.asymmetric.ed448").Ed448PublicKey
    else:
        raise ValueError("a curve of another algorithm")
    public.from_public_bytes(_member(key, _LABEL_X)).verify(proof, input)


def _verify_rsa(key, algorithm, input, proof):
    """The salt of PS256 and its kind is as long as the hash (RFC 8230, section 2). A signature is as long as the modulus
    (RFC 8017, section 8.1.2)."""
    rsa, padding = _imported("hazmat.primitives.asymmetric.rsa"), _imported("hazmat.primitives.asymmetric.padding")
    hash_ = _hash(_PSS.get(algorithm) or _PKCS1[algorithm])
    padded = padding.PSS(padding.MGF1(hash_), hash_.digest_size) if algorithm in _PSS else padding.PKCS1v15()
    n, e = (int.from_bytes(_member(key, name), "big") for name in (_LABEL_N, _LABEL_E))
    if len(proof) != (n.bit_length() + 7) // 8:
        raise ValueError("a signature of another length")
    rsa.RSAPublicNumbers(e, n).public_key().verify(proof, input, padded, hash_)


_EDDSA = (coset.EDDSA, coset.ED25519, coset.ED448)
_VERIFIERS = {
    **dict.fromkeys(_ECDSA, _verify_ecdsa),
    **dict.fromkeys(_EDDSA, _verify_eddsa),
    **dict.fromkeys([*_PSS, *_PKCS1], _verify_rsa),
}


def _aead(key, algorithm):
    """Returns the cipher of an algorithm with the key, or None if there is none."""
    aead = _imported("hazmat.primitives.ciphers.aead")
    if algorithm in _GCM:
        return aead.AESGCM(_member(key, _LABEL_K))
    if algorithm in _CCM:
        return aead.AESCCM(_member(key, _LABEL_K), _CCM[algorithm])
    return aead.ChaCha20Poly1305(_member(key, _LABEL_K)) if algorithm == coset.CHACHA20_POLY1305 else None


def _refusals():
    """Returns the errors for a signature, a ciphertext, a key or an algorithm that is refused."""
    exceptions = _imported("exceptions")
    refused = exceptions.InvalidSignature, exceptions.InvalidTag, exceptions.UnsupportedAlgorithm, ValueError, OverflowError
    return *refused, *_UNFIT


def _is_mac(key, algorithm, input, proof):
    """Returns True if the proof is the MAC of the input. Both are compared in constant time."""
    name, length = _HMAC[algorithm]
    try:
        secret = _member(key, _LABEL_K)
    except _UNFIT:
        return False
    return hmac.compare_digest(hmac.digest(secret, input, name)[:length], proof)


class Ciphers:
    """The ciphers of this module, for `coset.KeyRing`."""

    def verify(self, key, algorithm, input, proof):
        """Returns True if the proof is a signature or a MAC of the input by the key, a KEY. Returns False if not, or if
        there is no cipher for the algorithm."""
        if algorithm in _HMAC:
            return _is_mac(key, algorithm, input, proof)
        if algorithm not in _VERIFIERS:
            return False
        try:
            _VERIFIERS[algorithm](key, algorithm, input, proof)
        except _refusals():
            return False
        return True

    def decrypt(self, key, algorithm, nonce, aad, ciphertext):
        """Returns the plaintext of the ciphertext, which ends with its tag. The key is a KEY. Returns None if the
        ciphertext isn't authentic, or if there is no cipher for the algorithm."""
        try:
            cipher = _aead(key, algorithm)
            return None if cipher is None else cipher.decrypt(nonce, ciphertext, aad)
        except _refusals():
            return None


CIPHERS = Ciphers()
