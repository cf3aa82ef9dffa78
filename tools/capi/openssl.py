"""The calls of coset_openssl.h, with tokens that python3-cryptography makes, and the examples of RFC 8392.

Needs the header of OpenSSL 3, and cryptography. Without them these calls are left out."""
import datetime
import hashlib
import hmac
import importlib.util
import os
import subprocess
import tempfile

from capi import calling
from capi.building import FLAGS, WRAPPERS, has_openssl, run
from capi.kinds import BY_KEYS, NAMES, OK, REFUSED, TOO_MANY_KEYS, UNFIT
from capi.tokens import item, listed, policy_of, rows, text
from cbor import byte_string, head

NOT_CLAIMS, ISSUER = NAMES.index("NotClaims"), NAMES.index("Issuer")
AS, HUB = "coap://as.example.com", "coap://hub.example.com"
CONTEXTS = {18: "Signature1", 17: "MAC0", 16: "Encrypt0"}
SIZES = {"P-256": 32, "P-384": 48, "P-521": 66, "secp256k1": 32}
CURVES = {"P-256": 1, "P-384": 2, "P-521": 3, "secp256k1": 8}
HASHES = {-7: "sha256", -9: "sha256", -47: "sha256", -37: "sha256", -257: "sha256", 4: "sha256", 5: "sha256",
          -35: "sha384", -51: "sha384", -38: "sha384", -258: "sha384", 6: "sha384",
          -36: "sha512", -52: "sha512", -39: "sha512", -259: "sha512", 7: "sha512"}
# The algorithms with the curves of their keys.
NIST = ("P-256", "P-384", "P-521")
ECDSA = {-7: NIST, -35: NIST, -36: NIST, -47: ("secp256k1",), -9: ("P-256",), -51: ("P-384",), -52: ("P-521",)}
EDDSA = {-8: (6, 7), -19: (6,), -53: (7,)}
RSA = (-37, -38, -39, -257, -258, -259)
HMAC = {4: (32, 8), 5: (32, 32), 6: (48, 48), 7: (64, 64)}
# The lengths of key, tag and nonce.
AEAD = {1: (16, 16, 12), 2: (24, 16, 12), 3: (32, 16, 12), 24: (32, 16, 12), 10: (16, 8, 13), 11: (32, 8, 13), 12: (16, 8, 7),
        13: (32, 8, 7), 30: (16, 16, 13), 31: (32, 16, 13), 32: (16, 16, 7), 33: (32, 16, 7)}


# ---- Making keys and tokens


def claims(**more):
    return item({1: AS, 2: "erikw", 4: 2000, **{int(label[1:]): value for label, value in more.items()}})


def keys_of(*keys):
    return head(4, len(keys)) + b"".join(key if isinstance(key, bytes) else item(key) for key in keys)


class Sealer:
    """A key and how it makes layers. `public` is the verifier's COSE_Key, and `prove` makes the signature, MAC or ciphertext."""

    def __init__(self, tag, algorithm, public, prove, kid=b"k"):
        self.tag, self.algorithm, self.prove = tag, algorithm, prove
        self.public = {1: public[1], 2: kid, 3: algorithm, **public}
        self.unprotected = {4: kid}

    def seal(self, content):
        """Returns a layer with that content."""
        protected = item({1: self.algorithm})
        start = head(6, self.tag) + head(4, 3 if self.tag == 16 else 4) + byte_string(protected) + item(self.unprotected)
        if self.tag == 16:
            return start + byte_string(self.prove(item([CONTEXTS[16], protected, b""]), content))
        proof = self.prove(item([CONTEXTS[self.tag], protected, b"", content]), None)
        return start + byte_string(content) + byte_string(proof)


def ecdsa(algorithm, curve, number, compressed=False):
    from cryptography.hazmat.primitives import hashes
    from cryptography.hazmat.primitives.asymmetric import ec, utils
    of = {"P-256": ec.SECP256R1, "P-384": ec.SECP384R1, "P-521": ec.SECP521R1, "secp256k1": ec.SECP256K1}[curve]()
    key, size = ec.derive_private_key(number, of), SIZES[curve]
    point = key.public_key().public_numbers()
    x, y = (it.to_bytes(size, "big") for it in (point.x, point.y))

    def prove(signed, _):
        made = key.sign(signed, ec.ECDSA(getattr(hashes, HASHES[algorithm].upper())()))
        return b"".join(it.to_bytes(size, "big") for it in utils.decode_dss_signature(made))

    return Sealer(18, algorithm, {1: 2, -1: CURVES[curve], -2: x, -3: bool(point.y & 1) if compressed else y}, prove)


def eddsa(algorithm, curve, number):
    from cryptography.hazmat.primitives import serialization
    from cryptography.hazmat.primitives.asymmetric import ed448, ed25519
    of, size = (ed25519.Ed25519PrivateKey, 32) if curve == 6 else (ed448.Ed448PrivateKey, 57)
    key = of.from_private_bytes(number.to_bytes(size, "big"))
    raw = serialization.Encoding.Raw, serialization.PublicFormat.Raw
    return Sealer(18, algorithm, {1: 1, -1: curve, -2: key.public_key().public_bytes(*raw)}, lambda signed, _: key.sign(signed))


RSA_KEYS = {}


def rsa(algorithm, which=0, bits=2048):
    from cryptography.hazmat.primitives import hashes
    from cryptography.hazmat.primitives.asymmetric import padding, rsa as of
    key = RSA_KEYS.setdefault((which, bits), None) or of.generate_private_key(65537, bits)
    RSA_KEYS[which, bits] = key
    n, e = key.public_key().public_numbers().n, key.public_key().public_numbers().e
    hashed = getattr(hashes, HASHES[algorithm].upper())()
    pad = padding.PKCS1v15() if algorithm < -200 else padding.PSS(padding.MGF1(hashed), hashed.digest_size)
    public = {1: 3, -1: n.to_bytes((n.bit_length() + 7) // 8, "big"), -2: e.to_bytes(3, "big")}
    return Sealer(18, algorithm, public, lambda signed, _: key.sign(signed, pad, hashed))


def mac(algorithm, k, length=None):
    length = HMAC[algorithm][1] if length is None else length
    return Sealer(17, algorithm, {1: 4, -1: k},
                  lambda signed, _: hmac.new(k, signed, getattr(hashlib, HASHES[algorithm])).digest()[:length])


def aead(algorithm, k, nonce, partial=None):
    """A key for encryption. With a Partial IV, the key has a Base IV so that the nonce is this one (RFC 9052, section 3.1)."""
    from cryptography.hazmat.primitives.ciphers import aead as ciphers
    if algorithm in (1, 2, 3):
        cipher = ciphers.AESGCM(k)
    else:
        cipher = ciphers.ChaCha20Poly1305(k) if algorithm == 24 else ciphers.AESCCM(k, AEAD[algorithm][1])
    made = Sealer(16, algorithm, {1: 4, -1: k}, lambda aad, content: cipher.encrypt(nonce, content, aad))
    if partial is None:
        made.unprotected[5] = nonce
    else:
        made.unprotected[6] = partial
        padded = partial.rjust(len(nonce), b"\0")
        made.public[5] = bytes(a ^ b for a, b in zip(nonce, padded))
    return made


def all_sealers():
    """Yields a key for each algorithm and curve, and another one of the same kind."""
    for algorithm, curves in ECDSA.items():
        for curve in curves:
            yield ecdsa(algorithm, curve, 12345), ecdsa(algorithm, curve, 54321)
            yield ecdsa(algorithm, curve, 99, True), ecdsa(algorithm, curve, 100, True)
            yield ecdsa(algorithm, curve, 101, True), ecdsa(algorithm, curve, 102)
    for algorithm, curves in EDDSA.items():
        for curve in curves:
            yield eddsa(algorithm, curve, 12345), eddsa(algorithm, curve, 54321)
    for algorithm in RSA:
        yield rsa(algorithm), rsa(algorithm, 1)
        yield rsa(algorithm, 2, 3072), rsa(algorithm, 3, 3072)
    for algorithm, (least, _) in HMAC.items():
        for length in (least, least + 1, 200):
            yield mac(algorithm, bytes(range(length))), mac(algorithm, bytes(range(1, length + 1)))
    for algorithm, (length, _, nonce) in AEAD.items():
        k, other, iv = bytes(range(length)), bytes(range(1, length + 1)), bytes(range(50, 50 + nonce))
        for partial in (None, b"\1", bytes(range(nonce))):
            yield aead(algorithm, k, iv, partial), aead(algorithm, other, iv, partial)


# ---- The calls: each is a token, its keys, and the right status, claims and issuer


ANY = "by=any,aud=any,algs=" + "|".join(map(str, [*ECDSA, *EDDSA, *RSA, *HMAC, *AEAD, 14, -265, -48]))


class Calls:
    """The lines that ask the program, each with the right front of its answer."""

    def __init__(self):
        self.lines, self.wanted = [], []

    def add(self, token, sets, status, payload=None, issuer=AS, policy=ANY, now=1000, call="openssl", key_id=b"k"):
        issuers = listed(f"{text(None if name is None else name.encode())}:{keys.hex() or '-'}" for name, keys in sets)
        words = [now, *policy_of(policy), issuers]
        want = [str(status)]
        if call == "openssl":
            want.append("0")
            if status == OK:
                want += [payload.hex(), None, None, text(None if issuer is None else issuer.encode())]
            elif status in BY_KEYS:
                want += [None, None, None, key_id.hex() or "-"]
        self.lines.append(calling.line(call, 0, token, words, 1 << 16))
        self.wanted.append([*want, ...])

    def good(self, token, keys, payload, **more):
        """Adds a token that is accepted, also with memory that grows from nothing."""
        sets = keys if isinstance(keys, list) else [(AS, keys)]
        self.add(token, sets, OK, payload, **more)
        self.add(token, sets, OK, call="roomy", **{name: it for name, it in more.items() if name in ("policy", "now")})

    def bad(self, token, keys, status=REFUSED, **more):
        self.add(token, keys if isinstance(keys, list) else [(AS, keys)], status, **more)


def flipped(data, bit):
    return data[:bit // 8] + bytes([data[bit // 8] ^ 1 << bit % 8]) + data[bit // 8 + 1:]


def every_algorithm(calls):
    """Adds tokens of each algorithm: by the right key, by another, by both, and with a changed proof."""
    payload = claims()
    for key, other in all_sealers():
        token = key.seal(payload)
        public = keys_of(key.public)
        calls.good(token, public, payload)
        calls.bad(token, keys_of(other.public))
        calls.good(token, keys_of(other.public, key.public), payload)
        calls.good(token, [(HUB, keys_of(other.public)), (AS, public)], payload)
        calls.bad(token, [(HUB, public)], ISSUER)
        for bit in (1, 13, 60):
            calls.bad(token[:-8] + flipped(token[-8:], bit), public)
        calls.bad(token[:-1], public, 3)
        if key.tag == 16:
            for content in (b"", b"\xa0", b"\x01"):
                sealed = key.seal(content)
                calls.bad(sealed, public, NAMES.index("NoExpiration") if content == b"\xa0" else NOT_CLAIMS)
                calls.bad(flipped(sealed, 8 * len(sealed) - 1), public)


def reproved(key, change):
    """Returns a key like this one, whose proofs are changed."""
    return Sealer(key.tag, key.algorithm, key.public, lambda signed, content: change(key.prove(signed, content)))


def by_length(key, change):
    """Returns the status of a changed proof that is no good one. No key fits a proof of a wrong length, and none is asked for an empty
    one."""
    length = len(key.prove(b"", b""))
    return REFUSED if len(change(bytes(length))) in (0, length) else UNFIT


def wrong_signatures(calls):
    """Adds signatures of other lengths and encodings."""
    payload = claims()
    for algorithm, curves in ECDSA.items():
        for curve in curves:
            key, size = ecdsa(algorithm, curve, 12345), SIZES[curve]
            changes = [lambda it: it[:-1], lambda it: it + b"\0", lambda it: b"\0" + it, lambda it: b"", lambda it: it[:-2],
                       lambda it: bytes(len(it)), lambda it: bytes(size) + it[size:], lambda it: it[:size] + bytes(size),
                       lambda it: b"\0" + it[:size] + b"\0" + it[size:], lambda it: it[size:] + it[:size],
                       lambda it: b"\xff" * len(it), lambda it, size=size: der(it, size)]
            for change in changes:
                calls.bad(reproved(key, change).seal(payload), keys_of(key.public), by_length(key, change))
    for key in [*(eddsa(algorithm, curve, 12345) for algorithm, curves in EDDSA.items() for curve in curves), *map(rsa, RSA)]:
        for change in (lambda it: it[:-1], lambda it: it + b"\0", lambda it: b"\0" + it, lambda it: b"",
                       lambda it: bytes(len(it))):
            calls.bad(reproved(key, change).seal(payload), keys_of(key.public), by_length(key, change))
    for algorithm, (length, tag) in HMAC.items():
        key = mac(algorithm, bytes(length), 64)
        for cut in (0, 1, 7, 8, 16, 31, 32, 33, 48, 64):
            token = reproved(key, lambda it, cut=cut: it[:cut]).seal(payload)
            if min(cut, getattr(hashlib, HASHES[algorithm])().digest_size) == tag:
                calls.good(token, keys_of(key.public), payload)
            else:
                calls.bad(token, keys_of(key.public), UNFIT if cut else REFUSED)


def der(signature, size):
    """Returns the signature as DER, which COSE doesn't use."""
    from cryptography.hazmat.primitives.asymmetric import utils
    return utils.encode_dss_signature(*(int.from_bytes(it, "big") for it in (signature[:size], signature[size:])))


def short_rsa(calls):
    """Adds RSA signatures that begin with a zero byte, and the same without it, which RFC 8017 refuses."""
    for algorithm in RSA:
        key, number = rsa(algorithm), 0
        while True:
            payload = claims(_7=number.to_bytes(4, "big"))
            token = key.seal(payload)
            if token[-256] == 0:
                break
            number += 1
        calls.good(token, keys_of(key.public), payload)
        calls.bad(token[:-259] + head(2, 255) + token[-255:], keys_of(key.public), UNFIT)


def wrong_points(calls):
    """Adds keys whose points aren't on their curves, which are refused. Keys whose members aren't as they should be don't fit."""
    payload = claims()
    for curve, algorithm in (("P-256", -7), ("P-384", -35), ("P-521", -36), ("secp256k1", -47)):
        key, size = ecdsa(algorithm, curve, 12345), SIZES[curve]
        token, x, y = key.seal(payload), key.public[-2], key.public[-3]
        off = (int.from_bytes(y, "big") ^ 1).to_bytes(size, "big")
        many = b"\xff" * size
        for member, value in ((-3, off), (-2, off), (-2, bytes(size)), (-3, bytes(size)), (-2, many), (-3, many), (-3, x),
                              (-3, not y[-1] & 1)):
            calls.bad(token, keys_of({**key.public, member: value}))
        for member, value in ((-2, y[1:]), (-3, y[1:]), (-3, b""), (-2, b""), (-3, b"\0" + y), (-3, 2), (-3, "y"),
                              (-1, 1 if curve != "P-256" else 2), (-1, 8 if curve == "P-256" else 6), (-1, 4)):
            calls.bad(token, keys_of({**key.public, member: value}), UNFIT)
        both = {**key.public, -2: bytes(size), -3: bytes(size)}
        calls.bad(token, keys_of(both))
        calls.good(token, keys_of({**key.public, -3: bool(y[-1] & 1)}), payload)
        # x without a point on the curve
        missing = next(it for it in range(1, 99) if not is_on(curve, it))
        calls.bad(token, keys_of({**key.public, -2: missing.to_bytes(size, "big"), -3: True}))
    for curve, size in ((6, 32), (7, 57)):
        key = eddsa(-8, curve, 12345)
        token = key.seal(payload)
        for value in (b"\xff" * size, bytes(size), b"\2" + bytes(size - 1)):
            calls.bad(token, keys_of({**key.public, -2: value}))
        for member, value in ((-2, key.public[-2][:-1]), (-2, key.public[-2] + b"\0"), (-1, 13 - curve)):
            calls.bad(token, keys_of({**key.public, member: value}), UNFIT)
    key = rsa(-37)
    token, n = key.seal(payload), key.public[-1]
    for member, value in ((-2, b"\1"), (-2, b"\2"), (-1, n[:-1] + b"\0")):
        calls.bad(token, keys_of({**key.public, member: value}))
    for member, value in ((-2, b"\0"), (-2, b""), (-1, n[:-1]), (-1, bytes(256))):
        calls.bad(token, keys_of({**key.public, member: value}), UNFIT)
    signature_of_one = Sealer(18, -257, {**rsa(-257).public, -2: b"\1"}, lambda signed, _: padded(signed))
    calls.bad(signature_of_one.seal(payload), keys_of(signature_of_one.public))


def padded(signed):
    """Returns the padded hash, which is a signature by the exponent 1."""
    info = bytes.fromhex("3031300d060960864801650304020105000420") + hashlib.sha256(signed).digest()
    return b"\0\1" + b"\xff" * (253 - len(info)) + b"\0" + info


def is_on(curve, x):
    from cryptography.hazmat.primitives.asymmetric import ec
    of = {"P-256": ec.SECP256R1, "P-384": ec.SECP384R1, "P-521": ec.SECP521R1, "secp256k1": ec.SECP256K1}[curve]()
    try:
        ec.EllipticCurvePublicKey.from_encoded_point(of, b"\3" + x.to_bytes(SIZES[curve], "big"))
    except ValueError:
        return False
    return True


def rings(calls):
    """Adds rings with keys that can't be read, without ciphers, of other algorithms, and nested tokens by several issuers."""
    payload = claims()
    signer, macer, cipher = ecdsa(-7, "P-256", 5), mac(5, bytes(range(32))), aead(10, bytes(range(16)), bytes(range(13)))
    odd = [b"\xa1\x01\x18\x63", b"\xa1\x02\x41\x01", b"\x01", b"\xf6", b"\xa2\x01\x04\x01\x04",
           item({1: 4, 2: b"k", 3: 14, -1: bytes(16)})]
    for key in (signer, macer, cipher):
        token = key.seal(payload)
        calls.good(token, keys_of(*odd, key.public), payload)
        calls.good(token, b"\x9f" + keys_of(*odd, key.public)[1:] + b"\xff", payload)
        calls.bad(token, keys_of(*odd), UNFIT)
        for data in (b"", b"\x80", b"\x9f\xff", b"\xa0", b"\x01", keys_of(key.public)[:-1], keys_of(key.public) + b"\0"):
            calls.bad(token, data, UNFIT)
        calls.bad(token, [("x", b"\x80"), (HUB, keys_of({**key.public, 2: b"other"}))], UNFIT)
        calls.bad(token, [(None, keys_of(key.public))], ISSUER)
        nameless = item({4: 2000})
        calls.good(key.seal(nameless), [(None, keys_of(key.public))], nameless, issuer=None)
        calls.good(key.seal(nameless), [("", keys_of(key.public))], nameless, issuer=None)
        calls.bad(token, [("", keys_of(key.public))], ISSUER)
        for name, value in ((3, -8 if key is not macer else 4), (4, [9]), (2, b"K"), (1, 1)):
            calls.bad(token, keys_of({**key.public, name: value}), UNFIT)
    for without in (Sealer(17, 14, {1: 4, -1: bytes(16)}, lambda signed, _: bytes(8)),
                    Sealer(18, -265, {1: 2, -1: 256, -2: bytes(32), -3: bytes(32)}, lambda signed, _: bytes(64))):
        calls.bad(without.seal(payload), keys_of(without.public))
        calls.bad(without.seal(payload), keys_of(without.public, signer.public))
    both = [(HUB, keys_of(macer.public, cipher.public)), (AS, keys_of(signer.public))]
    for outer in (macer, cipher):
        calls.good(outer.seal(signer.seal(payload)), both, payload)
        calls.good(outer.seal(cipher.seal(macer.seal(signer.seal(payload)))), both, payload)
        calls.bad(outer.seal(signer.seal(payload)), [(AS, keys_of(signer.public))], UNFIT)
        calls.bad(outer.seal(signer.seal(payload)), [(HUB, keys_of(macer.public, cipher.public))], UNFIT)
    by_key = ANY.replace("by=any,", "")
    calls.bad(signer.seal(macer.seal(payload)), both, ISSUER)
    calls.bad(signer.seal(cipher.seal(payload)), both, ISSUER)
    calls.good(signer.seal(cipher.seal(payload)), both, payload, policy=by_key)
    calls.bad(cipher.seal(payload), both, NAMES.index("Unauthenticated"), policy=by_key)


def unnamed(key):
    """Returns a key like this one, whose layers name no key."""
    made = Sealer(key.tag, key.algorithm, key.public, key.prove)
    made.unprotected = {label: value for label, value in key.unprotected.items() if label != 4}
    return made


def many_keys(calls):
    """Adds rings with more keys that fit a layer than are tried, and with keys of other identifiers."""
    payload, most, iv = claims(), 16, bytes(range(13))
    for key, other, spare in ((ecdsa(-7, "P-256", 5), ecdsa(-7, "P-256", 6), eddsa(-8, 6, 7)),
                              (mac(5, bytes(range(32))), mac(5, bytes(32)), mac(6, bytes(48))),
                              (aead(10, bytes(range(16)), iv), aead(10, bytes(16), iv), aead(11, bytes(32), iv))):
        right, wrong, unfit = key.public, other.public, spare.public
        named = [{**wrong, 2: bytes([number])} for number in range(most)]
        for sealer, key_id in ((key, b"k"), (unnamed(key), b"")):
            token = sealer.seal(payload)
            bad = lambda keys, status, token=token, key_id=key_id: calls.bad(token, keys, status, key_id=key_id)
            bad(keys_of(), UNFIT)
            bad(keys_of(unfit), UNFIT)
            bad(keys_of(*[unfit] * 40), UNFIT)
            bad(keys_of(*[wrong] * most), REFUSED)
            bad(keys_of(*[wrong] * most, *[unfit] * 3), REFUSED)
            bad(keys_of(*[wrong] * most, wrong), TOO_MANY_KEYS)
            bad(keys_of(*[wrong] * most, right), TOO_MANY_KEYS)
            bad([(HUB, keys_of(*[wrong] * 9)), (AS, keys_of(*[wrong] * 7)), (AS, keys_of(right))], TOO_MANY_KEYS)
            calls.good(token, keys_of(*[wrong] * (most - 1), right), payload)
            calls.good(token, keys_of(*[wrong] * (most - 1), right, *[wrong] * 3), payload)
            calls.good(token, keys_of(*[unfit] * 30, *[wrong] * (most - 1), *[unfit] * 30, right), payload)
            calls.good(token, [(HUB, keys_of(*[wrong] * 9)), (AS, keys_of(*[wrong] * 6, right, wrong))], payload)
        calls.good(key.seal(payload), keys_of(*named, *named, right), payload)
        calls.bad(key.seal(payload), keys_of(*named, *named), UNFIT)
        calls.bad(unnamed(key).seal(payload), keys_of(*named, right), TOO_MANY_KEYS, key_id=b"")
        calls.good(unnamed(key).seal(payload), keys_of(*named[1:], right), payload)
    # Keys of an algorithm without a cipher fit, and are refused.
    none = Sealer(17, 14, {1: 4, -1: bytes(16)}, lambda signed, _: bytes(8))
    calls.bad(none.seal(payload), keys_of(*[none.public] * most))
    calls.bad(none.seal(payload), keys_of(*[none.public] * (most + 1)), TOO_MANY_KEYS)


def examples(calls):
    """Adds A.3 to A.7 of RFC 8392 with the keys of A.2, and the same with each bit changed in turn. Returns their number.

    The bits of the label of kid aren't changed. The unprotected header isn't signed, so the token would be a good one without kid.
    The rows of A.4 and A.7 have alg 4 in the key of A.2.2, as its diagnostic notation. Its hexadecimal has 10."""
    seen = set()
    for (_, sets, _, now, policy, spelled), answer in rows("ring"):
        if len(now) == 10 and answer.startswith("ok ") and spelled not in seen:
            seen.add(spelled)
            data, issuers = bytes.fromhex(spelled), [word.rpartition(":") for word in sets.split(",")]
            issuers = [(name or None, bytes.fromhex(keys)) for name, _, keys in issuers]
            calls.good(data, issuers, bytes.fromhex(answer.split()[1]), issuer=issuers[0][0], policy=policy, now=int(now))
            label = max(data.find(start) for start in (b"\xa1\x04", b"\xa2\x04")) + 1
            for bit in range(8 * len(data)):
                if bit // 8 != label:
                    calls.bad(flipped(data, bit), issuers, "changed", policy=policy, now=int(now))
    return len(seen)


# ---- Making them


def lacking():
    """Returns what isn't installed, or None."""
    if not has_openssl():
        return "the header of OpenSSL 3"
    return None if importlib.util.find_spec("cryptography") else "cryptography for Python"


def made(program, calls, check, **more):
    """Makes the calls, and compares the answers."""
    for asked, want, got in zip(calls.lines, calls.wanted, calling.answers([program], calls.lines, check, **more)):
        is_right = got.split()[0] not in ("0", "1", "2") if want[0] == "changed" else calling.agrees(got.split(), want)
        check(is_right, f"OpenSSL: {asked}: {got} and not {want}")


def accepted(folder, check):
    """Runs the program of docs/C.md with tokens of both issuers. Returns the number of tokens."""
    keys = [ecdsa(-7, "P-256", 5), mac(5, bytes(range(32))), ecdsa(-7, "P-256", 6)]
    audience, controls = "coap://light.example.com", "\0\n\r\x1b\x1f\x7f\x80\x85\x9b\x9f"
    # Claims that differ from the others, by their status. Times are relative to now.
    changes = [(0, {}), (0, {4: -50}), (1, {4: -70}), (1, {3: "coap://x"}), (1, {1: "x"}), (1, {5: 70}), (0, {2: "\xa0\xc2 \u0420"}), (0, {2: ""}),
               *((1, {2: f"erik{it}w"}) for it in controls)]
    with tempfile.TemporaryDirectory() as files:
        def run_with(*contents):
            for name, data in zip(("as", "hub", "token"), contents):
                with open(f"{files}/{name}", "wb") as file:
                    file.write(data)
            words = [f"{folder}/accept", *(f"{files}/{it}" for it in ("as", "hub", "token"))]
            return subprocess.run(words, capture_output=True, text=True, check=False)
        ran = subprocess.run([f"{folder}/accept"], capture_output=True, text=True, check=False)
        check(ran.returncode == 1, f"accept without its files: {ran.returncode}")
        sets, tries = [keys_of(keys[0].public, keys[1].public), keys_of(keys[2].public)], 0
        for contents in ((bytes(4097), *sets), (sets[0], bytes(1 << 16), sets[1]), (*sets, bytes(4097))):
            ran = run_with(*contents)
            check(ran.returncode == 2 and "more than 4096 bytes" in ran.stderr, f"accept with a long file: {ran.returncode} {ran.stderr}")
        for names in (("as", "hub", "absent"), ("as", "", "token"), ("absent", "hub", "token")):
            ran = subprocess.run([f"{folder}/accept", *(f"{files}/{it}" for it in names)], capture_output=True, text=True, check=False)
            check(ran.returncode == 2 and "can't be read" in ran.stderr, f"accept without a file: {ran.returncode} {ran.stderr}")
        for place, key in enumerate(keys):
            name = HUB if place == 2 else AS
            for status, change in changes:
                here = int(datetime.datetime.now().timestamp())
                made_of = {1: name, 2: "erikw", 3: audience, 4: 100, **change}
                token = key.seal(item({label: here + it if label in (4, 5) else it for label, it in made_of.items()}))
                for data, wanted in ((token, status), (flipped(token, 8 * len(token) - 1), 1)):
                    ran = run_with(*sets, data)
                    is_right = ran.returncode == wanted and ran.stdout == ("" if wanted else f"{name} says {change.get(2, 'erikw')}\n")
                    check(is_right, f"accept: {data.hex()}: {ran.returncode} {ran.stdout}{ran.stderr} and not {wanted}")
                    tries += 1
    return tries


def tried(folder, objects, check):
    """Makes all calls of this file. Returns a list with their number, or with what is lacking."""
    if lacking():
        return [f"without {lacking()} the calls of coset_openssl.h are left out"]
    names = ("calls", "token", "verify", "issue")
    sources = [f"{WRAPPERS}/c/{name}.c" for name in names]
    flags = [*FLAGS, "-Wpedantic", "-DWITH_OPENSSL"]
    run(["cc", *flags, "-o", "calls_openssl", *sources, "text.o", *objects, "-lcrypto"], cwd=folder)
    run(["cc", *FLAGS, "-o", "accept", f"{WRAPPERS}/c/accept.c", "libcoset.a", "-lcrypto"], cwd=folder)
    calls = Calls()
    for add in (every_algorithm, wrong_signatures, short_rsa, wrong_points, rings, many_keys):
        add(calls)
    few = Calls()
    few.lines, few.wanted = calls.lines[::40], calls.wanted[::40]
    count = examples(calls)
    check(count == 5, f"RFC 8392 has five examples, and not {count}")
    made(f"{folder}/calls_openssl", calls, check)
    refused = 0
    for number in range(0, 400, 7):
        refused += refusals(f"{folder}/calls_openssl", few, number, check)
    check(refused, "with OpenSSL no allocation is refused")
    return [f"with OpenSSL {len(calls.lines)}, refused {refused}, by the program of docs/C.md {accepted(folder, check)}"]


def refusals(program, calls, number, check):
    """Refuses an allocation of each call. No other token is then accepted, and a key that fits doesn't count as one that doesn't.
    Returns how many allocations were refused."""
    refused = 0
    told = calling.answers([program], calls.lines, check, env={**os.environ, "REFUSE": str(number)})
    for asked, want, got in zip(calls.lines, calls.wanted, told):
        # The right key is refused then, and one more may fit than are tried.
        less = ("2", str(REFUSED), *([str(TOO_MANY_KEYS)] if want[0] == str(OK) else []))
        is_less = got.split()[0] in less and want[0] != got.split()[0]
        refused += is_less
        is_right = is_less or calling.agrees(got.split(), want) or asked.startswith("roomy ")
        check(is_right, f"OpenSSL, refused {number}: {asked}: {got}")
    return refused
