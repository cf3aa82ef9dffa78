"""Tests of `verify_token`, `KeyRing`, `key_fits` and `coset.crypto`. The tokens are the examples of RFC 8392, appendix A, and new
ones: the package `cryptography` signs, authenticates or encrypts them."""
import os
import random
import re
import struct
import subprocess
import sys
from fractions import Fraction

import coset
from coset.crypto import CIPHERS
from cryptography.hazmat.primitives import hashes, hmac
from cryptography.hazmat.primitives.asymmetric import ec, ed448, ed25519, padding, rsa, utils
from cryptography.hazmat.primitives.ciphers import aead
from cryptography.hazmat.primitives.serialization import Encoding, PublicFormat

HERE = os.path.dirname(os.path.abspath(__file__))
sys.path.append(os.path.join(HERE, "..", "..", "..", "tools"))
from capi.vectors import named  # noqa: E402

CALLS = {"tokens": 0}
AS, LIGHT = "coap://as.example.com", "coap://light.example.com"
NOW = 1443944944  # nbf and iat of the RFC's tokens


def verified(*arguments, **more):
    CALLS["tokens"] += 1
    return coset.verify_token(*arguments, **more)


def refused(*arguments, **more):
    """Returns the reason and the layer of the refusal, or None if the token is accepted."""
    try:
        verified(*arguments, **more)
    except coset.InvalidToken as refusal:
        assert "refused: " in str(refusal) and (f"layer {refusal.layer}" in str(refusal)) == (refusal.layer is not None)
        return refusal.reason, refusal.layer
    return None


def raised(error, call, *arguments, **more):
    """Checks that the call raises this error and no other."""
    try:
        found = call(*arguments, **more)
    except Exception as raised:
        assert type(raised) is error, repr(raised)
        return raised
    raise AssertionError(f"{error.__name__} isn't raised: {found}")


def rows(name):
    return [bytes.fromhex(row[-1]) for row, _ in named(name)]


def key_set(*keys):
    held = b""
    for key in keys:
        held = coset.add(coset.KEY_SET, held, key)
    return held


# ---- the examples of RFC 8392, appendix A

# The key of appendix A.2.2 has the algorithm by which appendix A.4 uses it.
RFC_KEYS = [rows("rfc8392-a.2")[0], rows("rfc8392-a.2.2")[1], rows("rfc8392-a.2")[2]]
EXAMPLES = [rows(f"rfc8392-a.{number}")[0] for number in range(3, 8)]
ALGORITHMS = [coset.ES256, coset.HMAC_256_64, coset.AES_CCM_16_64_128]
AUDIENCES = [[LIGHT]] * 4 + [[]]
MORE = {"authenticated_by": coset.BY_ANY, "may_not_expire": True, "now": NOW + 1}

ring = coset.KeyRing({AS: key_set(*RFC_KEYS)})
accepted = [verified(example, ring, ALGORITHMS, audience=audience, **MORE) for example, audience in zip(EXAMPLES, AUDIENCES)]
assert [token.issuer for token in accepted] == [AS] * 5
assert [token.audience for token in accepted] == [(LIGHT,)] * 4 + [()]
assert [[layer.form for layer in token.layers] for token in accepted] == [[1], [3], [5], [5, 1], [3]]
assert [token.claims for token in accepted] == rows("rfc8392-a.1") * 4 + [rows("rfc8392-a.7")[2]]
assert all(token.others == b"\xa0" and coset.check(coset.CLAIMS, token.claims) is None for token in accepted)
assert accepted[0].layers == ((1, b"\xa1\x01\x26", b"\xa1\x04\x52AsymmetricECDSA256", AS),)


def flipped(data, bit):
    return data[: bit // 8] + bytes([data[bit // 8] ^ 1 << bit % 8]) + data[bit // 8 + 1 :]


def unprotected_span(token, number):
    """Returns the place of the unprotected header of an example."""
    return coset.member_span(coset.ITEM, token[1:], 1)


flips = {"refused": 0, "in the unprotected header": 0}
for number, example in enumerate(EXAMPLES):
    span = unprotected_span(example, number)
    for bit in range(8 * len(example)):
        try:
            token = verified(flipped(example, bit), ring, ALGORITHMS, audience=AUDIENCES[number], **MORE)
        except coset.InvalidToken:
            flips["refused"] += 1
        else:  # another label in place of the key identifier's, which isn't signed
            assert span.start < bit // 8 < span.stop + 1, (number, bit)
            assert token.claims == accepted[number].claims
            flips["in the unprotected header"] += 1

# By default only a signature or a MAC authenticates, a token must expire, no token with an audience is accepted.
example = EXAMPLES[0]
assert refused(EXAMPLES[2], ring, ALGORITHMS, audience=[LIGHT], now=NOW) == (coset.Status.UNAUTHENTICATED, None)
assert refused(EXAMPLES[4], ring, ALGORITHMS, now=NOW + 1) == (coset.Status.NO_EXPIRATION, None)
assert refused(example, ring, ALGORITHMS, now=NOW) == (coset.Status.AUDIENCE, None)
assert refused(example, ring, [], audience=[LIGHT], now=NOW) == (coset.Status.NOT_ALLOWED, 0)
assert refused(example, ring, ALGORITHMS, audience=[LIGHT]) == (coset.Status.EXPIRED, None)
assert verified(example, ring, ALGORITHMS, any_audience=True, now=NOW).audience == (LIGHT,)
assert refused(b"", ring, ALGORITHMS) == (coset.Status.ENDS, 0)
assert refused(b"\xd9\x3e\x8f" + example, ring, ALGORITHMS)[1] == 0
assert refused(example + b"\0", ring, ALGORITHMS) == (coset.Status.EXTRANEOUS, 0)
assert verified(b"\xd8\x3d" + example, ring, ALGORITHMS, audience=[LIGHT], now=NOW) == accepted[0]
assert verified(bytearray(example), ring, ALGORITHMS, audience=[LIGHT], now=NOW) == accepted[0]
assert refused(example, coset.KeyRing({}), ALGORITHMS, audience=[LIGHT], now=NOW) == (coset.Status.UNFIT, 0)
assert refused(example, coset.KeyRing({None: key_set(*RFC_KEYS)}), ALGORITHMS, audience=[LIGHT], now=NOW) == (coset.Status.ISSUER, None)
assert refused(example, coset.KeyRing({"other": key_set(*RFC_KEYS)}), ALGORITHMS, audience=[LIGHT], now=NOW) == (coset.Status.ISSUER, None)
told = raised(coset.InvalidToken, coset.verify_token, example, ring, [coset.HMAC_256_64], audience=[LIGHT], now=NOW)
assert str(told) == "layer 0 of the token is refused: the algorithm isn't one that is allowed (-7)" and told.number == -7

# The five lines: a ring, the algorithms, and each example.
ring = coset.KeyRing({AS: key_set(*RFC_KEYS)})
algorithms = [coset.ES256, coset.HMAC_256_64, coset.AES_CCM_16_64_128]
for example, audience in zip(EXAMPLES, AUDIENCES):
    coset.verify_token(example, ring, algorithms, audience=audience, authenticated_by=coset.BY_ANY, may_not_expire=True, now=NOW + 1)
    CALLS["tokens"] += 1

# ---- tokens that `cryptography` makes


class Maker:
    """Makes tokens by one algorithm and one key. `key` is the COSE_Key for the verifier."""

    def __init__(self, algorithm, form, members, seal, key_id=b""):
        self.algorithm, self.form, self.seal, self.key_id = algorithm, form, seal, key_id
        pairs = {1: members.pop(1), **({2: key_id} if key_id else {}), 3: algorithm, **members}
        self.key = coset.put_all(coset.KEY, b"", pairs)

    def token(self, payload, protected=(), unprotected=(), tag=True):
        head = coset.put_all(coset.HEADER, b"", [(1, self.algorithm), *protected])
        ids = coset.put_all(coset.HEADER, b"", [*([(4, self.key_id)] if self.key_id else []), *unprotected])
        kind = self.form + (coset.TAGGED if tag else 0)
        if self.form == coset.ENCRYPT0:
            nonce = os.urandom({10: 13, 11: 13, 30: 13, 31: 13, 12: 7, 13: 7, 32: 7, 33: 7}.get(self.algorithm, 12))
            ids = coset.put(coset.HEADER, ids, 5, nonce)
            return coset.make(kind, head, ids, self.seal(nonce, payload, coset.structure_of(self.form, head)))
        return coset.make(kind, head, ids, payload, self.seal(coset.structure_of(self.form, head, payload)))


def by_curve(algorithm, hash_, number, curve, key_id=b"", compressed=False):
    private, length = ec.generate_private_key(curve), (curve.key_size + 7) // 8
    public = private.public_key().public_numbers()
    x, y = (it.to_bytes(length, "big") for it in (public.x, public.y))
    sign = coset.Encoded(b"\xf5" if public.y & 1 else b"\xf4")

    def seal(input):
        r, s = utils.decode_dss_signature(private.sign(input, ec.ECDSA(hash_)))
        return r.to_bytes(length, "big") + s.to_bytes(length, "big")

    return Maker(algorithm, coset.SIGN1, {1: 2, -1: number, -2: x, -3: sign if compressed else y}, seal, key_id)


def by_edwards(number, kind, key_id=b"", algorithm=coset.EDDSA):
    private = kind.generate()
    return Maker(algorithm, coset.SIGN1, {1: 1, -1: number, -2: private.public_key().public_bytes(Encoding.Raw, PublicFormat.Raw)}, private.sign, key_id)


RSA_KEY = rsa.generate_private_key(65537, 2048)


def by_rsa(algorithm, hash_, is_pss):
    numbers = RSA_KEY.public_key().public_numbers()
    padded = padding.PSS(padding.MGF1(hash_), hash_.digest_size) if is_pss else padding.PKCS1v15()
    members = {1: 3, -1: numbers.n.to_bytes(256, "big"), -2: numbers.e.to_bytes(3, "big")}
    return Maker(algorithm, coset.SIGN1, members, lambda input: RSA_KEY.sign(input, padded, hash_))


def by_hmac(algorithm, hash_, length, key_id=b""):
    key = os.urandom(hash_.digest_size)

    def seal(input):
        mac = hmac.HMAC(key, hash_)
        mac.update(input)
        return mac.finalize()[:length]

    return Maker(algorithm, coset.MAC0, {1: 4, -1: key}, seal, key_id)


def by_aead(algorithm, length, cipher, key_id=b""):
    key = os.urandom(length)
    return Maker(algorithm, coset.ENCRYPT0, {1: 4, -1: key}, cipher(key).encrypt, key_id)


def ccm(tag):
    return lambda key: aead.AESCCM(key, tag)


SHA = {256: hashes.SHA256(), 384: hashes.SHA384(), 512: hashes.SHA512()}
CURVES = {1: ec.SECP256R1(), 2: ec.SECP384R1(), 3: ec.SECP521R1()}


def makers():
    """Returns a maker for each algorithm of `coset.crypto`, and for each curve."""
    found = [by_curve(algorithm, SHA[size], number, curve, compressed=compressed) for algorithm, size in ((-7, 256), (-35, 384), (-36, 512))
             for number, curve in CURVES.items() for compressed in (False, True)]
    found += [by_curve(-47, SHA[256], 8, ec.SECP256K1()), by_curve(-47, SHA[256], 8, ec.SECP256K1(), compressed=True)]
    found += [by_curve(-9, SHA[256], 1, CURVES[1]), by_curve(-51, SHA[384], 2, CURVES[2]), by_curve(-52, SHA[512], 3, CURVES[3])]
    found += [by_edwards(6, ed25519.Ed25519PrivateKey), by_edwards(7, ed448.Ed448PrivateKey)]
    found += [by_edwards(6, ed25519.Ed25519PrivateKey, b"", -19), by_edwards(7, ed448.Ed448PrivateKey, b"", -53)]
    found += [by_rsa(-37 - i, SHA[size], True) for i, size in enumerate(SHA)] + [by_rsa(-257 - i, SHA[size], False) for i, size in enumerate(SHA)]
    found += [by_hmac(4, SHA[256], 8), by_hmac(5, SHA[256], 32), by_hmac(6, SHA[384], 48), by_hmac(7, SHA[512], 64)]
    found += [by_aead(1, 16, aead.AESGCM), by_aead(2, 24, aead.AESGCM), by_aead(3, 32, aead.AESGCM), by_aead(24, 32, aead.ChaCha20Poly1305)]
    found += [by_aead(first + i, 16 + 16 * (i & 1), ccm(tag)) for first, tag in ((10, 8), (30, 16)) for i in range(4)]
    return found


MAKERS = makers()
with open(os.path.join(HERE, "..", "..", "include", "coset_openssl.h"), encoding="utf-8") as file:
    numbers = {name: int(number) for name, number in re.findall(r"COSET_(\w+) = (-?\d+)", file.read())}
assert set(numbers.values()) == {maker.algorithm for maker in MAKERS} and all(getattr(coset, name) == it for name, it in numbers.items())
CLAIMS = coset.put_all(coset.CLAIMS, b"", {1: "me", 4: 2000, 5: 1000, 6: 1000})
ANY = {"authenticated_by": coset.BY_ANY, "now": 1500}
for maker in MAKERS:
    token, ring = maker.token(CLAIMS), coset.KeyRing({"me": key_set(maker.key)})
    found = verified(token, ring, [maker.algorithm], **ANY)
    assert (found.claims, found.issuer, len(found.layers)) == (CLAIMS, "me", 1)
    assert verified(maker.token(CLAIMS, tag=False), ring, [maker.algorithm], untagged_form=maker.form, **ANY).claims == CLAIMS
    for bit in random.sample(range(8 * (len(token) - 40), 8 * len(token)), 12):  # of the proof, or the ciphertext
        assert refused(flipped(token, bit), ring, [maker.algorithm], **ANY) is not None, (maker.algorithm, bit)
    others = [one.key for one in MAKERS if one.algorithm != maker.algorithm]
    assert refused(token, coset.KeyRing({"me": key_set(*others)}), [maker.algorithm], **ANY) == (coset.Status.UNFIT, 0)
    assert verified(token, coset.KeyRing({"me": key_set(*others, maker.key)}), [maker.algorithm], **ANY) == found
    assert refused(token, ring, [one.algorithm for one in MAKERS if one.algorithm != maker.algorithm], **ANY) == (coset.Status.NOT_ALLOWED, 0)

# Another key of the same algorithm fits, and is refused. The key that fits may come later in the ring.
for one, two in zip(makers(), makers()):
    if one.algorithm in (*range(-39, -36), *range(-259, -256)):
        continue  # one RSA key for all
    assert refused(one.token(CLAIMS), coset.KeyRing({"me": key_set(two.key)}), [one.algorithm], **ANY) == (coset.Status.REFUSED, 0)
    both = coset.KeyRing({"you": key_set(two.key), "me": key_set(two.key, one.key)})
    assert verified(one.token(CLAIMS), both, [one.algorithm], **ANY).issuer == "me"

# ---- which keys of a ring are tried: 16 that fit the layer, and no others


def told(*arguments, **more):
    """Returns the reason, the layer and the key identifier of the refusal, or None if the token is accepted."""
    try:
        verified(*arguments, **more)
    except coset.InvalidToken as refusal:
        return refusal.reason, refusal.layer, refusal.key_id
    return None


class Counted:
    """Ciphers that count their calls."""

    def __init__(self):
        self.calls = 0

    def verify(self, *given):
        self.calls += 1
        return CIPHERS.verify(*given)

    def decrypt(self, *given):
        self.calls += 1
        return CIPHERS.decrypt(*given)


UNFIT, TOO_MANY, REFUSED = coset.Status.UNFIT, coset.Status.TOO_MANY_KEYS, coset.Status.REFUSED
assert coset.MOST_TRIES == 16 and int(TOO_MANY) == 35
for make in (lambda key_id: by_edwards(6, ed25519.Ed25519PrivateKey, key_id), lambda key_id: by_hmac(5, SHA[256], 32, key_id),
             lambda key_id: by_aead(24, 32, aead.ChaCha20Poly1305, key_id)):
    for key_id in (b"", b"kid"):
        right, wrong, other = make(key_id), [make(key_id).key for _ in range(17)], by_curve(-7, SHA[256], 1, CURVES[1], key_id).key
        for keys, reason, calls in (
            ([], UNFIT, 0), ([other] * 40, UNFIT, 0), (wrong[:1], REFUSED, 1), (wrong[:16], REFUSED, 16), (wrong[:16] + [other], REFUSED, 16),
            (wrong, TOO_MANY, 16),
            (wrong[:16] + [right.key], TOO_MANY, 16), (wrong[:15] + [right.key], None, 16), (wrong[:15] + [right.key] + wrong, None, 16),
            ([other] * 40 + wrong[:15] + [other] * 40 + [right.key], None, 16),
        ):
            ciphers = Counted()
            ring = coset.KeyRing([("you", key_set(*keys[:7]) or b"\x80"), ("me", key_set(*keys[7:]) or b"\x80")], ciphers)
            want = None if reason is None else (reason, 0, key_id or None)
            assert told(right.token(CLAIMS), ring, [right.algorithm], **ANY) == want, (len(keys), reason)
            assert ciphers.calls == calls
    # The key identifiers of 41 keys leave one that fits. Without an identifier, all of them fit.
    keys, right = [make(b"%d" % number).key for number in range(40)], make(b"kid")
    ciphers = Counted()
    ring = coset.KeyRing({"me": key_set(*keys, right.key)}, ciphers)
    assert verified(right.token(CLAIMS), ring, [right.algorithm], **ANY).issuer == "me" and ciphers.calls == 1
    assert told(right.token(CLAIMS), coset.KeyRing({"me": key_set(*keys)}), [right.algorithm], **ANY) == (UNFIT, 0, b"kid")
    right.key_id = b""
    assert told(right.token(CLAIMS), ring, [right.algorithm], **ANY) == (TOO_MANY, 0, None)
    assert verified(right.token(CLAIMS), coset.KeyRing({"me": key_set(*keys[:15], right.key)}), [right.algorithm], **ANY).issuer == "me"
# A refusal has the key identifier of the inner layer that is refused, and one for another reason has none.
outer, inner = by_hmac(5, SHA[256], 32, b"outer"), by_edwards(6, ed25519.Ed25519PrivateKey, b"inner")
token, ring = outer.token(inner.token(CLAIMS)), coset.KeyRing({"me": key_set(outer.key)})
assert told(token, ring, [5, -8], **ANY) == (UNFIT, 1, b"inner") and told(token, ring, [5], **ANY) == (coset.Status.NOT_ALLOWED, 1, None)
assert told(token, lambda layer: layer.index == 0, [5, -8], **ANY) == (REFUSED, 1, b"inner")
assert told(token, lambda layer: False, [5, -8], **ANY) == (REFUSED, 0, b"outer")
token = coset.make(coset.SIGN1, b"\xa1\x01\x26", b"\xa1\x04\x41k", CLAIMS, b"")
assert told(token, ring, [-7], **ANY) == (REFUSED, 0, b"k")
error = coset.InvalidToken(TOO_MANY, 1, key_id=b"k")
assert str(error) == "layer 1 of the token is refused: " + coset.status_text(35) and error.args == (TOO_MANY, 1, None, b"k")

# ---- two issuers and three keys, in twelve lines

ONE, TWO = by_curve(-7, SHA[256], 1, CURVES[1], b"one"), by_edwards(6, ed25519.Ed25519PrivateKey, b"two")
THREE = by_hmac(5, SHA[256], 32, b"three")
RING = coset.KeyRing({"https://as.example": key_set(ONE.key, TWO.key), "https://hub.example": key_set(THREE.key)})


def serve(token, now):
    try:
        found = coset.verify_token(
            token, RING, [coset.ES256, coset.EDDSA, coset.HMAC_256_256],
            audience=["https://me.example"], types=["application/at+cwt"], required=[2], leeway=60, now=now,
        )
    except coset.InvalidToken as refusal:
        return str(refusal)
    return found.issuer, coset.label_bytes(coset.CLAIMS, found.claims, coset.IN_ITEM, 2).decode()


def claims(issuer, **more):
    pairs = {1: issuer, 2: "you", 3: "https://me.example", 4: 2000, **{int(name[1:]): value for name, value in more.items()}}
    # A CLAIMS has no `aud` in an array, but an ITEM may.
    return coset.put_all(coset.ITEM, b"", {name: value for name, value in pairs.items() if value is not None})


TYPE = [(16, "Application/AT+cwt")]
for maker, issuer in ((ONE, "https://as.example"), (TWO, "https://as.example"), (THREE, "https://hub.example")):
    assert serve(maker.token(claims(issuer), TYPE), 1999) == (issuer, "you")
    assert serve(maker.token(claims(None), TYPE), 2059.5 - 1) == (issuer, "you")
    assert serve(maker.token(claims("https://else.example"), TYPE), 1999) == "the token is refused: " + coset.status_text(28)
    assert serve(maker.token(claims(issuer), TYPE), 2060) == "the token is refused: the token has expired"
    assert serve(maker.token(claims(issuer)), 1999) == "the token is refused: " + coset.status_text(31)
    assert serve(maker.token(claims(issuer, _2=None), TYPE), 1999) == f"the token is refused: {coset.status_text(33)} (2)"
    assert serve(maker.token(claims(issuer, _3="https://you.example"), TYPE), 1999) == "the token is refused: " + coset.status_text(29)
    CALLS["tokens"] += 7
assert serve(ONE.token(claims("https://hub.example"), TYPE), 1999) == "the token is refused: " + coset.status_text(28)

# ---- audiences, claims, headers and layers

ENC = by_aead(24, 32, aead.ChaCha20Poly1305, b"enc")
RING = coset.KeyRing({"as": key_set(ONE.key, TWO.key), None: key_set(THREE.key), "hub": key_set(ENC.key)})
ALL = [-7, -8, 5, 24]


def text_list(*texts):
    held = bytes([0x80 + len(texts)])
    return coset.Encoded(held + b"".join(coset.put(coset.ITEM, b"", 0, text)[2:] for text in texts))


for audience, own, is_accepted in (
    ("a", [], False), ("a", ["a"], True), ("a", ["b", "a"], True), ("a", ["b"], False), ("a", ["A"], False),
    (text_list("a", "b"), ["b"], True), (text_list("a", "b"), ["c"], False), (text_list("a", "b"), [], False),
    (None, [], True), (None, ["a"], False),
):
    token = ONE.token(claims("as", _3=audience))
    told = refused(token, RING, ALL, audience=own, now=1)
    assert told == (None if is_accepted else (coset.Status.AUDIENCE, None)), (audience, own, told)
    found = verified(token, RING, ALL, any_audience=True, now=1)
    assert found.audience == (() if audience is None else (audience,) if isinstance(audience, str) else ("a", "b")[: audience[0] & 15])
    assert coset.has(coset.CLAIMS, found.claims, coset.IN_ITEM, 3) == isinstance(audience, str)

assert refused(ONE.token(claims("as", _3=text_list())), RING, ALL, any_audience=True, now=1) == (coset.Status.NOT_CLAIMS, None)
found = verified(ONE.token(coset.put_all(coset.ITEM, b"", {4: 2000, 100: "x", -65537: "y", "z": "w"})), RING, ALL, now=1)
assert found.others == b"\xa1\x18\x64\x61x" and coset.label_bytes(coset.CLAIMS, found.claims, coset.IN_ITEM, -65537) == b"y"

# A signed token that is encrypted, and another way round.
inner = ONE.token(claims("as", _3=None))
nested = verified(ENC.token(inner), RING, ALL, now=1)
assert (nested.issuer, [layer.issuer for layer in nested.layers]) == ("as", ["hub", "as"])
for layers in ([ENC, ONE], [ONE, ENC], [THREE, TWO], [ENC, ENC, ENC, TWO], [TWO, ENC, ENC, THREE]):
    token = claims(None, _3=None)
    for maker in reversed(layers):
        token = maker.token(token)
    found = verified(token, RING, ALL, now=1)
    assert [layer.form for layer in found.layers] == [maker.form for maker in layers] and found.claims == claims(None, _3=None)
    assert refused(ONE.token(token), RING, ALL, now=1) == (None if len(layers) < 4 else (coset.Status.TOO_DEEP, None))
assert refused(ENC.token(claims(None, _3=None)), RING, ALL, now=1) == (coset.Status.UNAUTHENTICATED, None)
assert refused(ENC.token(THREE.token(claims(None, _3=None))), RING, ALL, authenticated_by=coset.BY_SIGNATURE, now=1) == (coset.Status.UNAUTHENTICATED, None)
assert refused(ENC.token(flipped(inner, 8 * len(inner) - 1)), RING, ALL, now=1) == (coset.Status.REFUSED, 1)
assert refused(ENC.token(inner), RING, [24], now=1) == (coset.Status.NOT_ALLOWED, 1)
assert refused(ENC.token(b"\x80"), RING, ALL, authenticated_by=coset.BY_ANY, now=1) == (coset.Status.NOT_CLAIMS, None)
assert refused(coset.make(coset.SIGN1 + coset.TAGGED, b"\xa1\x01\x26", b"", None, bytes(64)), RING, ALL, now=1) == (coset.Status.ABSENT, 0)

crit = [(2, coset.Encoded(b"\x81\x3a\x00\x01\x00\x00")), (-65537, 1)]
assert refused(ONE.token(claims("as", _3=None), crit), RING, ALL, now=1) == (coset.Status.CRITICAL, 0)
assert verified(ONE.token(claims("as", _3=None), crit), RING, ALL, critical=[-65537], now=1).issuer == "as"
assert refused(ONE.token(claims("as", _3=None), [(3, 0)], [(3, 0)]), RING, ALL, now=1) == (coset.Status.HEADERS, 0)
cwt = coset.Encoded(coset.put(coset.CLAIMS, b"", 1, "as"))
assert verified(ONE.token(claims("as", _3=None), [(15, cwt)]), RING, ALL, now=1).issuer == "as"
cwt = coset.Encoded(coset.put(coset.CLAIMS, b"", 2, "he"))
assert refused(ONE.token(claims("as", _3=None), [(15, cwt)]), RING, ALL, now=1) == (coset.Status.HEADER_CLAIMS, None)
for own, named_, is_accepted in ((["application/cwt"], "application/cwt", True), (["application/cwt"], 61, True), (["a/b"], "A/B", True),
                                 (["a/b", "c/d"], "c/d", True), (["a/b"], 61, False)):
    token = ONE.token(claims("as", _3=None), [(16, named_)])
    assert refused(token, RING, ALL, types=own, now=1) == (None if is_accepted else (coset.Status.TOKEN_TYPE, None)), (own, named_)

# ---- moments: a token isn't accepted when it isn't valid by the exact time

chance = random.Random(1)
outcomes = {True: 0, False: 0}


def moment():
    """Returns a claim's time, an integer or a float."""
    seconds = chance.choice([chance.randrange(95, 106), chance.randrange(760, 840) / 8])
    return seconds, seconds if isinstance(seconds, int) else coset.Encoded(b"\xfb" + struct.pack(">d", seconds))


for _ in range(1500):
    (exp, put_exp), (nbf, put_nbf), (iat, put_iat) = moment(), moment(), moment()
    leeway, age, now = chance.choice([0, 2]), chance.choice([None, 3]), chance.choice([chance.randrange(95, 106), chance.randrange(7600, 8400) / 80])
    token = THREE.token(coset.put_all(coset.CLAIMS, b"", {4: put_exp, 5: put_nbf, 6: put_iat}))
    at = Fraction(now)
    is_valid = lambda at: (at < exp + leeway and nbf <= at + leeway and iat <= at + leeway and (age is None or at < iat + age + leeway))
    is_accepted = refused(token, RING, ALL, leeway=leeway, max_age=age, now=now) is None
    assert not is_accepted or is_valid(at), (exp, nbf, iat, leeway, age, now)
    assert is_accepted == (is_valid(at // 1) and is_valid(-(-at // 1)))
    outcomes[is_accepted] += 1
assert min(outcomes.values()) > 50, outcomes
later = coset.put_all(coset.CLAIMS, b"", {4: 1 << 40, 6: 1})
assert verified(THREE.token(later), RING, ALL).claims == later

# ---- errors that aren't refusals

token, enc = ONE.token(claims("as", _3=None)), ENC.token(inner)
for said in (1, 0, "yes", b"", b"yes", [], object(), (True,), (True, "as", "as"), (True, b"as"), (True, 1)):
    raised(TypeError, verified, token, lambda layer, said=said: said, ALL, now=1)
raised(ValueError, verified, token, lambda layer: (True, ""), ALL, now=1)
for said in (True, 1, 0, "yes", [1], (True, "as"), (1, "as")):
    raised(TypeError, verified, enc, lambda layer, said=said: said, ALL, now=1)
for said in (None, False, (None, "as"), (False, None)):
    for one in (token, enc):
        assert refused(one, lambda layer, said=said: said, ALL, now=1) == (coset.Status.REFUSED, 0)
assert verified(token, lambda layer: (True, "as"), ALL, now=1).issuer == "as"
assert refused(token, lambda layer: True, ALL, now=1) == (coset.Status.ISSUER, None)
answers = {coset.ENCRYPT0: bytearray(inner), coset.SIGN1: (True, "as")}
assert [layer.issuer for layer in verified(enc, lambda layer: answers[layer.form], ALL, now=1).layers] == [None, "as"]
raised(ZeroDivisionError, verified, token, lambda layer: 1 / 0, ALL, now=1)
for more, error in (({"audience": "as"}, TypeError), ({"types": "application/cwt"}, TypeError), ({"audience": b"as"}, TypeError),
                    ({"audience": ["a"], "any_audience": True}, coset.Misuse), ({"any_audience": "no"}, TypeError), ({"any_audience": 1}, TypeError),
                    ({"may_not_expire": 0}, TypeError), ({"may_be_issued_later": None}, TypeError), ({"max_age": 0}, ValueError),
                    ({"max_age": 1.5}, TypeError), ({"leeway": -1}, ValueError), ({"leeway": 1.5}, TypeError), ({"leeway": 1 << 64}, ValueError),
                    ({"untagged_form": 2}, coset.Misuse), ({"authenticated_by": 3}, coset.Misuse), ({"required": [100]}, coset.Misuse),
                    ({"now": "1"}, TypeError), ({"now": True}, TypeError), ({"now": float("nan")}, ValueError), ({"now": float("inf")}, OverflowError),
                    ({"now": 1 << 63}, OverflowError), ({"now": 1e300}, OverflowError)):
    raised(error, verified, token, RING, ALL, **{"now": 1, **more})
raised(coset.Misuse, verified, token, RING, [-7, 9999], now=1)
for wrong in (True, 1.0, "5", None):
    raised(TypeError, verified, token, RING, [*ALL, wrong], now=1)
    for field in ("required", "critical"):
        raised(TypeError, verified, token, RING, ALL, **{field: [wrong]}, now=1)
    for field in ("untagged_form", "authenticated_by", *(() if wrong is None else ("max_age",)), "leeway"):
        raised(TypeError, verified, token, RING, ALL, **{field: wrong}, now=1)
for wrong in (b"\x05", bytearray(b"\x05"), "5", 5, None):
    raised(TypeError, verified, token, RING, wrong, now=1)
    for field in ("required", "critical", "audience", "types"):
        raised(TypeError, verified, token, RING, ALL, **{field: wrong}, now=1)
raised(TypeError, verified, token, {"as": RFC_KEYS[0]}, ALL, now=1)
raised(TypeError, coset.verify_token, token, RING)

# ---- keys

layer = coset.Layer(coset.ENCRYPT0, 24, b"enc", coset.IN_UNPROTECTED, b"", bytes(16), bytes(12), None, 0)
assert coset.key_fits(ENC.key, layer) == bytes(12)
for change in ({"algorithm": 3}, {"form": coset.MAC0}, {"key_id": b"end"}, {"iv": bytes(13)}, {"iv": None}, {"proof": bytes(15)}, {"algorithm": 9999}):
    assert coset.key_fits(ENC.key, layer._replace(**change)) is None, change
assert coset.key_fits(ENC.key, layer._replace(key_id=None)) == bytes(12)
based = coset.put(coset.KEY, ENC.key, 5, bytes(range(12)))
assert coset.key_fits(based, layer._replace(iv=None, partial_iv=b"\x01\x02")) == bytes(range(10)) + b"\x0b\x09"
signed = layer._replace(form=coset.SIGN1, algorithm=-7, key_id=b"one", iv=None)
for size in (0, 16, 63, 64, 65, 96):
    assert coset.key_fits(ONE.key, signed._replace(proof=bytes(size))) == (b"" if size == 64 else None), size
raised(coset.Misuse, coset.key_fits, ENC.key, layer._replace(form=2))
raised(coset.Fault, coset.key_fits, b"\xa0", layer)

# Keys of a set that can't be read are skipped: of an unknown type, without a type, with a label twice, or no map.
unreadable = [b"\xa1\x01\x18\x63", b"\xa0", b"\xa2\x01\x04\x01\x04", b"\x01", b"\xa1\x01\x61x"]
mixed = bytes([0x80 + len(unreadable) + 1]) + b"".join(unreadable) + ONE.key
assert verified(token, coset.KeyRing({"as": mixed}), ALL, now=1).issuer == "as"
assert verified(token, coset.KeyRing({"as": b"\x9f" + mixed[1:] + b"\xff"}), ALL, now=1).issuer == "as"
assert refused(token, coset.KeyRing({"as": b"\x80"}), ALL, now=1) == (coset.Status.UNFIT, 0)
for wrong in (b"", b"\x82\xa0", b"\xa1\x01\x04", ONE.key, b"\x81\xa0\x00"):
    try:
        coset.KeyRing({"as": wrong})
    except (coset.Fault, coset.Absent, coset.WrongType):
        continue
    raise AssertionError(wrong)
raised(TypeError, coset.KeyRing, {b"as": mixed})
raised(ValueError, coset.KeyRing, {"": mixed})
raised(UnicodeEncodeError, verified, token, coset.KeyRing({"\ud800": mixed}), ALL, now=1)

# A key without `alg`, or for other operations, fits nothing (RFC 8725, section 3.1; RFC 9052, section 7.1).
pairs = {name: coset.Encoded(coset.label(coset.KEY, ONE.key, coset.IN_ITEM, name)) for name in (1, 2, 3, -1, -2, -3)}
for change in ({3: None}, {3: -35}, {4: coset.Encoded(b"\x81\x01")}, {2: b"two"}, {-1: 8}):
    key = coset.put_all(coset.KEY, b"", [(name, value) for name, value in {**pairs, **change}.items() if value is not None])
    assert refused(token, coset.KeyRing({"as": key_set(key)}), ALL, now=1) == (coset.Status.UNFIT, 0), change
for change in ({4: coset.Encoded(b"\x81\x02")}, {}):
    key = coset.put_all(coset.KEY, b"", {**pairs, **change})
    assert verified(token, coset.KeyRing({"as": key_set(key)}), ALL, now=1).issuer == "as"
# A point that isn't on the curve, and the other point with the same x, are refused.
x, y = (coset.label_bytes(coset.KEY, ONE.key, coset.IN_ITEM, name) for name in (-2, -3))
for point in ((x, flipped(y, 0)), (y, x), (flipped(x, 0), y), (bytes(32), bytes(32)), (b"\xff" * 32, y), (x, coset.Encoded(b"\xf4" if y[-1] & 1 else b"\xf5"))):
    key = coset.put_all(coset.KEY, b"", {**pairs, -2: point[0], -3: point[1]})
    assert refused(token, coset.KeyRing({"as": key_set(key)}), ALL, now=1) == (coset.Status.REFUSED, 0)

# Each algorithm without a cipher is refused.
for algorithm in (-46, -48, -65535, -65534, 14, 25, 99):
    assert CIPHERS.verify(ONE.key, algorithm, b"", bytes(64)) is False
    assert CIPHERS.decrypt(ENC.key, algorithm, bytes(12), b"", bytes(16)) is None

# Without the package `cryptography` a MAC is verified, and the other ciphers say what they need.
program = """
import sys
sys.modules["cryptography"] = None
import coset, coset.crypto
key = coset.put_all(coset.KEY, b"", {1: 4, 3: 5, -1: bytes(32)})
assert coset.crypto.CIPHERS.verify(key, 5, b"", bytes.fromhex("b613679a0814d9ec772f95d778c35fc5ff1697c493715653c6c712144292c5ad")) is True
for call in (lambda: coset.crypto.CIPHERS.verify(key, -7, b"", bytes(64)), lambda: coset.crypto.CIPHERS.decrypt(key, 1, b"", b"", b"")):
    try:
        call()
    except ImportError as error:
        assert "pip install cryptography" in str(error)
    else:
        sys.exit("no ImportError")
"""
subprocess.run([sys.executable, "-c", program], check=True, cwd=HERE)

print(
    f"tokens {CALLS['tokens']} by {len({maker.algorithm for maker in MAKERS})} algorithms, changed bits {flips['refused']} refused and "
    f"{flips['in the unprotected header']} in unprotected headers, moments {outcomes[True]} accepted and {outcomes[False]} refused"
)
