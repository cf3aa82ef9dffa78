"""Makes messages and keys by python3-cryptography, with the sentence and the state that the page must have for each signature."""
import base64
import datetime
import json

try:
    from cryptography import x509
    from cryptography.hazmat.primitives import hashes, hmac, serialization
    from cryptography.hazmat.primitives.asymmetric import ec, ed448, ed25519, padding, rsa
    from cryptography.hazmat.primitives.asymmetric.utils import decode_dss_signature
    HAS_CIPHERS = True
except ImportError:
    HAS_CIPHERS = False

from cbor import byte_string, encode, head

KID = b"our key"
UNCHECKED = "The certificate's dates, usage and issuer aren't checked."
# The private part of the key of RFC 8392, A.2.3, which is that of the page's first sample.
PUBLISHED = 0x6C1382765AEC5358F117733D281C1C7BDC39884D04A45A1E6C67C858BC206C19
CONTENT = b"This is the content."
# An algorithm's name: its number, and its hash.
ECDSA = {"ES256": (-7, 256), "ES384": (-35, 384), "ES512": (-36, 512)}
PSS = {"PS256": (-37, 256), "PS384": (-38, 384), "PS512": (-39, 512)}
PKCS = {"RS256": (-257, 256), "RS384": (-258, 384), "RS512": (-259, 512)}
HMAC = {"HMAC 256/64": (4, 256, 8), "HMAC 256/256": (5, 256, 32), "HMAC 384/384": (6, 384, 48), "HMAC 512/512": (7, 512, 64)}
JOSE = {"HMAC 256/256": "HS256", "HMAC 384/384": "HS384", "HMAC 512/512": "HS512"}
CURVES = {"ES256": ("P-256", 1, 32), "ES384": ("P-384", 2, 48), "ES512": ("P-521", 3, 66)}


def integer(number):
    return encode(("int", number))


def mapped(*pairs):
    """Returns the encoding of a map of labels and encoded values."""
    return head(5, len(pairs)) + b"".join(integer(label) + value for label, value in pairs)


def url(data):
    return base64.urlsafe_b64encode(data).decode().rstrip("=")


def hashed(bits):
    return {256: hashes.SHA256, 384: hashes.SHA384, 512: hashes.SHA512}[bits]()


def private(name):
    """Returns a new private key for an algorithm."""
    if name in ECDSA:
        return ec.generate_private_key({"ES256": ec.SECP256R1, "ES384": ec.SECP384R1, "ES512": ec.SECP521R1}[name]())
    if name == "EdDSA":
        return ed25519.Ed25519PrivateKey.generate()
    return rsa.generate_private_key(65537, 2048)


class Signer:
    """A key for one algorithm."""

    def __init__(self, name, number, key, bits=0):
        self.name, self.number, self.key, self.bits = name, number, key, bits

    def sign(self, data):
        if self.name in ECDSA:
            size = CURVES[self.name][2]
            return b"".join(it.to_bytes(size, "big") for it in decode_dss_signature(self.key.sign(data, ec.ECDSA(hashed(self.bits)))))
        if self.name in PSS:
            return self.key.sign(data, padding.PSS(padding.MGF1(hashed(self.bits)), self.bits // 8), hashed(self.bits))
        return self.key.sign(data, padding.PKCS1v15(), hashed(self.bits)) if self.name in PKCS else self.key.sign(data)

    def members(self):
        """Returns the key's members by their names in a JWK, and its labels in a COSE_Key with their values."""
        numbers = None if self.name == "EdDSA" else self.key.public_key().public_numbers()
        if self.name in ECDSA:
            curve, number, size = CURVES[self.name]
            x, y = (it.to_bytes(size, "big") for it in (numbers.x, numbers.y))
            return {"kty": "EC", "crv": curve, "x": url(x), "y": url(y)}, [(1, integer(2)), (-1, integer(number)), (-2, byte_string(x)), (-3, byte_string(y))]
        if self.name == "EdDSA":
            x = self.key.public_key().public_bytes(serialization.Encoding.Raw, serialization.PublicFormat.Raw)
            return {"kty": "OKP", "crv": "Ed25519", "x": url(x)}, [(1, integer(1)), (-1, integer(6)), (-2, byte_string(x))]
        n, e = (it.to_bytes((it.bit_length() + 7) // 8, "big") for it in (numbers.n, numbers.e))
        return {"kty": "RSA", "n": url(n), "e": url(e)}, [(1, integer(3)), (-1, byte_string(n)), (-2, byte_string(e))]

    def cose(self, *more, kid=KID, number=None):
        return mapped((2, byte_string(kid)), (3, integer(number or self.number)), *more, *self.members()[1])

    def jwk(self, **more):
        found = self.members()[0] | {"kid": KID.decode(), "alg": JOSE.get(self.name, self.name)} | more
        return json.dumps({name: it for name, it in found.items() if it is not None})

    def pem(self):
        return self.key.public_key().public_bytes(serialization.Encoding.PEM, serialization.PublicFormat.SubjectPublicKeyInfo).decode()

    def certificate(self, usage=None, is_critical=True):
        """Returns a certificate in PEM. `usage` says whether its keyUsage, if it has one, contains digitalSignature, or else keyCertSign."""
        name, now = x509.Name([]), datetime.datetime(2026, 1, 1)
        made = x509.CertificateBuilder().subject_name(name).issuer_name(name).public_key(self.key.public_key()).serial_number(1)
        made = made.not_valid_before(now).not_valid_after(now.replace(year=2036))
        if usage is not None:
            made = made.add_extension(x509.BasicConstraints(False, None), True)
            made = made.add_extension(x509.KeyUsage(usage, False, False, False, False, not usage, False, False, False), is_critical)
        return made.sign(self.key, None if self.name == "EdDSA" else hashes.SHA256()).public_bytes(serialization.Encoding.PEM).decode()


class Authenticator(Signer):
    """A symmetric key for one algorithm. `length` is that of its MACs."""

    def __init__(self, name, number, bits, length):
        super().__init__(name, number, bytes(range(bits // 8)), bits)
        self.length = length

    def sign(self, data):
        made = hmac.HMAC(self.key, hashed(self.bits))
        made.update(data)
        return made.finalize()[: self.length]

    def members(self):
        return {"kty": "oct", "k": url(self.key)}, [(1, integer(4)), (-1, byte_string(self.key))]


def structure(context, *parts):
    return head(4, 1 + len(parts)) + head(3, len(context)) + context.encode() + b"".join(map(byte_string, parts))


def message(signer, aad=b"", content=CONTENT, kid=KID, more=(), outside=()):
    """Returns a COSE_Sign1 or a COSE_Mac0. With the content None it is detached."""
    protected, is_mac = mapped((1, integer(signer.number)), *more), isinstance(signer, Authenticator)
    proof = signer.sign(structure("MAC0" if is_mac else "Signature1", protected, aad, content or CONTENT))
    unprotected = mapped(*([(4, byte_string(kid))] if kid else []), *outside)
    held = byte_string(content) if content else b"\xf6"
    return head(6, 17 if is_mac else 18) + head(4, 4) + byte_string(protected) + unprotected + held + byte_string(proof)


def signed_by(*signers, kid=KID):
    """Returns a COSE_Sign."""
    made = []
    for it in signers:
        protected = mapped((1, integer(it.number)))
        proof = it.sign(structure("Signature", b"", protected, b"", CONTENT))
        made.append(head(4, 3) + byte_string(protected) + (mapped((4, byte_string(kid))) if kid else mapped()) + byte_string(proof))
    return head(6, 98) + head(4, 4) + b"\x40\xa0" + byte_string(CONTENT) + head(4, len(made)) + b"".join(made)


def reproved(made, length, proof):
    """Returns the message with another signature or MAC. Its own has this many bytes."""
    return made[: -length - len(head(2, length))] + byte_string(proof)


def changed(data, place):
    return data[:place] + bytes([data[place] ^ 1]) + data[place + 1 :]


def signers():
    """Returns a signer for each algorithm, and a second one with another key."""
    one, other = private("RS256"), private("RS256")
    for name, (number, bits) in (*ECDSA.items(), ("EdDSA", (-8, 0))):
        yield Signer(name, number, private(name), bits), Signer(name, number, private(name), bits)
    for name, (number, bits) in (*PSS.items(), *PKCS.items()):
        yield Signer(name, number, one, bits), Signer(name, number, other, bits)
    for name, (number, bits, length) in HMAC.items():
        second = Authenticator(name, number, bits, length)
        second.key = second.key[::-1]
        yield Authenticator(name, number, bits, length), second


def of_algorithm(signer, other):
    """Yields cases for one algorithm: what they show, the message, external_aad, the key, and the state and the sentences."""
    is_mac = isinstance(signer, Authenticator)
    title, made, name, bare = "MAC" if is_mac else "Signature", message(signer), signer.name, message(signer, kid=b"")
    right, wrong = [("verified", f"{title} verified by key 'our key' ({name}).")], [("wrong", f"{title} does not verify with key 'our key' ({name}).")]
    jose = [] if name == "HMAC 256/64" else [signer.jwk(), json.dumps({"keys": [json.loads(signer.jwk(d="AA"))]})]
    for key in (signer.cose().hex(), base64.b64encode(head(4, 1) + signer.cose()).decode(), *jose):
        yield f"{name} {key[:8]}", made, b"", key, right
    if not is_mac:
        unnamed = [("verified", f"{title} verified by key 0 ({name}).")]
        for key in (signer.pem(), signer.jwk(kid=None, alg=None)):
            yield f"{name} {key[:30]}", bare, b"", key, unnamed
        for key in (signer.certificate(), signer.certificate(True), signer.certificate(False, False)):
            yield f"{name}, certificate", bare, b"", key, [(*unnamed[0], UNCHECKED)]
        yield f"{name}, certificate for no signatures", bare, b"", signer.certificate(False), [
            ("open", f"Signature ({name}) not checked: there is no key to check it with.")]
    yield f"{name}, another key", made, b"", other.cose().hex(), wrong
    yield f"{name}, a bit of the content", changed(made, made.index(CONTENT)), b"", signer.cose().hex(), wrong
    yield f"{name}, a bit of the proof", changed(made, len(made) - 1), b"", signer.cose().hex(), wrong
    if is_mac:
        for size in (0, 7):
            told = [("wrong", f"MAC can't be right: {name} has {signer.length} bytes, and this one {size}.")]
            yield f"{name}, a short MAC", reproved(made, signer.length, bytes(size)), b"", signer.cose().hex(), told
    else:
        length, why = len(signer.sign(CONTENT)), "a member or the signature has a length that the algorithm doesn't allow"
        for size in (length - 1, length + 1):
            told = [("open", f"Signature ({name}) not checked: no key fits.", f"key 'our key' doesn't fit: {why}")]
            yield f"{name}, {size} bytes", reproved(made, length, bytes(size)), b"", signer.cose().hex(), told
    told = [("verified", f"{title} verified by key 'our key' ({name}, with the given external_aad).")]
    yield f"{name}, external_aad", message(signer, b"more"), b"more", signer.cose().hex(), told
    yield f"{name}, no external_aad", message(signer, b"more"), b"", signer.cose().hex(), wrong


def misfits(signer):
    """Yields cases with an ES256 key that doesn't fit, or with a message that isn't checked."""
    made, fails = message(signer), lambda why: [("open", "Signature (ES256) not checked: no key fits.", f"key 'our key' doesn't fit: {why}")]
    yield "alg", made, b"", signer.cose(number=-35).hex(), fails("it has no alg, or another than the message's")
    yield "key_ops", made, b"", signer.cose((4, head(4, 1) + integer(1))).hex(), fails("its key_ops don't allow this")
    yield "kid", made, b"", signer.cose(kid=b"other").hex(), [(*fails("")[0][:2], "key 'other' doesn't fit: the message names a key with another kid")]
    yield "no key", made, b"", "", [("open", "Signature (ES256) not checked: there is no key to check it with.")]
    detached = [("open", "Signature not checked: its content is detached, or isn't known here.")]
    yield "detached", message(signer, content=None), b"", signer.cose().hex(), detached
    critical = message(signer, more=((2, head(4, 1) + integer(-70000)), (-70000, integer(1))))
    yield "crit", critical, b"", signer.cose().hex(), [
        ("open", "Signature is of key 'our key' (ES256), but the message has critical labels (crit), and this page processes none.")]


def without_kid(signer, other):
    """Yields cases with keys that have no kid, for a message that names one."""
    for key in (signer.pem(), signer.jwk(kid=None), mapped((3, integer(signer.number)), *signer.members()[1]).hex()):
        yield f"no kid {key[:30]}", message(signer), b"", key, [
            ("verified", "Signature verified by key 0 (ES256).", "The message names a kid, and this key has none.")]
    yield "no kid, and another key", message(signer), b"", other.pem(), [
        ("wrong", "Signature does not verify with key 0 (ES256).", "The message names a kid, and a key without one may be of somebody else.")]


def of_names(by_name):
    """Yields cases with algorithms that fix the curve (RFC 9864), for keys that name none or that of JOSE."""
    for name, number, made in (("ES256", -9, "ESP256"), ("ES384", -51, "ESP384"), ("ES512", -52, "ESP512"), ("EdDSA", -19, "Ed25519")):
        signer = by_name[name]
        named = message(Signer(name, number, signer.key, signer.bits), kid=b"")
        keys = [signer.pem(), signer.jwk(kid=None, alg=None), *([signer.jwk(kid=None)] if name in ECDSA else [])]
        for key in keys:
            yield f"{made} {key[:30]}", named, b"", key, [("verified", f"Signature verified by key 0 ({made}).")]


def unchecked(signer, authenticator):
    """Yields cases with algorithms that the page doesn't check."""
    start, end = b"\xd2\x84", byte_string(CONTENT) + byte_string(bytes(64))
    outside = start + b"\x40" + mapped((1, integer(signer.number))) + end
    yield "alg outside", outside, b"", signer.cose().hex(), [("open", "Signature not checked: its protected header names no algorithm.")]
    yield "a MAC as a signature", message(authenticator)[1:], b"", authenticator.cose().hex(), [
        ("open", "Signature not checked: HMAC 256/256 is no algorithm for a signature, so the message may be of another kind.")]
    for text, name in ((b"a" * 20, f'algorithm "{"a" * 20}"'), (b"a" * 3000, "an algorithm with a long name")):
        made = start + byte_string(mapped((1, head(3, len(text)) + text))) + b"\xa0" + end
        yield name, made, b"", signer.cose().hex(), [("open", f"Signature not checked: this page doesn't check {name}.")]


def of_many_keys(by_name, other):
    """Yields a case with two keys in PEM, and signatures of the first by two algorithms: each key becomes two COSE_Keys."""
    first, second = by_name["PS256"], by_name["RS256"]
    wanted = [("verified", f"Signature {i} verified by key 0 ({it.name}).") for i, it in enumerate((first, second))]
    yield "keys in PEM", signed_by(first, second, kid=b""), b"", first.pem() + other.pem(), wanted
    marked = b"\xef\xbb\xbfceo"
    with_mark = by_name["ES256"].cose(kid=marked).hex()
    yield "a kid with a byte order mark", message(by_name["ES256"], kid=marked), b"", with_mark, [
        ("verified", f"Signature verified by key h'{marked.hex()}' (ES256).")]
    quoted = message(by_name["ES256"], kid=b"root' (ES256). Signature 1 verified by key 'ca")
    key = by_name["ES256"].cose(kid=b"root' (ES256). Signature 1 verified by key 'ca")
    spelled = b"root' (ES256). Signature 1 verified by key 'ca".hex()
    yield "a kid with quotes", quoted, b"", key.hex(), [("verified", f"Signature verified by key h'{spelled}' (ES256).")]


def unusable(signer):
    """Yields cases with keys that fit, and that a browser's ciphers can't use: an ES256 key whose y is a sign alone, and an Ed448 key."""
    said = lambda name, why: [("open", f"Signature ({name}) not checked: no key that fits can be used here.", f"key 'our key': {why}")]
    _, (kty, curve, x, (label, y)) = signer.members()
    compressed = mapped((2, byte_string(KID)), (3, integer(signer.number)), kty, curve, x, (label, b"\xf5" if y[-1] % 2 else b"\xf4"))
    why = "its y is given by its sign alone, which the browser can't use"
    yield "a sign for y", message(signer), b"", compressed.hex(), said("ES256", why)
    key = ed448.Ed448PrivateKey.generate()
    x = key.public_key().public_bytes(serialization.Encoding.Raw, serialization.PublicFormat.Raw)
    other = mapped((2, byte_string(KID)), (3, integer(-8)), (1, integer(1)), (-1, integer(7)), (-2, byte_string(x)))
    why = "this page checks no other Edwards curve than Ed25519"
    yield "Ed448", message(Signer("EdDSA", -8, key)), b"", other.hex(), said("EdDSA", why)


def of_edwards(signer):
    """Yields cases with an Ed25519 key whose algorithm is that of RFC 9864 in a JWK."""
    named, key = message(Signer("EdDSA", -19, signer.key)), signer.jwk(alg="Ed25519")
    yield "alg Ed25519", named, b"", key, [("verified", "Signature verified by key 'our key' (Ed25519).")]
    yield "alg Ed25519 for EdDSA", message(signer), b"", key, [
        ("open", "Signature (EdDSA) not checked: no key fits.", "key 'our key' doesn't fit: it has no alg, or another than the message's")]


def of_headers(signer, authenticator):
    """Yields cases with critical labels in an unprotected header or in a recipient's, and with a label in both headers."""
    critical = (2, head(4, 1) + head(3, 1) + b"x")
    open_for = lambda title, name, why: [("open", f"{title} is of key 'our key' ({name}), but {why}.")]
    crit = "the message has critical labels (crit), and this page processes none"
    yield "crit, unprotected", message(signer, outside=[critical]), b"", signer.cose().hex(), open_for("Signature", "ES256", crit)
    both = message(signer, outside=[(1, integer(signer.number))])
    yield "a label in both headers", both, b"", signer.cose().hex(), open_for("Signature", "ES256", "a label is in both of its headers")
    protected = mapped((1, integer(authenticator.number)))
    proof = authenticator.sign(structure("MAC", protected, b"", CONTENT))
    recipient = head(4, 3) + b"\x40" + mapped((1, integer(-6)), critical, (4, byte_string(KID))) + b"\x40"
    made = head(6, 97) + head(4, 5) + byte_string(protected) + b"\xa0" + byte_string(CONTENT) + byte_string(proof) + head(4, 1) + recipient
    yield "crit of a recipient", made, b"", authenticator.cose().hex(), open_for("MAC", "HMAC 256/256", crit)


def of_several(first, second):
    """Yields cases with several signatures, the first by ES256, and the second by ES384."""
    both, one = head(4, 2) + first.cose() + second.cose(), "Signature 0 verified by key 0 'our key' (ES256)."
    yield "two signers", signed_by(first, second), b"", both.hex(), [("verified", one), ("verified", "Signature 1 verified by key 1 'our key' (ES384).")]
    made = signed_by(first, second)
    wrong = ("wrong", "Signature 1 does not verify with key 1 'our key' (ES384).")
    yield "two signers, one is wrong", changed(made, len(made) - 1), b"", both.hex(), [("verified", one), wrong]


def cases():
    """Yields all cases."""
    by_name, others = {}, {}
    for signer, other in signers():
        by_name[signer.name], others[signer.name] = signer, other
        yield from of_algorithm(signer, other)
    yield from of_many_keys(by_name, others["RS256"])
    yield from misfits(by_name["ES256"])
    yield from unusable(by_name["ES256"])
    yield from of_edwards(by_name["EdDSA"])
    yield from without_kid(by_name["ES256"], others["ES256"])
    yield from of_names(by_name)
    yield from unchecked(by_name["ES256"], by_name["HMAC 256/256"])
    yield from of_headers(by_name["ES256"], by_name["HMAC 256/256"])
    yield from of_several(by_name["ES256"], by_name["ES384"])
