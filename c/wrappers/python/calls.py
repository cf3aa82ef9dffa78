"""Makes the calls that it reads through the wrapper, as c/wrappers/c/calls.c does, and prints their results (tools/c). A
result is `ok` and a value, or the error."""
import struct
import sys

import coset
from accept import accepted
from issue import issued
from verify import verified

_NAMES = {3: "Ends", 4: "Malformed", 5: "Deep", 6: "Extraneous", 7: "Unexpected", 8: "Duplicate", 9: "OutOfRange",
          10: "Unregistered", 11: "NotPrivate"}
_REFUSED = dict(enumerate(
    "Refused Layer TooDeep Unauthenticated NotClaims NoExpiration Expired NotYetValid IssuedLater TooOld Issuer Audience Headers "
    "TokenType HeaderClaims Missing Unfit TooManyKeys".split(), 18))
_REFUSED |= {**_NAMES, 12: "Absent", 16: "NotAllowed", 17: "Critical"}
_RAISED = {coset.Absent: "Absent", coset.Empty: "Empty", coset.WrongType: "Type", coset.Misuse: "Misuse",
           coset.Refused: "Refused", coset.NotAllowed: "NotAllowed", coset.Critical: "Critical", coset.WrongHeaders: "Headers",
           MemoryError: "Memory"}


def data(word):
    return bytes.fromhex("" if word == "-" else word)


def pairs(word):
    """Returns the pairs in the word of `put_all`."""
    values = {"i": int, "f": float, "t": lambda it: data(it).decode(), "b": data, "e": lambda it: coset.Encoded(data(it))}
    halves = [pair.split("=") for pair in word.split(",") if "=" in pair]
    return [tuple(values[half[0]](half[1:]) for half in pair) for pair in halves]


def detached(has, content):
    """Returns a payload, or None if `has` says that there is none."""
    return None if has == "0" else data(content)


def token(key_id, issuer, subject, audience, token_id, *words):
    """Returns the token for the words of `issued`."""
    texts = [data(word).decode() for word in (issuer, subject, audience)]
    claims = dict(zip(range(1, 8), [*texts, *map(int, words[:3]), data(token_id)]))
    found = issued(claims, key_id, lambda signed: data(words[4]) if signed.hex() == words[3] else None)
    return "no" if found is None else found.hex()


def told(kind, given, aad, has, content):
    """Returns the result of `sign1`: its texts one after another, and the numbers of the view that coset_sign1
    gives."""
    m = coset.sign1(kind, given, data(aad), detached(has, content))
    texts = [m.signed, m.signature, m.payload, m.key_id]
    numbers = [m.algorithm or 0, m.algorithm_form, m.key_id_map or 0, int(m.has_critical), int(m.is_tagged), *map(len, texts)]
    return " ".join([b"".join(texts).hex(), *map(str, numbers)])


def integers(word):
    """Returns the integers of a word, which has commas between them."""
    return [] if word == "-" else list(map(int, word.split(",")))


def message(kind, given, index, aad, has, content, known):
    """Returns the result of `message`, in the same form as `told`."""
    m = coset.message(kind, given, int(index), integers(known), data(aad), detached(has, content))
    texts = [m.input, m.proof, m.content, m.key_id]
    numbers = [m.algorithm or 0, m.algorithm_form, m.key_id_map or 0, m.critical, int(m.is_tagged), *map(len, texts)]
    return " ".join([b"".join(texts).hex(), *map(str, numbers)])


def safe(kind, given, index, aad, has, content, algorithms, known, *words):
    """Returns the result of `verify` or `decrypt`, as calls.c describes it."""
    is_asked = lambda q: [q.kind, q.input, q.proof, q.key_id or b""] == [kind & 0xFF, *map(data, words)]
    ivs = lambda q: b"".join(bytes([which]) + iv for which, iv in ((q.iv_map, q.iv), (q.partial_iv_map, q.partial_iv)) if which)
    plain = lambda q: ivs(q) + bytes(byte ^ 0x5A for byte in q.proof) if is_asked(q) else None
    more = {"critical": integers(known), "external_aad": data(aad), "detached": detached(has, content)}
    if kind & 0xFF == coset.ENCRYPT0:
        return coset.decrypt(kind, given, integers(algorithms), plain, **more).hex()
    return coset.verify(kind, given, integers(algorithms), is_asked, int(index), **more).hex()


def texts(word):
    """Returns the texts of a word, which has commas between them."""
    return [] if word == "-" else [data(text[1:]).decode() for text in word.split(",")]


def name(issuer):
    """Returns the word for an issuer's name."""
    return "-" if issuer is None else "t" + issuer.encode().hex()


class Script:
    """The answers for the layers of a token, and the questions that were asked. The answer `wrong` has the wrong type."""

    def __init__(self, word):
        self.answers, self.asked, self.heard = iter(word.split(",")), b"", []

    def __call__(self, layer):
        self.asked += layer.proof + layer.input
        held = "/".join((text or b"").hex() for text in (layer.key_id, layer.iv, layer.partial_iv))
        self.heard.append(f"{layer.form}/{layer.algorithm}/{layer.key_id_map or 0}/{held}")
        assert layer.index == len(self.heard) - 1
        said, _, issuer = next(self.answers, "no").partition("@")
        if said == "no":
            return None
        if said == "wrong":
            return b"" if layer.form != coset.ENCRYPT0 else True
        answer = True if layer.form != coset.ENCRYPT0 else data(said[1:]) if said[0] == "p" else b""
        return (answer, data(issuer).decode()) if issuer else answer

    def told(self):
        return f"{len(self.heard)} {self.asked.hex() or '-'} {','.join(self.heard) or '-'}"


def told_token(token):
    """Returns the words for a verified token."""
    audience = ",".join("t" + one.encode().hex() for one in token.audience) or "-"
    layers = ",".join("/".join([str(it.form), it.protected.hex(), it.unprotected.hex(), name(it.issuer)]) for it in token.layers)
    return f"{token.claims.hex()} {audience} {token.others.hex()} {name(token.issuer)} {layers}"


class Ring:
    """A ring of keys with ciphers that a line describes, and their calls. SETS has the issuers with commas between them: the
    name, `:` and a set of keys. SAYS has the calls that are accepted: each the identifier of its key, or `#` and its number.
    The plaintext that may follow after `:` is given once."""

    def __init__(self, sets, says):
        named = [word.split(":") for word in sets.split(",")]
        self.ring = coset.KeyRing([(None if issuer == "-" else data(issuer[1:]).decode(), data(keys)) for issuer, keys in named], self)
        self.rules = [(*rule.split(":"), "")[:2] for rule in says.split(",")]
        self.asked, self.heard = b"", []

    def __call__(self, layer):
        before = len(self.heard)
        try:
            said = self.ring(layer)
        except coset.InvalidToken as refused:
            assert refused.layer == layer.index
            assert len(self.heard) == before + {coset.Status.UNFIT: 0, coset.Status.TOO_MANY_KEYS: coset.MOST_TRIES}[refused.reason]
            raise
        assert len(self.heard) > before
        return said

    def plaintext(self, key, algorithm, nonce, input, proof):
        """Returns the plaintext if this call of a cipher is accepted, else None."""
        key_id = coset.label_bytes(coset.KEY, key, coset.IN_ITEM, 2).hex() if coset.has(coset.KEY, key, coset.IN_ITEM, 2) else "-"
        number = f"#{len(self.heard)}"
        self.asked += proof + input
        self.heard.append(f"{key_id}/{algorithm}/{nonce.hex() or '-'}")
        for place, (rule, plain) in enumerate(self.rules):
            if rule in (key_id, number):
                self.rules[place] = rule, ""
                return data(plain)
        return None

    def verify(self, key, algorithm, input, proof):
        return self.plaintext(key, algorithm, b"", input, proof) is not None

    def decrypt(self, key, algorithm, nonce, aad, ciphertext):
        return self.plaintext(key, algorithm, nonce, aad, ciphertext)

    told = Script.told


class Crypto:
    """A ring of keys with the ciphers of coset.crypto. A set that isn't an array counts as empty, as in coset_openssl.h, and an empty
    name as none."""

    def __init__(self, sets):
        named = [word.split(":") for word in sets.split(",")]
        self.ring = coset.KeyRing([(None if issuer in ("-", "t") else data(issuer[1:]).decode(), self.keys(keys)) for issuer, keys in named])

    @staticmethod
    def keys(word):
        try:
            coset.readable_keys(data(word))
        except coset.Fault:
            return b"\x80"
        return data(word)

    def __call__(self, layer):
        return self.ring(layer)

    def told(self):
        return "-"


def opened(script, given, now, rules, algorithms, critical, required, audiences, types):
    """Returns the result of `verify_token` and the questions that it asked, as calls.c describes them. After a refusal,
    prints the layer, the number and the key identifier in place of the token, and returns None."""
    leeway, age, form, by, any_audience, forever, later = map(int, rules.split(","))
    try:
        token = coset.verify_token(
            given, script, integers(algorithms), audience=texts(audiences), types=texts(types), required=integers(required),
            critical=integers(critical), leeway=leeway, max_age=age or None, untagged_form=form, authenticated_by=by,
            any_audience=bool(any_audience), may_not_expire=bool(forever), may_be_issued_later=bool(later), now=int(now))
    except coset.InvalidToken as refused:
        key_id = None if refused.key_id is None else refused.key_id.hex()
        told = ["-" if it is None else str(it) for it in (refused.layer, refused.number, key_id)]
        print(_REFUSED[refused.reason], *told, script.told())
        return None
    except TypeError:
        print("Misuse", len(script.heard) - 1, "- -", script.told())
        return None
    return f"{told_token(token)} {script.told()}"


def acceptance(given, now, issuer, keys, *words):
    """Returns the token that `accepted` accepts by a set of keys of this issuer. The signature is good if it and the
    structure are those of the words."""
    class Signed:
        verify = staticmethod(lambda key, algorithm, input, proof: [input.hex(), proof.hex()] == list(words))

    try:
        return told_token(accepted(given, {data(issuer).decode(): data(keys)}, int(now), Signed()))
    except coset.InvalidToken as refused:
        print(_REFUSED[refused.reason])


def fits(form, key, algorithm, key_id, iv, partial_iv, proof):
    """Returns the nonce by which the key fits the layer. If it doesn't fit, prints this and returns None."""
    layer = coset.Layer(form, int(algorithm), data(key_id) or None, None, b"", data(proof), data(iv) or None, data(partial_iv) or None, 0)
    nonce = coset.key_fits(key, layer)
    if nonce is None:
        print("Unfit")
    return None if nonce is None else nonce.hex()


def span(part):
    """Returns the place of a part of the input."""
    return f"{part.start} {part.stop - part.start}"


def floating(value):
    """Returns the bits of a float, or `nan`."""
    return "nan" if value != value else struct.pack(">d", value).hex()


def places(pairs):
    """Returns the number of pairs, and the places of their labels and values."""
    return " ".join([str(len(pairs)), *(span(part) for pair in pairs for part in pair)])


def verification(given, *words):
    """Returns the payload for the words of `verified`."""
    is_asked = lambda q: [q.kind, str(q.algorithm), (q.key_id or b"").hex(), q.input.hex(), q.proof.hex()] == [coset.SIGN1, *words]
    return verified(given, is_asked).hex()


# Calls without a buffer for their result, and their results as texts.
_WITHOUT_ROOM = {
    "text": lambda status, _: f"{coset.version()} {coset.version_number():08x}: {coset.status_text(status)}",
    "check": lambda kind, given: coset.check(kind, given) or "",
    "count": lambda kind, given: str(coset.count(kind, given)),
    "integer": lambda _, given: str(coset.integer(given)),
    "label_int": lambda kind, given, which, label: str(coset.label_int(kind, given, int(which), int(label))),
    "member_span": lambda kind, given, index: span(coset.member_span(kind, given, int(index))),
    "pair_spans": lambda kind, given, index: " ".join(map(span, coset.pair_spans(kind, given, int(index)))),
    "label_span": lambda kind, given, which, label: span(coset.label_span(kind, given, int(which), int(label))),
    "item_span": lambda _, given, at: span(coset.item_span(given, int(at))),
    "string_span": lambda _, given: span(coset.string_span(given)),
    "major_type": lambda _, given: str(int(coset.major_type(given))),
    "simple_value": lambda _, given: {False: "20", True: "21", None: "22"}[coset.simple_value(given)],
    "float_value": lambda _, given: floating(coset.float_value(given)),
    "map_spans": lambda kind, given: places(coset.map_spans(kind, given)),
}
# Calls with several results, as texts.
_SEVERAL = {
    "sign1": told,
    "message": message,
    "spans": message,
    "safe": safe,
    "token": lambda _, given, *words: opened(Script(words[-1]), given, *words[:-1]),
    "ring": lambda _, given, *words: opened(Ring(*words[-2:]), given, *words[:-2]),
    "openssl": lambda _, given, *words: opened(Crypto(words[-1]), given, *words[:-1]),
    "keys": lambda _, given, *words: " ".join(key.hex() for key in coset.readable_keys(given)),
    "accepted": lambda _, given, *words: acceptance(given, *words),
    "fits": fits,
    "verified": lambda _, given, *words: verification(given, *words),
    "issued": lambda _, key_id, *words: token(key_id, *words),
}
# Calls that return bytes.
_BYTES = {
    "part": lambda kind, given, part: coset.part(kind, given, int(part)),
    "member": lambda kind, given, index: coset.member(kind, given, int(index)),
    "label": lambda kind, given, which, label: coset.label(kind, given, int(which), int(label)),
    "label_bytes": lambda kind, given, which, label: coset.label_bytes(kind, given, int(which), int(label)),
    "text_label": lambda kind, given, which, label: coset.label(kind, given, int(which), data(label).decode()),
    "label_at": lambda kind, given, index: coset.label_at(kind, given, int(index)),
    "value_at": lambda kind, given, index: coset.value_at(kind, given, int(index)),
    "key_of": lambda _, given, key_id: coset.key_of(given, data(key_id)),
    "structure": lambda kind, given, index, aad, *payload:
        coset.structure(kind, given, int(index), data(aad), detached(*payload)),
    "structure_of": lambda kind, given, signer, aad, content:
        coset.structure_of(kind, given, data(content), data(signer), data(aad)),
    "recipient_structure": lambda kind, given, aad: coset.recipient_structure(kind, given, data(aad)),
    "recipient_structure_of": lambda kind, given, aad: coset.recipient_structure_of(kind, given, data(aad)),
    "countersign_structure": lambda kind, given, label, signer, aad, *payload:
        coset.countersign_structure(kind, given, int(label), data(signer), data(aad), detached(*payload)),
    "put": lambda kind, given, label, value: coset.put_encoded(kind, given, int(label), data(value)),
    "put_int": lambda kind, given, label, value: coset.put(kind, given, int(label), int(value)),
    "put_float": lambda kind, given, label, value: coset.put(kind, given, int(label), float(value)),
    "put_bytes": lambda kind, given, label, value: coset.put(kind, given, int(label), data(value)),
    "put_text": lambda kind, given, label, value: coset.put(kind, given, int(label), data(value).decode()),
    "put_text_label": lambda kind, given, label, value: coset.put_encoded(kind, given, data(label).decode(), data(value)),
    "put_all": lambda kind, given, word: coset.put_all(kind, given, pairs(word)),
    "make": lambda kind, given, unprotected, has, content, proof:
        coset.make(kind, given, data(unprotected), detached(has, content), data(proof)),
    "add": lambda kind, given, member: coset.add(kind, given, data(member)),
    "write": coset.write,
    "canonical_key": coset.canonical_key,
}


def answer(name, kind, given="-", *words):
    """Returns the result of a call. The first of `words` is the size of the buffer in C, if the call has one."""
    kind, given = int(kind), data(given)
    if name in _WITHOUT_ROOM:
        return _WITHOUT_ROOM[name](kind, given, *words)
    if name in _SEVERAL:
        return _SEVERAL[name](kind, given, *words[1:])
    return _BYTES[name](kind, given, *words[1:]).hex()


for line in sys.stdin:
    try:
        found = answer(*line.split())
        if found is not None:
            print("ok", found)
    except tuple(_RAISED) as raised:
        print(_RAISED[type(raised)])
    except coset.Fault as fault:
        print(_NAMES[fault.status])
