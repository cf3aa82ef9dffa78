"""Tokens of every shape: one to four layers, each a COSE_Sign1, a COSE_Mac0 or a COSE_Encrypt0. Each is verified with memory to
work in that grows step by step, up to the size that docs/C.md says is enough."""
import itertools

from capi.kinds import OK
from capi.tokens import enough_room, item, listed
from cbor import byte_string, head

FORMS = {1: (18, -7), 3: (17, 5), 5: (16, 10)}
ALGORITHMS = "-7,5,10"
# What a token may have much of: claims besides an expiration time, parts of the headers, tags and signatures, and names.
CLAIMS = ({}, {7: bytes(1000)}, {2: "s" * 300, 3: ["a" * 9] * 40}, {3: "a"}, {3: "a" * 999}, {3: ["a" * 999]},
          {1: "i" * 200, 7: b"x"}, {1: "i" * 200, 3: "a" * 200}, {3: "a" * 70, -200: bytes(600), 99: [1] * 100})
PROTECTED = ({}, {4: bytes(200)}, {4: bytes(20), 5: bytes(180)}, {6: bytes(200)}, {"x": bytes(200)})
UNPROTECTED = ({}, {4: bytes(200)}, {5: bytes(13)}, {"x": bytes(200)})
PROOFS = (64, 1, 600)
NAMES = (None, b"i" * 200, b"another name " * 20)


def token(forms, claims, protected, unprotected, tag, name):
    """Returns a token, and the answers by which its layers are opened."""
    data, answers = item({4: 2000, **claims}), []
    for form in reversed(forms):
        number, algorithm = FORMS[form]
        start = head(6, number) + head(4, 3 if form == 5 else 4) + item(item({1: algorithm, **protected})) + item(unprotected)
        said = "p" + data.hex() if form == 5 else "yes"
        answers.insert(0, said + ("" if name is None else "@" + name.hex()))
        data = start + (byte_string(data + bytes(tag)) if form == 5 else byte_string(data) + byte_string(bytes(tag)))
    return data, answers


def variants():
    """Yields claims, headers, the length of tags and signatures, and the issuers' name."""
    usual = (CLAIMS[0], PROTECTED[0], UNPROTECTED[0], PROOFS[0], NAMES[0])
    for place, values in enumerate((CLAIMS, PROTECTED, UNPROTECTED, PROOFS, NAMES)):
        for value in values:
            yield (*usual[:place], value, *usual[place + 1:])
    yield {3: "a" * 999}, PROTECTED[1], {}, 16, NAMES[1]
    yield {3: "a" * 4999}, {}, {}, 8, NAMES[0]
    yield {1: "i" * 200, 3: "a" * 200}, {}, UNPROTECTED[1], 8, NAMES[1]


def calls():
    """Yields the calls for each shape with each variant."""
    for count in (1, 2, 3, 4):
        for forms, variant in itertools.product(itertools.product(FORMS, repeat=count), variants()):
            claims, protected, unprotected, tag, name = variant
            if 1 in claims:
                name = claims[1].encode()
            data, answers = token(forms, claims, protected, unprotected, tag, name)
            rules = "0,0,0,2,1,0,0"
            words = [1000, rules, ALGORITHMS, "-", "-", "-", "-", listed(answers)]
            audience = claims.get(3, "")
            names = [name or b""] * count
            yield ("room", 0, data, words, OK, enough_room(data, names, audience if isinstance(audience, str) else ""))
