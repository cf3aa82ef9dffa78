"""The hostile inputs of tools/growth. A shape is a function of a number n, and its bytes grow as n does.

Labels are given by a list of encoded labels, so each list of pairs has one of the orders in `LABELS`. The number n is a multiple
of 240, so that each part of a shape is twice as long for 2n."""
import random

from capi.kinds import TAGS
from cbor import byte_string, encode, head, indefinite

# Members of maps that a shape needs besides its own.
ES256, A128GCM, HMAC = b"\x01\x26", b"\x01\x01", b"\x01\x05"
SYMMETRIC = b"\x01\x04"
TYPE = b"\x10" + head(3, 15) + b"application/cwt"
# The claims that each token has: an issuer, a subject, exp, nbf, iat and an identifier.
CLAIMS = [b"\x01\x61i", b"\x02\x61s", b"\x04\x19\x07\xd0", b"\x05\x00", b"\x06\x01", b"\x07\x41t"]
MEANT = b"\x03\x61a"
# The moment at which they are valid.
NOW = 1000


def integer(number):
    return encode(("int", number))


def text(content):
    return encode((3, content.encode()))


def array(elements):
    return head(4, len(elements)) + b"".join(elements)


def pairs(members):
    """Returns a map of encoded pairs."""
    return head(5, len(members)) + b"".join(members)


def shuffled(elements):
    """Returns the elements in an order that is random, but the same in each run."""
    mixed = list(elements)
    random.Random(1).shuffle(mixed)
    return mixed


def integers(n):
    """Returns labels that are integers without a meaning, in ascending order."""
    return [integer(-170_000 + i) for i in range(n)]


def texts(n):
    """Returns labels that are texts of one length, in ascending order."""
    return [text(f"label{i:06}") for i in range(n)]


def long_texts(n):
    """Returns labels that differ only in their last bytes."""
    return [text("a" * 60 + f"{i:06}") for i in range(n)]


# Lists of n labels.
LABELS = {
    "integers ascending": integers,
    "integers descending": lambda n: integers(n)[::-1],
    "integers in random order": lambda n: shuffled(integers(n)),
    "texts ascending": texts,
    "texts descending": lambda n: texts(n)[::-1],
    "texts in random order": lambda n: shuffled(texts(n)),
    "long texts in random order": lambda n: shuffled(long_texts(n)),
    "integers and texts in turn": lambda n: [it for both in zip(shuffled(integers(n // 2)), shuffled(texts(n // 2))) for it in both],
    "integers, the last one twice": lambda n: [*shuffled(integers(n)), integer(-170_000)],
}


def zeros(labels):
    """Returns a pair for each label, with the value 0."""
    return [label + b"\x00" for label in labels]


def chunks(n, major=2):
    """Returns a string in n chunks."""
    return indefinite(major, (b"\x41\x00" if major == 2 else b"\x61a") * n)


def wide(n, levels=240):
    """Returns arrays inside one another, each of which has as many other elements as make n together."""
    each = n // levels
    return (head(4, each + 1) + b"\x00" * each) * levels + b"\x00"


def wide_maps(n, levels=120):
    """Returns maps inside one another, each the last value of the one before."""
    each = n // levels
    level = head(5, each + 1) + b"".join(integer(i) + b"\x00" for i in range(each)) + b"\x20"
    return level * levels + b"\x00"


# The private labels that the policies of tools/growth_calls.py and of tools/growth.c understand.
UNDERSTOOD = [integer(-70_000), integer(-70_001)]

# Values with n parts.
VALUES = {
    "an array": lambda n: array([b"\x00"] * n),
    "arrays 240 levels deep": wide,
    "maps 120 levels deep": wide_maps,
    "a map, integers in random order": lambda n: pairs(zeros(shuffled(integers(n)))),
    "a map of one label": lambda n: pairs(zeros([b"\x00"] * n)),
    "a byte string in chunks": chunks,
    "a text in chunks": lambda n: chunks(n, 3),
    "a long text": lambda n: text("é" * n),
    "arrays of indefinite length": lambda n: indefinite(4, indefinite(4) * n),
    "tags 200 levels deep, again and again": lambda n: array([b"\xc1" * 200 + b"\x00"] * (n // 120)),
    "floats and big integers": lambda n: array([b"\xfb\x3f\xf1\x00\x00\x00\x00\x00\x00", b"\x1b" + b"\xff" * 8] * (n // 2)),
}


# ---- headers, each as a list of pairs


def critical(labels):
    """Returns the parameter crit with these labels."""
    return b"\x02" + array(labels)


def crits():
    """Returns the lists of n critical labels, by name. Each is a pair of crit, and of pairs that it names."""
    claims, kind = b"\x0f\xa0", TYPE
    return {
        "equal labels": lambda n: [critical([b"\x0f"] * n), claims],
        "labels 15 and 16 in turn": lambda n: [critical([b"\x0f", b"\x10"] * (n // 2)), claims, kind],
        "equal labels, and other parameters": lambda n: [critical([b"\x0f"] * n), *zeros(integers(n)), claims],
        "two private labels in turn": lambda n: [critical(UNDERSTOOD * (n // 2)), *zeros(integers(n)), *zeros(UNDERSTOOD)],
        "private labels": lambda n: [critical(shuffled(integers(n))), *zeros(integers(n))],
        "texts": lambda n: [critical(texts(n)), *zeros(shuffled(texts(n)))],
        "equal texts": lambda n: [critical([text("c")] * n), *zeros(texts(n)), text("c") + b"\x00"],
        "numbers and texts in turn": lambda n: [critical([*UNDERSTOOD, text("c")] * (n // 3)), *zeros(texts(n)), *zeros(UNDERSTOOD), text("c") + b"\x00"],
        "absent labels": lambda n: [critical(integers(n))],
        "absent texts": lambda n: [critical(texts(n)), *zeros(integers(n))],
    }


def signature(header=b"\xa0", protected=b""):
    """Returns a signature with these headers."""
    return b"\x83" + byte_string(protected) + header + b"\x41s"


def nested_signatures(n, label=7, levels=4):
    """Returns a header whose countersignatures contain one another, each with as many labels as make n together."""
    header = b"\xa0"
    for _ in range(levels):
        header = pairs([integer(label) + signature(header), *zeros(integers(n // levels))])
    return [integer(label) + signature(header)]


def nested_protected(n, levels=4):
    """Returns the same through protected headers, whose content is inside byte strings."""
    content = b""
    for _ in range(levels):
        content = pairs([integer(11) + signature(protected=content), *zeros(shuffled(integers(n // levels)))])
    return [integer(11) + signature(protected=content)]


def headers():
    """Returns the headers with n parts, by name."""
    found = {f"crit of {name}": make for name, make in crits().items()}
    found |= {f"labels: {name}": (lambda n, of=of: zeros(of(n))) for name, of in LABELS.items()}
    found |= {f"a value: {name}": (lambda n, of=of: [integer(-80_000) + of(n)]) for name, of in VALUES.items()}
    return found | {
        "labels: positive integers ascending": lambda n: zeros([integer(100_000 + i) for i in range(n)]),
        "a key identifier in chunks": lambda n: [b"\x04" + chunks(n)],
        "an IV in chunks": lambda n: [b"\x05" + chunks(n)],
        "a long content type": lambda n: [b"\x03" + text("a/" + "b" * n)],
        "a content type in chunks": lambda n: [b"\x03" + indefinite(3, b"\x61a" + b"\x61/" + b"\x61b" * n)],
        "a long name as the algorithm": lambda n: [b"\x01" + text("a" * n)],
        "header claims": lambda n: [b"\x0f" + pairs(zeros(shuffled(integers(n))))],
        "countersignatures, label 7": lambda n: [b"\x07" + array([signature()] * n)],
        "countersignatures, label 11": lambda n: [b"\x0b" + array([signature(b"\xa1\x04\x41k", b"\xa1\x01\x26")] * n)],
        "countersignatures 4 levels deep": nested_signatures,
        "protected headers 4 levels deep": nested_protected,
        "crit, labels and countersignatures": lambda n: [
            critical(shuffled(integers(n))), *zeros(integers(n)), b"\x0b" + array([signature()] * n)],
    }


# ---- messages


def message(kind, protected=(), unprotected=(), content=b"\x41\x00", last=None, tagged=True):
    """Returns a message of that kind with these headers, each a list of pairs."""
    parts = [byte_string(pairs(list(protected)) if protected else b""), pairs(list(unprotected)), content]
    if kind in ("sign1", "mac0", "mac"):
        parts.append(b"\x58\x40" + b"\x01" * 64 if kind == "sign1" else b"\x58\x20" + b"\x01" * 32)
    if kind in ("sign", "mac", "encrypt"):
        parts.append(last or array([signature() if kind == "sign" else recipient()]))
    return (head(6, TAGS[kind]) if tagged else b"") + array(parts)


def recipient(header=b"\xa0", inner=None):
    """Returns a recipient with this header, and with these recipients inside."""
    return (b"\x84" if inner else b"\x83") + b"\x40" + header + b"\xf6" + (inner or b"")


def nested_recipients(n, levels=120):
    """Returns recipients inside one another, each beside as many others as make n together."""
    inner = None
    for _ in range(levels):
        inner = array([recipient()] * (n // levels) + [recipient(inner=inner)])
    return inner


def lists(kind):
    """Returns the lists of n signatures or recipients, by name."""
    one = signature if kind == "sign" else recipient
    header = pairs(zeros(shuffled(integers(120))))
    found = {
        "of empty ones": lambda n: array([one()] * n),
        "each with 120 labels": lambda n: array([one(header)] * (n // 120)),
    }
    return found if kind == "sign" else found | {"120 levels deep": nested_recipients}


def messages(kind):
    """Returns the messages of that kind with n parts besides their headers, by name."""
    found = {
        "a payload in chunks": lambda n: message(kind, content=chunks(n)),
        "a protected header in chunks": lambda n: head(6, TAGS[kind]) + array([
            indefinite(2, b"".join(byte_string(bytes([byte])) for byte in pairs(zeros(integers(n))))),
            b"\xa0", b"\x40", *([b"\x40"] if kind in ("sign1", "mac0", "mac") else []),
            *([array([signature() if kind == "sign" else recipient()])] if kind in ("sign", "mac", "encrypt") else [])]),
        "labels in both headers": lambda n: message(kind, zeros(shuffled(integers(2 * n)[:n])), zeros(shuffled(integers(2 * n)[n:]))),
    }
    if kind in ("sign", "mac", "encrypt"):
        of = "signatures" if kind == "sign" else "recipients"
        found |= {f"{of}, {name}": (lambda n, make=make: message(kind, last=make(n))) for name, make in lists(kind).items()}
    return found


# ---- keys and claims


def key(members, kind=SYMMETRIC):
    return pairs([kind, *members])


def keys():
    """Returns the keys with n parts, by name."""
    found = {f"labels: {name}": (lambda n, of=of: key(zeros(of(n)))) for name, of in LABELS.items()}
    found |= {f"a value: {name}": (lambda n, of=of: key([integer(-80_000) + of(n)])) for name, of in VALUES.items()}
    return found | {
        "key_ops, equal ones": lambda n: key([b"\x04" + array([b"\x01"] * n)]),
        "key_ops, integers in turn": lambda n: key([b"\x04" + array([bytes([1 + i % 10]) for i in range(n)])]),
        "key_ops, texts ascending": lambda n: key([b"\x04" + array(texts(2 * n))]),
        "key_ops, texts descending": lambda n: key([b"\x04" + array(texts(n)[::-1])]),
        "key_ops, texts in random order": lambda n: key([b"\x04" + array(shuffled(texts(n)))]),
        "an identifier in chunks": lambda n: key([b"\x02" + chunks(n)]),
        "key_ops and labels": lambda n: key([b"\x04" + array(shuffled(texts(n))), *zeros(shuffled(integers(n)))]),
    }


def es256(number, more=()):
    """Returns a key for ES256 with an identifier of its own. Other members precede those of its type."""
    point = [b"\x21" + byte_string(b"\x02" * 32), b"\x22" + byte_string(b"\x03" * 32)]
    return pairs([b"\x01\x02", b"\x02" + byte_string(b"%06d" % number), b"\x03\x26", *more, b"\x20\x01", *point])


def key_sets():
    """Returns the sets with n keys or parts, by name."""
    header = zeros(shuffled(integers(120)))
    return {
        "keys with their type alone": lambda n: array([b"\xa1\x01\x04"] * n),
        "keys with identifiers": lambda n: array([key([b"\x02" + byte_string(b"%06d" % i)]) for i in range(n)]),
        "keys for ES256": lambda n: array([es256(i) for i in range(n // 8)]),
        "keys with 120 labels": lambda n: array([key(header)] * (n // 120)),
        "keys that can't be read": lambda n: array([b"\xa1\x01\x04", b"\xa0"] * (n // 2)),
        "one key with many labels": lambda n: array([key(zeros(shuffled(integers(n))))]),
    }


def claims(more, meant=MEANT):
    """Returns claims that are valid at NOW, with others."""
    return pairs([*CLAIMS[:2], *([meant] if meant else []), *CLAIMS[2:], *more])


def confirmed_by(members):
    """Returns the claim cnf with these members."""
    return b"\x08" + pairs(members)


def claim_sets():
    """Returns the claims with n parts, by name."""
    found = {f"labels: {name}": (lambda n, of=of: claims(zeros(of(n)))) for name, of in LABELS.items()}
    found |= {f"a value: {name}": (lambda n, of=of: claims([integer(-80_000) + of(n)])) for name, of in VALUES.items()}
    return found | {
        "numbers without a meaning": lambda n: claims(zeros(shuffled([integer(10_000 + i) for i in range(n)]))),
        "such numbers, private ones and texts": lambda n: claims(
            zeros(shuffled([*(integer(10_000 + i) for i in range(n)), *integers(n), *texts(n)]))),
        "aud of names": lambda n: claims([], b"\x03" + array([*texts(n), b"\x61a"])),
        "aud of equal names": lambda n: claims([], b"\x03" + array([b"\x61b"] * n + [b"\x61a"])),
        "aud of foreign names": lambda n: claims([], b"\x03" + array(texts(n))),
        "aud in chunks": lambda n: claims([], b"\x03" + chunks(n, 3)),
        "iss in chunks": lambda n: pairs([b"\x01" + chunks(n, 3), *CLAIMS[1:]]),
        "an identifier in chunks": lambda n: pairs([*CLAIMS[:5], b"\x07" + chunks(n)]),
        "nonces": lambda n: claims([b"\x0a" + array([byte_string(b"n" * 8)] * n)]),
        "aud and labels": lambda n: claims(zeros(shuffled(integers(n))), b"\x03" + array([*texts(n), b"\x61a"])),
    }


def confirmations():
    """Returns the claims cnf with n parts, by name."""
    found = {f"a key, {name}": (lambda n, make=make: confirmed_by([b"\x01" + make(n)])) for name, make in keys().items() if "chunks" not in name}
    inner = messages("encrypt0")["labels in both headers"]
    return found | {
        "an encrypted key, labels in both headers": lambda n: confirmed_by([b"\x02" + inner(n)[1:]]),
        "members, integers": lambda n: confirmed_by([b"\x03\x41k", *zeros(shuffled(integers(n)))]),
        "members, texts": lambda n: confirmed_by([b"\x03\x41k", *zeros(shuffled(texts(n)))]),
        "recipients of an encrypted key": lambda n: confirmed_by([b"\x02" + message("encrypt", last=array([recipient()] * n), tagged=False)]),
        "recipients 120 levels deep": lambda n: confirmed_by([b"\x02" + message("encrypt", last=nested_recipients(n), tagged=False)]),
    }


def contexts():
    """Returns the contexts of key derivations with n parts, by name."""
    party = b"\x83\xf6\xf6\xf6"

    def context(header, more=()):
        return array([b"\x01", party, party, array([b"\x18\x80", byte_string(pairs(header))]), *more])

    return {
        "labels": lambda n: context(zeros(shuffled(integers(n)))),
        "private information": lambda n: context([ES256], [b"\x41p"] * n),
        "a party's name in chunks": lambda n: array([b"\x01", b"\x83" + chunks(n) + b"\xf6\xf6", party, b"\x82\x18\x80\x40"]),
    }
