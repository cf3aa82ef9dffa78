"""The calls that take a message apart for its verifier: `coset_sign1`, `coset_message`, and those of coset_verify.h.

A call is a tuple, here and in the other files. It has the call's name, the kind's number, the input, the other arguments, and the
right status and result."""
import itertools

from capi.kinds import (ABSENT, CRITICAL, EITHER, HEADERS, MISUSE, NOT_ALLOWED, OK, PARTS, REFUSED, TAGGED, TAGS, bytes_at,
                        headers_of, number_of)
from cbor import encode

CONTEXTS = {"sign1": b"Signature1", "sign": b"Signature", "mac0": b"MAC0", "mac": b"MAC", "encrypt0": b"Encrypt0",
            "encrypt": b"Encrypt"}
DETACHED = (None, b"", b"elsewhere")


class Told(bytes):
    """The texts that a call writes, one after another. `view` has the numbers that it returns."""


def critical_told(headers, known):
    """Returns 0 if the headers have no crit (RFC 8152, section 3.1). Returns 1 if crit is protected and names only known
    labels, each of which the protected header has. Otherwise returns 2."""
    named = [header.get(("int", 2)) for header in headers]
    if named == [None, None]:
        return 0
    met = named[1] is None and all(label[0] == "int" and label[1] in known and label in headers[0] for label in named[0][1])
    return 1 if met else 2


def message_told(kind, item, index, tagged, aad, detached, known):
    """Returns the right status and results of `coset_message` for a message (RFC 8152, sections 3.1, 4.4, 5.3 and 6.3)."""
    is_encrypted, protected, carried = kind.startswith("encrypt"), bytes_at(item, 0), bytes_at(item, 2)
    if detached is not None and carried is not None:
        return MISUSE, None
    signers = item[1][3][1] if kind == "sign" else [item]
    index = index if kind == "sign" else 0
    if index >= len(signers) or not is_encrypted and carried is None and detached is None:
        return ABSENT, None
    bearer, named = signers[index], "signature" if kind == "sign" else kind
    content = [] if is_encrypted else [carried if detached is None else detached]
    own = [bytes_at(bearer, 0)] if kind == "sign" else []
    signed = encode(("array", [(3, CONTEXTS[kind])] + [(2, part) for part in [protected, *own, aad, *content]]))
    headers = headers_of(named, bearer)
    algorithm, key_ids = headers[0].get(("int", 1)), [header.get(("int", 4)) for header in headers]
    form = 0 if algorithm is None else 1 if algorithm[0] == "int" else 2
    place = 1 if key_ids[0] else 2 if key_ids[1] else 0
    texts = [signed, bytes_at(bearer, PARTS[4].get(named)) or b"", carried or b"", key_ids[place - 1][1] if place else b""]
    told = Told(b"".join(texts))
    critical = max(critical_told(h, known) for h in {"sign": [headers, headers_of(kind, item)]}.get(kind, [headers]))
    told.view = [algorithm[1] if form == 1 else 0, form, place, critical, int(tagged), *map(len, texts)]
    return OK, told


def sign1_calls(number, data, item, tagged, aads):
    """Yields the calls of `coset_sign1` for a message, with a detached payload and without one."""
    for aad in aads:
        for detached in DETACHED:
            status, told = message_told("sign1", item, 0, tagged, aad, detached, [])
            if told is not None:
                told.view[3] = min(told.view[3], 1)
            yield ("sign1", number, data, [aad, int(detached is not None), detached or b""], status, told)


def with_flags(kind, data, item, tagged, told):
    """Returns the same, with the number of texts (of three) that `coset_message_spans` finds in the input, if that is known.

    It finds all of them if the message has no list of signatures, has the shortest encoding, and names no critical labels. All
    strings then have definite lengths."""
    found = Told(told)
    ids = [v for header in headers_of(kind, item) for k, v in header.items() if k == ("int", 4)]
    lent = kind != "sign" and not told.view[3] and all(v[0] == 2 for v in ids)
    is_shortest = encode(("tag", TAGS[kind], item) if tagged else item) == data
    found.view, found.flags = told.view, 3 * lent if is_shortest or not lent else None
    return found


def message_calls(kind, number, data, item, tagged):
    """Yields the calls of `coset_message` for a message."""
    bearers = [(kind, item), *(("signature", it) for it in (item[1][3][1] if kind == "sign" else []))]
    headers = [header for bearer in bearers for header in headers_of(*bearer)]
    named = [label[1] for header in headers for label in header.get(("int", 2), (0, []))[1] if label[0] == "int"]
    signers = range(len(item[1][3][1]) + 1) if kind == "sign" else (0,)
    for index, detached, known in itertools.product(signers, DETACHED, ([], [*named, -70000, 4])):
        status, told = message_told(kind, item, index, tagged, b"aad", detached, known)
        words = [index, b"aad", int(detached is not None), detached or b"", ",".join(map(str, known)) or "-"]
        yield ("message", number, data, words, status, told)
        yield ("spans", number, data, words, status, told and with_flags(kind, data, item, tagged, told))
        yield from safe_calls(kind, number, data, item, words, status, told, detached)


def plaintext(item, ciphertext):
    """Returns the plaintext of a COSE_Encrypt0, as c/wrappers/c/calls.c decrypts it. The IV and the partial IV come first, each after
    the number of its header. The ciphertext's bytes follow, each xor 5a."""
    headers = list(enumerate(headers_of("encrypt0", item), 1))
    found = [bytes([place]) + header[("int", label)][1] for label in (5, 6)
             for place, header in [it for it in headers if ("int", label) in it[1]][:1]]
    return b"".join(found) + bytes(byte ^ 0x5a for byte in ciphertext)


def has_both_ivs(item):
    """Returns true if the headers of a COSE_Encrypt0 have both an IV and a partial IV (RFC 8152, section 3.1)."""
    headers = headers_of("encrypt0", item)
    return all(any(("int", label) in header for header in headers) for label in (5, 6))


def safe_calls(kind, number, data, item, words, status, told, detached):
    """Yields the calls of coset_verify.h, and the same calls of the wrappers. In one the verifier gets the right structure and
    accepts; others are refused, and so is an empty signature or MAC. The verifier also gets the right kind."""
    if kind == "encrypt":
        return
    carried, crypted = bytes_at(item, 2), kind == "encrypt0"
    if status == OK and crypted and carried is None and detached is None:
        status, told = ABSENT, None
    if told is None:
        yield ("safe", number, data, words[:4] + ["-7", words[4], b"", b"", b""], status, None)
        return
    view, texts = told.view, []
    for length in view[5:]:
        texts.append(told[len(b"".join(texts)):][:length])
    content = carried if detached is None else detached
    proof, answer = (content, plaintext(item, content)) if crypted else (texts[1], content)
    asked = [texts[0], proof, texts[3]]
    for allowed, said in ([view[0], True], [view[0], False], [view[0] + 1, True]):
        accepted = OK if said and (crypted or proof) else REFUSED
        status = CRITICAL if view[3] == 2 else NOT_ALLOWED if view[1] != 1 or allowed != view[0] else accepted
        status = HEADERS if status in (OK, REFUSED) and crypted and has_both_ivs(item) else status
        given = words[:4] + [f"{allowed},-99999", words[4]] + (asked if said else [texts[0] + b"x", *asked[1:]])
        yield ("safe", number, data, given, status, answer if status == OK else None)


def sealed_calls():
    """Yields the calls for COSE_Encrypt0s with an IV, a partial IV or neither in each of the headers."""
    ivs = [], [("int", 5), (2, b"an IV")], [("int", 6), (2, b"part")]
    for protected, unprotected, content in itertools.product(ivs, ivs, ((2, b"sealed"), (2, b""), ("simple", 22, 22))):
        header = encode(("map", [("int", 1), ("int", 1), *protected]))
        item = ("array", [(2, header), ("map", unprotected), content])
        yield from message_calls("encrypt0", 5, encode(item), item, False)


def mac_calls():
    """Yields the calls for a COSE_Mac whose recipient names a critical label that nobody understands. Nothing looks at it."""
    critical = encode(("map", [("int", 2), ("array", [("int", -70000)]), ("int", -70000), ("int", 1)]))
    recipients = ("array", [("array", [(2, critical), ("map", []), (2, b"")])])
    for protected in (b"\xa1\1\5", encode(("map", [("int", 1), ("int", 5), ("int", 2), ("array", [("int", -70000)])]))):
        item = ("array", [(2, protected), ("map", []), (2, b"payload"), (2, b"tag"), recipients])
        yield from message_calls("mac", 4, encode(item), item, False)
        yield from message_calls("mac", 4 + EITHER, encode(("tag", TAGS["mac"], item)), item, True)


# The greatest index that each language has.
INDICES = (1, 2, (1 << 31) - 1)


def indexed(call, kinds, words):
    """Yields the calls with an index other than 0, for messages of these kinds, in each form. `words` follow the index."""
    for kind in kinds:
        proof = [] if kind.startswith("encrypt") else [(2, b"proof")]
        recipients = [("array", [("array", [(2, b""), ("map", []), (2, b"")])])] if kind in ("mac", "encrypt") else []
        item = ("array", [(2, b"\xa1\1\x26"), ("map", []), (2, b"payload"), *proof, *recipients])
        signed = encode(("array", [(3, CONTEXTS[kind]), (2, b"\xa1\1\x26"), (2, b""), (2, b"payload")]))
        more = [signed, b"proof", b""] if call == "safe" else []
        for index, (form, it) in itertools.product(INDICES, ((0, item), (EITHER, item), (TAGGED, ("tag", TAGS[kind], item)))):
            yield (call, number_of(kind) + form, encode(it), [index, *words, *more], MISUSE, None)


def index_calls():
    """Yields the calls with an index other than 0, for messages without signers. Each would be accepted with 0."""
    yield from indexed("safe", ("sign1", "mac0", "mac"), [b"", 0, b"", "-7", "-"])
    for call, words in (("message", [b"", 0, b"", "-"]), ("spans", [b"", 0, b"", "-"]), ("structure", [b"", 0, b""])):
        yield from indexed(call, [kind for kind in TAGS if kind != "sign"], words)


# Headers with labels that the caller understands, all but the text (RFC 8152, section 3.1): the labels in crit, the labels of
# the other protected parameters, those of the unprotected ones, and whether crit is understood.
CRITICAL_LABELS = (
    # The header has the parameter, also if crit names its label twice, or names more labels.
    ([-70000], [-70000], [], True), ([-70000] * 2, [-70000], [], True), ([-70000, 4], [4, -70000], [], True),
    ([-70000], [-70000], [4], True),
    # A parameter is absent, which is a fatal error.
    ([-70000], [], [], False), ([-70000] * 300, [], [], False), ([-70000], [-70001], [], False),
    ([-70000, 4], [-70000], [], False), ([4, -70000], [-70000], [], False),
    # A parameter is in the unprotected header only.
    ([-70000], [], [-70000], False), ([-70000, 4], [-70000], [4], False),
    # crit names itself, or the algorithm.
    ([2], [], [], True), ([1], [], [], True), ([2, -70000], [], [], False),
    # The header has a parameter under a label that the caller doesn't understand.
    ([b"z"], [b"z"], [], False), ([-70000, b"z"], [-70000, b"z"], [], False),
)


def label_of(label):
    """Returns the item of a label."""
    return (3, label) if isinstance(label, bytes) else ("int", label)


def header_of(labels, critical=()):
    """Returns the map of a header with an algorithm, critical labels if there are any, and a byte string under each label."""
    crit = [("int", 2), ("array", [*map(label_of, critical)])] if critical else []
    return ("map", [("int", 1), ("int", -7), *crit, *(it for label in labels for it in (label_of(label), (2, b"it")))])


def critical_messages(critical, protected, unprotected):
    """Yields messages with such headers, each with its kind. A COSE_Sign has them as its own headers, or as its signer's."""
    there = [(2, encode(header_of(protected, critical))), ("map", header_of(unprotected)[1][2:])]
    plain, content, proof = [(2, encode(header_of([]))), ("map", [])], (2, b"content"), (2, b"proof")
    yield "sign1", [*there, content, proof]
    yield "mac0", [*there, content, proof]
    yield "encrypt0", [*there, content]
    yield "sign", [*there, content, ("array", [("array", [*plain, proof])])]
    yield "sign", [*plain, content, ("array", [("array", [*there, proof])])]
    # The other layer has the labels in crit as parameters.
    has_all = [(2, encode(header_of([label for label in dict.fromkeys(critical) if label not in (1, 2)]))), ("map", [])]
    yield "sign", [*there, content, ("array", [("array", [*has_all, proof])])]
    yield "sign", [*has_all, content, ("array", [("array", [*there, proof])])]


def critical_calls(check):
    """Yields the calls for messages with critical labels. Before, the results are compared with the table."""
    for *labels, is_understood in CRITICAL_LABELS:
        known = [label for label in labels[0] if isinstance(label, int)]
        for kind, parts in critical_messages(*labels):
            item = ("array", parts)
            told = message_told(kind, item, 0, False, b"", None, known)[1]
            check(told.view[3] == (1 if is_understood else 2), f"{kind} with the critical labels {labels}")
            yield from message_calls(kind, number_of(kind), encode(item), item, False)


def calls(kind, number, data, item, tagged):
    """Yields all calls of this file for an item of that kind. There are none if it is no message."""
    if kind == "sign1":
        yield from sign1_calls(number, data, item, tagged, (b"", b"aad"))
        yield from sign1_calls(1 + EITHER, data, item, tagged, (b"",))
    if kind in TAGS:
        yield from message_calls(kind, number, data, item, tagged)
