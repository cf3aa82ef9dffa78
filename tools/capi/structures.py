"""The calls for the structures that are signed, authenticated, countersigned, or go with a ciphertext."""
import itertools

from capi.kinds import ABSENT, EITHER, KINDS, MISUSE, OK, TAGGED, TAGS, WITH_HEADERS, bytes_at, headers_of, members, number_of
from capi.messages import sign1_calls
from cbor import decode, encode

HOLDERS = {"encrypt": b"Enc_Recipient", "mac": b"Mac_Recipient", "recipient": b"Rec_Recipient"}
# The rows of coset_vectors that have structures, and the kinds of their messages.
STRUCTURES = {"sign1_tbs": "sign1", "sign_tbs": "sign", "mac0_tbm": "mac0", "mac_tbm": "mac", "encrypt0_aad": "encrypt0",
              "encrypt_aad": "encrypt"}
# Protected headers of countersignatures, external data and detached payloads.
COUNTERSIGNERS = ((b"", b"", None), (b"\xa1\1\x27", b"aad", None), (b"", b"aad", b"elsewhere"), (b"\xa0", b"", b""))
COUNTERSIGNED = {f"{kind}_countersigned": kind for kind in TAGS}


# ---- of an item


def recipient_structures(data, item):
    """Yields the calls for the structure of a recipient's ciphertext (RFC 8152, section 5.3).

    They are made with each kind that may contain the recipient and with other kinds, and also with its header alone."""
    for number in [*range(1, 13), 4 + TAGGED, 6 + EITHER]:
        context = HOLDERS.get(KINDS[(number & 0xff) - 1])
        for aad in (b"", b"aad"):
            found = context and encode(("array", [(3, context), (2, bytes_at(item, 0)), (2, aad)]))
            yield ("recipient_structure", number, data, [aad], OK if found else ABSENT, found)
            yield ("recipient_structure_of", number, bytes_at(item, 0), [aad], OK if found else ABSENT, found)


def countersigned(kind, item, label, signer, aad, detached):
    """Returns the status and the structure that a countersignature of that label covers.

    The structures are of RFC 8152, section 4.4 and, for label 9, appendix A.2, and of RFC 9338, section 3.3."""
    if kind not in WITH_HEADERS:
        return ABSENT, None
    carried, is_abbreviated = bytes_at(item, 2), label in (9, 12)
    if carried is not None and detached is not None:
        return MISUSE, None
    if carried is None and detached is None or is_abbreviated and signer:
        return ABSENT, None
    others = [(2, bytes_at(item, 3))] if kind in ("sign1", "mac0", "mac") and label > 9 else []
    context = b"CounterSignature" + b"0" * is_abbreviated + b"V2" * len(others)
    strings = [bytes_at(item, 0), *([] if is_abbreviated else [signer]), aad, carried if detached is None else detached]
    return OK, encode(("array", [(3, context), *((2, string) for string in strings), *([("array", others)] if others else [])]))


def countersigned_calls(kind, number, data, item):
    """Yields the calls for the structures of an item's countersignatures, with and without a header of their own, by label."""
    either = [(number & 0xff) + EITHER] if kind in TAGS else []
    for label, (signer, aad, detached) in itertools.product((7, 9, 11, 12), COUNTERSIGNERS):
        status, found = countersigned(kind, item, label, signer, aad, detached)
        words = [label, signer, aad, int(detached is not None), detached or b""]
        for it in (number, *either):
            yield ("countersign_structure", it, data, words, status, found)


def recipients_of(kind, item):
    """Returns the recipients that an item has, or that it is."""
    return [item] if kind == "recipient" else members(kind, item) or [] if kind in HOLDERS else []


# ---- of a row


def of_signer(kind, data, item, index, aad, either, structure):
    """Yields the calls for one structure of a row's message: from the message, and from its parts."""
    is_encrypted, number, content = kind in ("encrypt0", "encrypt"), number_of(kind) + either, bytes_at(item, 2)
    for has in (0, 1):
        found = structure if (content is None) == bool(has) or is_encrypted and not has else None
        yield ("structure", number, data, [index, aad, has, b""], OK if found is not None else MISUSE if has else ABSENT, found)
    signer = bytes_at(item[1][3][1][index], 0) if kind == "sign" else b""
    content = b"" if is_encrypted else content or b""
    parts = ("structure_of", number, bytes_at(item, 0))
    yield (*parts, [signer, aad, content], OK, structure)
    if kind != "sign":
        yield (*parts, [b"\xa0", aad, content], ABSENT, None)
    if is_encrypted:
        yield (*parts, [signer, aad, b"\1"], ABSENT, None)


def structures(kind, row, data, aad, answer, check):
    """Yields the calls for the structures of a row, which its result has one after another."""
    item = decode(data)[0]
    for either in (0, EITHER):
        rest = answer
        if kind == "sign1":
            told = list(sign1_calls(1 + either, data, item, False, (aad,)))
            check(any(answer == call[5][:len(answer)] for call in told if call[4] == OK), f"what is signed of {row}")
            yield from told
        for index in range(len(item[1][3][1]) if kind == "sign" else 1):
            _, end = decode(rest)
            yield from of_signer(kind, data, item, index, aad, either, rest[:end])
            rest = rest[end:]
        check(not rest, f"structures of {row}")
    if kind == "sign":
        yield ("structure", 2, data, [len(item[1][3][1]), aad, int(bytes_at(item, 2) is None), b""], ABSENT, None)


def countersignatures(kind, item):
    """Yields the label of each countersignature in the unprotected header, and the content of its protected header.

    They are in the order of the rows. Countersignatures that no row speaks of are left out."""
    header = headers_of(kind, item)[1]
    for label in (7, 11):
        value = header.get(("int", label), ("array", []))
        for one in [value] if bytes_at(value, 0) is not None else value[1]:
            yield label, bytes_at(one, 0)
    if ("int", 12) in header and kind in ("sign1", "mac0", "mac"):
        yield 12, b""


def countersigned_rows(kind, row, data, aad, answer, check):
    """Yields the calls for the structures of a message's countersignatures, which a row has one after another."""
    item, rest = decode(data)[0], answer
    has = int(bytes_at(item, 2) is None)
    for label, signer in countersignatures(kind, item):
        _, end = decode(rest)
        for either in (0, EITHER):
            yield ("countersign_structure", number_of(kind) + either, data, [label, signer, aad, has, b""], OK, rest[:end])
        rest = rest[end:]
    check(not rest, f"what is countersigned of {row}")


def row_calls(words, row, answer, check):
    """Yields the calls for a row with structures, whose first word is in STRUCTURES or in COUNTERSIGNED."""
    data, aad = (bytes.fromhex(words[at]) if len(words) > at else b"" for at in (1, 2))
    calls_of, kinds = (structures, STRUCTURES) if words[0] in STRUCTURES else (countersigned_rows, COUNTERSIGNED)
    yield from calls_of(kinds[words[0]], row, data, aad, bytes.fromhex(answer), check)
