"""The calls of the verifiers and issuers of docs/C.md, with the examples of the RFCs."""
import re

from capi.kinds import CRITICAL, EITHER, NOT_ALLOWED, OK, REFUSED, bytes_at, pairs_of
from capi.messages import message_calls, sign1_calls
from capi.p256 import is_signed
from capi.vectors import key_of_row, named, token
from cbor import decode, encode
from sources import read

# What each verifier says of itself, because its payload may be that of a web token.
UNCHECKED = "Nothing else is checked, such as `exp`, `aud` or `iss`: for a web token call"
# The files that the page shows, each from the line on that begins with this pattern.
SHOWN = {"c/verify.c": r"coset_status verified\([^)]*\)[^;\n]*\n", "c/accept.c": "#include", "c/issue.c": "#include",
         "python/verify.py": "import", "python/accept.py": "import", "python/issue.py": "import",
         "js/verify.mjs": "import", "js/accept.mjs": "import", "js/issue.mjs": "import",
         "go/calls/verify.go": "package", "go/calls/accept.go": "package", "go/calls/issue.go": "package"}


def compare_page(check):
    """Checks that the page shows the verifiers, the issuers and the programs for web tokens as they are, most with their imports.
    Each verifier says what it leaves unchecked."""
    page = read("docs", "C.md")
    for path, start in SHOWN.items():
        text = read("c", "wrappers", *path.split("/"))
        parts = re.findall(rf"^{start}[\s\S]*", text, re.M)
        check(len(parts) == 1 and parts[0].strip() in page, f"docs/C.md doesn't show what c/wrappers/{path} has")
        words = " ".join(re.sub(r"^\s*(?://+|\*)", "", text, flags=re.M).split())
        is_verifier = path.rpartition("/")[2].startswith("verify.")
        check(not is_verifier or UNCHECKED in words, f"c/wrappers/{path} doesn't say what it leaves unchecked")
    check(UNCHECKED in page, "docs/C.md doesn't say what a verifier leaves unchecked")


def verify_signatures(check):
    """Verifies the token's signature with its key. Then verifies the countersignature of RFC 9338, appendix A.1.1, over the
    structure of its row. Its key is from RFC 8152, appendix C.7.1."""
    data, signed, _, key = token()
    signature = decode(data)[0][2][1][3][1]
    check(is_signed(key, signed, signature), "the token's signature")
    check(not is_signed(key, signed + b"x", signature), "a signature of other bytes")
    row, over = named("rfc9338-a.1.1")[2]
    unprotected = dict(pairs_of(decode(bytes.fromhex(row[1]))[0][1][1]))
    countersignature, key = bytes_at(unprotected[("int", 11)], 2), key_of_row("rfc8152-c.7.1", 2)[1]
    check(is_signed(key, bytes.fromhex(over), countersignature), "the countersignature of RFC 9338")


def verify_others(message, words):
    """Yields the calls for the token's message with other headers."""
    ids = message[1]
    for protected, unprotected, status in ((bytes.fromhex("a201260281617a"), ids, CRITICAL),
                                           (b"\xa1\1\x26", ("map", ids[1] + [("int", 2), ("array", [("int", 1)])]), CRITICAL),
                                           (b"", ids, NOT_ALLOWED), (bytes.fromhex("a1016178"), ids, NOT_ALLOWED),
                                           (b"\xa1\1\x26", ("map", []), REFUSED)):
        other = ("array", [(2, protected), unprotected] + message[2:])
        yield ("verified", 0, encode(other), words, status, None)
        yield from sign1_calls(1, encode(other), other, False, (b"",))
        yield from message_calls("sign1", 1, encode(other), other, False)
    identified = bytes.fromhex("a20126044101")
    other = ("array", [(2, identified)] + message[1:])
    signed = encode(("array", [(3, b"Signature1"), (2, identified), (2, b""), message[2]]))
    yield ("verified", 0, encode(other), ["-7", b"\1", signed, message[3][1]], OK, message[2][1])
    yield from sign1_calls(1 + EITHER, encode(other), other, False, (b"",))


def verifications():
    """Yields the calls that verify the token in each language, by comparing its structure."""
    data, signed, key_id, _ = token()
    message = decode(data)[0][2][1]
    words = ["-7", key_id, signed, message[3][1]]
    yield ("verified", 0, data, words, OK, message[2][1])
    yield ("verified", 0, data[1:], words, OK, message[2][1])
    yield ("verified", 0, data[:-1], words, 3, None)
    yield ("verified", 0, data + b"\0", words, 6, None)
    yield ("verified", 0, data, words[:3] + [b"\1"], REFUSED, None)
    yield from verify_others(message, words)


def issuings():
    """Yields the calls that make the same token from its claims and its signature."""
    data, signed, key_id, _ = token()
    message = decode(data)[0][2][1]
    claims = dict(pairs_of(decode(message[2][1])[0]))
    says = [claims[("int", label)][1] for label in (1, 2, 3, 7, 4, 5, 6)]
    yield ("issued", 0, key_id, says + [signed, message[3][1]], OK, data)
    yield ("issued", 0, key_id, says + [signed + b"x", message[3][1]], -1, None)
    yield ("issued", 0, key_id, says + [signed, b""], -1, None)


def wrong_signers():
    """Yields calls of the issuer in C whose signer returns another number than COSET_YES, or sets a length of 0 or above its room."""
    *_, words, _, _ = next(issuings())
    for answer in ("=0", "=1", "=-1", "=2", "=256", "+1", f"+{(1 << 64) - 128}", f"+{(1 << 64) - 129}"):
        yield ("issued", 0, token()[2], [*words[:-1], answer], -1, None)


def calls(check):
    """Yields all calls of this file. Before, the signatures are verified here."""
    verify_signatures(check)
    yield from verifications()
    yield from issuings()
