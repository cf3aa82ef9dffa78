"""The kinds and statuses of the C interface, and the parts of an item of each kind. Items are those of tools/cbor.py."""
from cbor import decode

KINDS = "sign1 sign mac0 mac encrypt0 encrypt signature recipient header key keyset claims".split()
WITH_HEADERS = KINDS[:8]
# The forms of a kind: under its tag, or with or without it.
TAGGED, EITHER = 0x100, 0x200
OK, SHORT, MEMORY, ABSENT, MISUSE, TYPE, EMPTY, NOT_ALLOWED, CRITICAL, REFUSED = 0, 1, 2, *range(12, 19)
# The names by which the programs print the statuses, in the order of their numbers.
NAMES = ("ok Short Memory Ends Malformed Deep Extraneous Unexpected Duplicate OutOfRange Unregistered NotPrivate Absent Misuse "
         "Type Empty NotAllowed Critical Refused Layer TooDeep Unauthenticated NotClaims NoExpiration Expired NotYetValid "
         "IssuedLater TooOld Issuer Audience Headers TokenType HeaderClaims Missing Unfit TooManyKeys").split()
LAYER, EXPIRED, NOT_YET_VALID, ISSUER, AUDIENCE, HEADERS, MISSING, UNFIT, TOO_MANY_KEYS = map(
    NAMES.index, ("Layer", "Expired", "NotYetValid", "Issuer", "Audience", "Headers", "Missing", "Unfit", "TooManyKeys"))
# The statuses of a layer that no key opens. The refusal then has the layer's key identifier.
BY_KEYS = (REFUSED, UNFIT, TOO_MANY_KEYS)
TAGS = {"sign1": 18, "sign": 98, "mac0": 17, "mac": 97, "encrypt0": 16, "encrypt": 96}
# The places in the array of the parts of `coset_part`, by the part's number and the kind. The parts are the protected header,
# the payload, the ciphertext, and the signature or tag.
PARTS = {1: {kind: 0 for kind in WITH_HEADERS}, 2: dict.fromkeys(("sign1", "sign", "mac0", "mac"), 2),
         3: dict.fromkeys(("encrypt0", "encrypt", "recipient"), 2), 4: {"sign1": 3, "mac0": 3, "mac": 3, "signature": 2}}
# The place in the array of the list of members, by the kind.
MEMBERS = {"sign": 3, "mac": 4, "encrypt": 3, "recipient": 3}


def number_of(kind):
    return KINDS.index(kind) + 1


def pairs_of(item):
    """Returns the pairs of a map. There are none if the item is None or no map."""
    return list(zip(item[1][::2], item[1][1::2])) if item and item[0] == "map" else []


def fits_int64(item):
    """Returns true if the item is an integer that an int64_t can have."""
    return item[0] == "int" and -(1 << 63) <= item[1] < 1 << 63


def bytes_at(item, place):
    """Returns the content of the byte string at that place of an array, or None if there is none."""
    if place is None or item[0] != "array" or place >= len(item[1]) or item[1][place][0] != 2:
        return None
    return item[1][place][1]


def members(kind, item):
    """Returns the keys of a key set, or the signatures or recipients of a message, or None."""
    if kind == "keyset":
        return item[1]
    place = MEMBERS.get(kind)
    return item[1][place][1] if place is not None and place < len(item[1]) else None


def maps(kind, item):
    """Returns the maps by their numbers in the interface: the protected and the unprotected header, or the item itself."""
    if kind not in WITH_HEADERS:
        return {3: item if item[0] == "map" else None}
    protected = bytes_at(item, 0)
    return {1: decode(protected)[0] if protected else None, 2: item[1][1]}


def headers_of(kind, item):
    """Returns the pairs of the protected and of the unprotected header."""
    return [dict(pairs_of(held)) for held in map(maps(kind, item).get, (1, 2))]
