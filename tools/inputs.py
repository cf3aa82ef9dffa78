"""Inputs of all types for scripts that compare programs: values by the grammar of each kind, most of them damaged in one place.

The same seed makes the same inputs.
"""
import itertools
import os
import random
import re
import sys

sys.dont_write_bytecode = True
import cbor  # noqa: E402
import common  # noqa: E402

TAGS = {"sign1": 18, "sign": 98, "mac": 97, "mac0": 17, "encrypt": 96, "encrypt0": 16}
# Numbers at and next to the limits of widths and types.
ENDS = sorted({end + by for end in (0, 24, 256, 1 << 16, 1 << 32, 1 << 63, 1 << 64) for by in (-2, -1, 0, 1)
               if 0 <= end + by < 1 << 64})
NUMBERS = list(range(26)) + ENDS + [-1 - end for end in ENDS] + [-7, -70000, -65535, -65536, -65537, 30000, 10000, 256]
LABELS = [8, 9, 10, 13, 15, 32, 33, 256, 257, 300, 999, -1, -2, -65536, -65537, -(1 << 63), (1 << 63) - 1, "a", "", "ab", "ü"]
TEXTS = ["", "a", "bb", "a/b", "text/plain", " a/b", "a/b ", "a/b/c", "/", "\u2003a/b", "ü", "\U0001f600", "x" * 24]
SCRAPS = [bytes.fromhex(scrap) for scrap in (
    "00 17 1818 20 3863 1b8000000000000000 3b8000000000000000 1bffffffffffffffff 3bffffffffffffffff 40 4101 5fff "
    "5f41014102ff 60 6161 7f61616162ff 62c328 80 8100 8340a040 9fff a0 a10000 a10126 bfff c0f6 d240 c24101 c340 "
    "c249010000000000000000 f4 f5 f6 f7 f0 f818 f8ff f814 f93c00 f97e00 fa3fc00000 fb3ff8000000000000 "
    "fb3ff199999999999a ff 1c 5f5fffff 7f6180ff 8340a1012640 8440a0f640 a10b01 a10c40 818340a040").split()]
HEADS = b"\x0b\x1f\x40\x5f\x80\x9f\xa0\xc2\xf6\xf7\xf8\xff"


class Pair(list):
    """A list of a key and a value."""


class Map(list):
    """Pairs."""

    def __init__(self, pairs=()):
        super().__init__(map(Pair, pairs))


class Tag(list):
    """A list of a tag's number and its content."""


class Inside(list):
    """A byte string whose content is one item."""


class Raw(bytes):
    """An item that is encoded already."""


def head(major, number, r=None):
    """Returns the shortest head of that major type. With a random source it is longer now and then."""
    return cbor.head(major, number, r.choice(cbor.widths(number)) if r and r.random() < 0.1 else None)


def encode(item, r=None):
    """Returns the item's shortest encoding. With a random source, heads are longer or lengths indefinite now and then."""
    many = r is not None and r.random() < 0.1
    if isinstance(item, Raw):
        return bytes(item)
    if isinstance(item, bool) or item is None:
        return {False: b"\xf4", True: b"\xf5", None: b"\xf6"}[item]
    if isinstance(item, int):
        return head(0, item, r) if item >= 0 else head(1, -1 - item, r)
    if isinstance(item, float):
        return cbor.floating(item, 8)
    if isinstance(item, Inside):
        return encode(encode(item[0], r), r)
    if isinstance(item, (bytes, str)):
        major, content = (2, item) if isinstance(item, bytes) else (3, item.encode())
        if many:
            cut = r.randint(0, len(item))
            parts = [item[:cut], item[cut:]] if major == 2 else [item[:cut].encode(), item[cut:].encode()]
            return cbor.indefinite(major, b"".join(head(major, len(part)) + part for part in parts))
        return head(major, len(content), r) + content
    if isinstance(item, Tag):
        return head(6, item[0], r) + encode(item[1], r)
    major = 5 if isinstance(item, Map) else 4
    members = b"".join(encode(member, r) for part in item for member in (part if major == 5 else [part]))
    return cbor.indefinite(major, members) if many else head(major, len(item), r) + members


class Maker:
    """Makes values by the grammar of each kind (RFC 8152, RFC 8392)."""

    def __init__(self, r):
        self.r = r

    def some(self, *makers):
        return self.r.choice(makers)()

    def integer(self):
        return self.r.choice(NUMBERS)

    def string(self):
        return self.r.randbytes(self.r.choice((0, 1, 1, 2, 3, 8, 23, 24)))

    def filled(self):
        return self.r.randbytes(self.r.choice((1, 1, 2, 3, 8)))

    def text(self):
        return self.r.choice(TEXTS)

    def float(self):
        return Raw(self.r.choice((b"\xf9\x3c\x00", b"\xf9\x3e\x00", b"\xf9\xfc\x00", b"\xfa\x3f\x9d\xf3\xb6",
                                  b"\xfb\x3f\xf1\x99\x99\x99\x99\x99\x9a")))

    def value(self, depth=3):
        plain = [self.integer, self.string, self.text, lambda: self.r.choice((True, False, None))]
        if self.r.random() < 0.03:
            return self.float()
        if depth == 0 or self.r.random() < 0.5:
            return self.some(*plain)
        inner, count = (lambda: self.value(depth - 1)), self.r.choice((0, 1, 1, 2, 3))
        return self.some(lambda: [inner() for _ in range(count)], lambda: Map([inner(), inner()] for _ in range(count)),
                         lambda: Tag([self.r.choice((0, 1, 4, 5, 18, 23, 24, 61, 98, 256, (1 << 64) - 1)), inner()]))

    def label(self):
        return self.r.choice(LABELS) if self.r.random() < 0.5 else self.some(self.integer, self.text)

    def algorithm(self):
        return self.r.choice((-7, -8, -37, -257, -65535, 1, 3, 5, 10, 24, -65537, -70000, 0, "alg"))

    key_type = key_operation = elliptic_curve = claim_name = header_parameter = label

    def content_type(self):
        return self.r.choice((0, 16, 60, 61, 101, 10000, 11542, 20000, 30000, "a/b", "text/plain"))

    def pairs(self, fields, others):
        """Returns a map of some of the fields, chosen at random, and of up to two other labels, in any order."""
        chosen = [[label, maker()] for label, maker, chance in fields if self.r.random() < chance]
        labels = self.r.sample(others, self.r.choice((0, 0, 0, 1, 2)))
        chosen += [[label, self.value(2)] for label in labels]
        if self.r.random() < 0.3:
            self.r.shuffle(chosen)
        return Map(chosen)

    def header(self, depth=2):
        count = 0.25 if depth else 0
        signatures = lambda: self.some(lambda: self.signature(depth - 1), lambda: [
            self.signature(depth - 1) for _ in range(self.r.choice((1, 2)))])
        iv = self.r.choice((5, 6))
        return self.pairs([(1, self.algorithm, 0.6),
                           (2, lambda: [self.r.choice((1, 4, 5, -65537, "a", 33)) for _ in range(self.r.choice((1, 2)))], 0.2),
                           (3, self.content_type, 0.2), (4, self.filled, 0.3), (iv, self.filled, 0.2), (7, signatures, count),
                           (11, signatures, count / 8), (12, self.string, count / 8)], LABELS)

    protected = header

    def protected_bstr(self, depth=2):
        return b"" if self.r.random() < 0.3 else Inside([self.header(depth)])

    def headers(self, depth=2):
        return [self.protected_bstr(depth), self.header(depth) if self.r.random() < 0.6 else Map()]

    def signature(self, depth=2):
        return self.headers(depth) + [self.string()]

    def content(self):
        return None if self.r.random() < 0.3 else self.string()

    def recipients(self, depth=2):
        return [self.recipient(depth - 1) for _ in range(self.r.choice((0, 1, 1, 2)))]

    def recipient(self, depth=2):
        inner = [self.recipients(depth)] if depth > 0 and self.r.random() < 0.3 else []
        return self.headers(max(depth - 1, 0)) + [self.content()] + inner

    def sign1(self):
        return self.headers() + [self.content(), self.string()]

    sign1_tbs = mac0 = sign1

    def sign(self):
        return self.headers(1) + [self.content(), [self.signature(1) for _ in range(self.r.choice((0, 1, 1, 2)))]]

    def mac(self):
        return self.headers(1) + [self.content(), self.string(), self.recipients()]

    def encrypt0(self):
        return self.headers() + [self.content()]

    def encrypt(self):
        return self.headers(1) + [self.content(), self.recipients()]

    def key(self):
        operations = lambda: self.r.sample([1, 2, 3, 4, 5, 6, 7, 8, 9, 10, "op"], self.r.choice((1, 2)))
        return self.pairs([(1, lambda: self.r.choice((1, 2, 3, 4, 7, "kty")), 0.97), (2, self.filled, 0.3),
                           (3, self.algorithm, 0.4), (4, operations, 0.3), (5, self.filled, 0.2), (-1, self.integer, 0.4),
                           (-2, self.string, 0.4), (-3, lambda: self.some(self.string, lambda: True), 0.3),
                           (0, self.value, 0.05)], [label for label in LABELS if label not in (-1, -2)])

    def keyset(self):
        return [self.key() for _ in range(self.r.choice((0, 1, 1, 2, 3)))]

    def claims(self):
        fields = [(label, self.text, 0.3) for label in (1, 2, 3)] + [(label, self.timestamp, 0.3) for label in (4, 5, 6)]
        return self.pairs(fields + [(7, self.string, 0.3)], [8, 9, 38, 40, 256, 265, 2394, -257, -65537, -70000, "a", "", "ab"])

    def timestamp(self):
        return self.some(lambda: self.r.choice((0, 1, -1, 1443944944, (1 << 63) - 1, -(1 << 63))),
                         lambda: self.r.randrange(1 << 32), self.float)

    def party(self):
        return [self.content(), self.some(self.content, lambda: self.r.choice((0, -1, 256, (1 << 63) - 1))), self.content()]

    def supp_pub(self):
        return [self.r.choice((0, 10, 128, 256, 1 << 32, (1 << 64) - 1)), self.protected_bstr(1)] + (
            [self.string()] if self.r.random() < 0.3 else [])

    def kdf(self):
        return [self.algorithm(), self.party(), self.party(), self.supp_pub()] + [
            self.string() for _ in range(self.r.choice((0, 0, 1, 2)))]


MAIN = ["value", "sign1", "sign", "mac", "mac0", "encrypt", "encrypt0", "key", "keyset", "claims", "kdf"]
KINDS = MAIN + ["label", "algorithm", "content_type", "key_type", "key_operation", "claim_name", "header_parameter",
                "elliptic_curve", "header", "protected", "protected_bstr", "signature", "recipient", "sign1_tbs", "timestamp",
                "party", "supp_pub"]


def places(item):
    """Yields each place of a member, as the list that contains it and its index."""
    if isinstance(item, list):
        for index, member in enumerate(item):
            if not (isinstance(item, Tag) and index == 0):
                yield item, index
                yield from places(member)


def damage_item(item, r):
    """Returns the item with a change in one place."""
    whole = Inside([item])
    holder, index = r.choice(list(places(whole)))
    member, way = holder[index], r.randrange(9)
    if isinstance(member, Pair) or not isinstance(holder, (Tag, Pair, Inside)) and way < 3:
        other = r.randrange(len(holder))
        if way % 3 == 0:
            del holder[index]
        elif way % 3 == 1:
            holder.insert(index, member)
        elif isinstance(member, Pair) and r.random() < 0.5:
            member[0] = holder[other][0]
        else:
            holder[index], holder[other] = holder[other], holder[index]
    elif way == 3:
        holder[index] = r.choice(([member], Tag([r.choice((0, 2, 18, 24)), member]), Inside([member])))
    elif way == 4 and isinstance(member, Map):
        member.append(Pair([Raw(r.choice(SCRAPS)), r.choice(NUMBERS)]))
    elif way == 4 and type(member) is list:
        member.append(Raw(r.choice(SCRAPS)))
    elif way in (5, 6) and isinstance(member, int):
        holder[index] = r.choice(NUMBERS)
    elif way in (5, 6) and isinstance(member, (bytes, str)):
        holder[index] = member[:0]
    else:
        holder[index] = Raw(r.choice(SCRAPS))
    return whole[0]


def damage_bytes(data, r):
    """Returns the bytes with a change in one place."""
    if not data:
        return r.choice(SCRAPS)
    place, way = r.randrange(len(data)), r.randrange(8)
    byte = bytes([r.choice((r.randrange(256), data[place] ^ 1 << r.randrange(8), r.choice(HEADS)))])
    front, behind = data[:place], data[place + 1:]
    if way == 0:
        return front
    if way == 1:
        return front + behind
    if way == 2:
        return front + byte + data[place:]
    if way == 3:
        return front + r.choice(SCRAPS) + data[place:]
    if way == 4:
        return front + r.choice(SCRAPS) + behind
    if way == 5:
        end = place + r.randint(1, 8)
        return data[:end] + data[place:]
    return front + byte + behind


def integers(kind):
    """Yields integers, and heads with the arguments of ENDS."""
    for number in range(-300, 300):
        yield encode(number)
    for number in list(range(-65600, -65500)) + list(range(300, 3000)) + list(range(9990, 11600)) + [20000, 30000]:
        if kind in ("label", "algorithm", "content_type", "claim_name", "value", "header_parameter", "elliptic_curve"):
            yield encode(number)
    for number in ENDS:
        for width in cbor.widths(number):
            for major in range(8):
                yield cbor.head(major, number, width)


def lengths(kind):
    """Yields strings, arrays and maps whose lengths are at the limits of widths, and messages with such strings."""
    every = (22, 23, 24, 25, 254, 255, 256, 257, 65534, 65535, 65536, 65537)
    for length in every if kind in ("value", "sign1", "label") else (23, 24, 255, 256):
        string, text = bytes(length), "a" * length
        for item in [string, text] + ([[0] * length, Map([n, 0] for n in range(length))] if length < 300 else []):
            data = encode(item)
            yield from (data, data[:-1], data + b"\0", cbor.indefinite(data[0] >> 5, data))
        if kind == "sign1":
            yield encode([b"", Map(), string, b""])
            yield encode([encode(Map([[4, string]])), Map(), None, string])
            yield encode([b"", Map([[4, string], [text, text]]), None, b""])


def nests():
    """Yields items of about 256 nested levels, alone, in a header and in a key."""
    ways = ((b"\x81", b"\x80", b""), (b"\x81", b"\x00", b""), (b"\xc1", b"\x00", b""), (b"\xa1\x00", b"\xa0", b""),
            (b"\xa1", b"\x00", b"\x00"), (b"\x9f", b"\x80", b"\xff"), (b"\xbf\x00", b"\x5f\xff", b"\xff"),
            (b"\x81\xc1\xa1\x00", b"\xf6", b""), (b"\xc2", b"\x40", b""))
    for depth, (opening, inmost, closing) in itertools.product(range(250, 261), ways):
        levels = depth // 3 + 1 if len(opening) == 4 else depth
        deep = opening * levels + inmost + closing * levels
        yield deep
        yield encode([b"", Map([[100, Raw(deep)]]), None, b""])
        yield encode(Map([[1, 2], [100, Raw(deep)]]))


def layered():
    """Yields items of each kind with about 16 protected headers inside one another."""
    for layers, bare in itertools.product(range(14, 20), (True, False)):
        inner = b""
        for _ in range(layers - 1):
            signature = [inner, Map(), b""]
            inner = encode(Map([[7, signature if bare else [signature]]]))
        message, header, parties = [inner, Map(), None], Raw(inner), [[None] * 3, [None] * 3]
        for item in (header, inner, message, message + [b""], [inner, Map(), b""], [b"", header, None, b""],
                     message + [[[inner, Map(), b""]]], message + [[message]], message + [b"", [message]],
                     [0, inner], [0] + parties + [[0, inner]]):
            yield encode(item)


def limits(kind):
    """Yields values at the limits of widths, lengths, nesting and layers, for the kind."""
    yield from integers(kind)
    yield from lengths(kind)
    yield from nests()
    yield from layered()


def seeds(kind):
    """Returns the bytes of the kind's rows, and of its files in crates/tool_bench/data."""
    found = []
    with open(f"{common.HERE}/crates/coset_vectors/stdin") as rows:
        for row in rows:
            words = row.removeprefix("tagged ").split()
            if len(words) == 2 and kind in (words[0], "value") and re.fullmatch("(?:[0-9a-fA-F]{2}){1,150}", words[1]):
                found.append(bytes.fromhex(words[1]))
    folder = f"{common.HERE}/crates/tool_bench/data"
    for name in sorted(os.listdir(folder)):
        if name.split("_")[0].split(".")[0] in (kind, kind.split("_")[0]):
            with open(f"{folder}/{name}", "rb") as file:
                found.append(file.read())
    return found


def short():
    """Yields every input of at most two bytes."""
    yield from (bytes(it) for size in range(3) for it in itertools.product(range(256), repeat=size))


def made(kind, r):
    """Yields lines of the kind without end: values by its grammar and rows, most of them damaged in one place."""
    known, make = seeds(kind), getattr(Maker(r), kind)
    while True:
        way = r.random()
        if way < 0.25:
            data = damage_bytes(r.choice(known), r)
        elif way < 0.45:
            data = encode(make(), r)
        elif way < 0.85:
            data = encode(damage_item(make(), r), r)
        elif way < 0.95:
            data = damage_bytes(encode(make(), r), r)
        else:
            data = r.choice(known)[:1] + r.randbytes(r.choice((2, 2, 2, 3, 4)))
        if kind in TAGS and r.random() < 0.25:
            number = TAGS[kind] if r.random() < 0.9 else r.choice((0, 16, 17, 18, 19, 61, 96, 97, 98))
            data = data if data[:1] and data[0] >> 5 == 6 else head(6, number, r) + data
            yield f"tagged {kind} {data.hex()}"
        else:
            yield f"{kind} {data.hex()}"


def endless(kind, r):
    """Yields lines of the kind without end: short inputs, those at limits, and made ones."""
    for data in itertools.chain(short() if kind in MAIN else [], limits(kind)):
        yield f"{kind} {data.hex()}"
    yield from made(kind, r)


def inputs(kind, count, seed):
    """Returns `count` different lines of the kind."""
    made = {}
    for line in endless(kind, random.Random(f"{seed} {kind}")):
        made[line] = None
        if len(made) == count:
            return list(made)
    return list(made)
