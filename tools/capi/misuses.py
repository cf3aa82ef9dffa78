"""Calls with a number that has no meaning for them, or with arguments that contradict each other."""
from capi.kinds import EITHER, MISUSE, OK, TAGGED

DATA = bytes.fromhex("8440a0f640")
# Each call that takes a kind, with other arguments.
WITH_KIND = (
    ("check", []), ("count", []), ("part", [1]), ("member", [0]), ("label_at", [0]), ("value_at", [0]), ("label", [1, 1]),
    ("label_bytes", [1, 1]), ("member_span", [0]), ("pair_spans", [0]), ("label_span", [1, 1]), ("label_int", [1, 1]),
    ("text_label", [1, b"x"]), ("structure", [0, b"", 0, b""]), ("put", [1, b"\1"]), ("put_bytes", [1, b"\1"]),
    ("put_text", [1, b"x"]), ("put_int", [1, 1]), ("put_text_label", [b"x", b"\1"]), ("structure_of", [b"", b"", b""]),
    ("make", [b"", 0, b"", b""]), ("add", [b"\1"]), ("write", []), ("sign1", [b"", 0, b""]), ("message", [0, b"", 0, b"", "-"]),
    ("map_spans", []), ("recipient_structure", [b""]), ("recipient_structure_of", [b""]), ("put_all", ["i1=i1"]), ("spans", [0, b"", 0, b"", "-"]),
    ("countersign_structure", [7, b"", b"", 0, b""]))
# Calls with a payload, without the flag that says that there is one.
WITHOUT_FLAG = (
    ("structure", [0, b"", 0, b"x"]), ("sign1", [b"", 0, b"x"]), ("message", [0, b"", 0, b"x", "-"]),
    ("spans", [0, b"", 0, b"x", "-"]), ("make", [b"", 0, b"x", b""]), ("countersign_structure", [11, b"", b"", 0, b"x"]))


def kinds():
    """Yields calls with numbers that are no kind, or no kind for the call."""
    for number in (0, 15, 0xff, TAGGED, TAGGED + 7, EITHER + 13, TAGGED + EITHER + 1, 0x401, 0xffffffff):
        for call, words in WITH_KIND:
            yield (call, number, DATA, words, MISUSE, None)
    for number in (*range(2, 13), TAGGED + 2, EITHER + 6):
        yield ("sign1", number, DATA, [b"", 0, b""], MISUSE, None)


def indices():
    """Yields calls with an index of a signer, for kinds without signers. A kind that is no message has no structure with 0 either."""
    for number in (1, TAGGED + 3, EITHER + 4, 5, TAGGED + 6, *range(7, 15)):
        for call, words in WITH_KIND:
            for index in (1, 1 << 32, (1 << 64) - 1) if call in ("structure", "message", "spans") else ():
                yield (call, number, DATA, [index, *words[1:]], MISUSE, None)


def pairs():
    """Yields calls with pairs and texts that can't be put into a map, and one without pairs."""
    for spelled in ("n=i1", "i1=n", "b01=i1", "e01=i1", "i1=o", "o=i1", "i1=i1,i2=n", "n=i1,i1=i1"):
        yield ("put_all", 12, b"", [spelled], MISUSE, None)
    yield ("put_all", 9, b"", ["i3=t61ff"], 4, None)
    yield ("put_all", 9, b"", ["i1=i-7,tff=i1"], 4, None)
    yield ("put_all", 9, b"", ["i1=i-7,i4=e"], 3, None)
    yield ("put_all", 13, b"", ["-"], OK, b"\xa0")
    yield ("put_text", 9, b"", [3, b"a\xff"], 4, None)
    yield ("put_text_label", 9, b"", [b"\xff", b"\1"], 4, None)


def calls():
    """Yields all calls of this file."""
    yield from kinds()
    for label in (0, 8, 10, 13, -7, 7 + (1 << 32), -(1 << 63), (1 << 63) - 1):
        yield ("countersign_structure", 1, DATA, [label, b"", b"", 1, b""], MISUSE, None)
    for call, words in WITHOUT_FLAG:
        yield (call, 1, DATA if call != "make" else b"", words, MISUSE, None)
    for form in (1, 2, 7, 0x300, TAGGED + 1):
        yield ("safe", (form << 16) + 1, DATA, [0, b"", 0, b"", "-7", "-", b"", b"", b""], MISUSE, None)
    for order in (0, 3, 0xffffffff):
        yield ("canonical_key", order, b"\xa1\1\2", [], MISUSE, None)
    yield from indices()
    yield from pairs()
    for which in (0, 4, 0xffffffff):
        for call in ("label", "label_bytes", "label_int", "label_span", "text_label"):
            yield (call, 1, DATA, [which, b"x" if call == "text_label" else 1], MISUSE, None)
    for part in (0, 5, 0xffffffff):
        yield ("part", 1, DATA, [part], MISUSE, None)
