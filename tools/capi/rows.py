"""The calls for the rows of coset_vectors, with the right results."""
from capi import making, queries, structures
from capi.kinds import EITHER, KINDS, OK, TAGGED, TAGS, number_of
from capi.vectors import rows_of, status_of
from cbor import decode

WITH_STRUCTURES = (*structures.STRUCTURES, *structures.COUNTERSIGNED)


def refused(kind, number, data, status):
    """Yields calls with bytes that aren't of the kind. Each returns the same status."""
    yield ("check", number, data, [], status, None)
    for call, more in (("part", [1]), ("count", []), ("member", [0]), ("label", [3, 1]), ("structure", [0, b"", 0, b""]),
                       ("write", []), ("sign1", [b"", 0, b""]), ("recipient_structure", [b""]),
                       ("countersign_structure", [11, b"", b"", 0, b""])):
        if call not in ("sign1", "recipient_structure") or kind == call.split("_")[0]:
            yield (call, 6 if call == "recipient_structure" else number, data, more, status, None)


def accepted(kind, number, data, row, check):
    """Yields the calls with bytes that are of the kind."""
    yield ("check", number, data, [], OK, None)
    item = decode(data)[0]
    yield from queries.items(data, item)
    if number & TAGGED:
        check(item[1] == TAGS[kind], row)
        item = item[2]
        yield ("check", number - TAGGED, data, [], 7, None)
    if kind in TAGS:
        yield ("check", number_of(kind) + EITHER, data, [], OK, None)
    yield from queries.asked(kind, number, data, item)
    yield from making.makings(kind, number, data, item)


def row_calls(row, answer, check):
    """Yields the calls for a row. There are none for rows that ask something else."""
    words = row.split()
    tagged = words[:1] == ["tagged"]
    words = words[tagged:]
    if not words or len(words) > 3 or "hexadecimal" in answer:
        return
    kind, is_refused, spelled = words[0], answer.startswith("error: "), "".join(words[1:2])
    if kind in KINDS:
        number, data = number_of(kind) + TAGGED * tagged, bytes.fromhex(spelled)
        yield from refused(kind, number, data, status_of(answer)) if is_refused else accepted(kind, number, data, row, check)
    elif kind in WITH_STRUCTURES and not is_refused and not tagged:
        yield from structures.row_calls(words, row, answer, check)
    elif kind in ("kdf", "value") and len(words) == 2 and not tagged:
        yield from queries.others(kind, bytes.fromhex(spelled), answer)


def calls(check):
    """Yields the calls for all rows."""
    for row, answer in rows_of("coset_vectors"):
        yield from row_calls(row, answer, check)
