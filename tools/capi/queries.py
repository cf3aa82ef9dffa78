"""The calls that ask about an item: its parts, its members, its pairs, and the values under its labels."""
import itertools
import math
import struct

from capi import messages, structures
from capi.kinds import ABSENT, EMPTY, OK, PARTS, TAGGED, TYPE, bytes_at, fits_int64, maps, members, pairs_of
from capi.places import descendants, label_span, spans_at
from capi.vectors import status_of
from cbor import WIDTHS, decode, encode


def there(call, number, data, words, result):
    """Returns the call with its status: success, or COSET_ABSENT if the result is None."""
    return (call, number, data, words, ABSENT if result is None else OK, result)


def counted(number, data, found):
    """Returns the call that counts the members `found`, which are None if the item can have none."""
    return ("count", number, data, [], ABSENT if found is None else OK if found else EMPTY, len(found) if found else None)


def members_at(number, data, found):
    """Yields the calls for the members by index, and for one index too many."""
    for index, member in enumerate([*(found or []), None]):
        yield there("member", number, data, [index], member and encode(member))


def pairs_at(number, data, item):
    """Yields the calls for the pairs of a map by index, and for one index too many."""
    for index, pair in enumerate([*pairs_of(item), (None, None)]):
        for call, half in zip(("label_at", "value_at"), pair):
            yield there(call, number, data, [index], half and encode(half))


def keys_of(data, item):
    """Yields the calls for each key of a set by its identifier, and for an identifier that no key has."""
    ids = [dict(pairs_of(key)).get(("int", 2), (None, None))[1] for key in item[1]]
    for key_id in [*filter(None, ids), b"none of them", b""]:
        yield there("key_of", 11, data, [key_id], encode(item[1][ids.index(key_id)]) if key_id in ids else None)


# ---- an item of any kind


def item_spans(number, data):
    """Yields the calls for the places of items at any depth, and for two places without an item."""
    for start, end in [(0, len(data)), *itertools.islice(descendants(data, 0), 20)]:
        yield ("item_span", number, data, [start], OK, f"{start} {end - start}")
    yield ("item_span", number, data, [len(data)], 3, None)
    yield ("item_span", number, data, [len(data) + 1], ABSENT, None)


def scalars(number, data, item):
    """Yields the calls for the content of a string and for an integer."""
    content = len(item[1]) if item[0] in (2, 3) and data[0] & 31 < 31 else None
    place = None if content is None else f"{len(data) - content} {content}"
    yield ("string_span", number, data, [], TYPE if content is None else OK, place)
    fits = fits_int64(item)
    yield ("integer", number, data, [], OK if fits else TYPE, item[1] if fits else None)


def scalar_values(number, data, item):
    """Yields the calls for the major type, for a simple value and for a float."""
    width = WIDTHS.get(data[0] & 31) if item[0] == "simple" else None
    yield ("major_type", number, data, [], OK, data[0] >> 5)
    is_simple = item[0] == "simple" and width is None
    yield ("simple_value", number, data, [], OK if is_simple else TYPE, item[2] if is_simple else None)
    yield ("float_value", number, data, [], OK if width else TYPE, bits(data) if width else None)


def bits(data):
    """Returns the 64 bits of a float, or `nan`, as the programs print them."""
    value, = struct.unpack({3: ">e", 5: ">f", 9: ">d"}[len(data)], data[1:])
    return "nan" if math.isnan(value) else struct.pack(">d", value).hex()


def first_values(number, data, item):
    """Yields the calls for the value under each integer label. If a label repeats, its first value is returned."""
    pairs = pairs_of(item)
    for key, _ in pairs:
        if fits_int64(key):
            yield ("label", number, data, [3, key[1]], OK, encode(next(value for label, value in pairs if label == key)))
            yield ("label_span", number, data, [3, key[1]], *label_span("any", data, 3, key[1]))


def items(data, item):
    """Yields the calls for an item of any kind: maps have labels and pairs, and arrays have elements."""
    number = 13
    yield ("check", number, data, [], OK, None)
    yield ("write", number, data, [], OK, encode(item))
    yield ("structure", number, data, [0, b"", 0, b""], ABSENT, None)
    yield ("message", number, data, [0, b"", 0, b"", "-"], ABSENT, None)
    yield ("countersign_structure", number, data, [7, b"", b"", 1, b"x"], ABSENT, None)
    found = item[1] if item[0] == "array" else None
    yield counted(number, data, found)
    yield from members_at(number, data, found)
    for index, element in enumerate(found or []):
        before, behind = encode(("array", found[:index])) if index else b"", encode(("array", found[:index + 1]))
        yield ("add", number, before, [encode(element)], OK, behind)
    yield from pairs_at(number, data, item)
    yield from spans_at("any", number, data)
    yield from item_spans(number, data)
    yield from scalars(number, data, item)
    yield from scalar_values(number, data, item)
    yield from first_values(number, data, item)


def others(word, data, answer):
    """Yields the calls for a row of the kind `value` or `kdf`, which are read and made as items of any kind."""
    number = {"value": 13, "kdf": 14}[word]
    refused = answer.startswith("error: ")
    yield ("check", number, data, [], status_of(answer) if refused else OK, None)
    if not refused:
        item = decode(data)[0]
        yield ("write", number, data, [], OK, encode(item))
        yield counted(number, data, item[1] if number == 13 and item[0] == "array" else None)
        yield from items(data, item)


# ---- an item of a kind


def typed(call, number, data, words, value, result):
    """Returns the call with its status: COSET_ABSENT without a value, and COSET_TYPE if the result is None."""
    return (call, number, data, words, ABSENT if not value else TYPE if result is None else OK, result)


def labels(kind, number, data, which, held):
    """Yields the calls for the values under the labels of a map, and for labels that it doesn't have."""
    for key, value in pairs_of(held) + [(("int", 98765), None), ((3, b"none"), None)]:
        words = [which, key[1]]
        if key[0] == 3:
            yield there("text_label", number, data, words, value and encode(value))
        elif fits_int64(key):
            yield there("label", number, data, words, value and encode(value))
            yield ("label_span", number, data, words, *label_span(kind, data, which, key[1]))
            yield typed("label_bytes", number, data, words, value, value[1] if value and value[0] in (2, 3) else None)
            yield typed("label_int", number, data, words, value, value[1] if value and fits_int64(value) else None)


def asked(kind, number, data, item):
    """Yields the calls for an item of that kind."""
    for recipient in structures.recipients_of(kind, item):
        yield from structures.recipient_structures(encode(recipient), recipient)
    yield from messages.calls(kind, number, data, item, number & TAGGED > 0)
    yield from structures.countersigned_calls(kind, number, data, item)
    for part, places in PARTS.items():
        yield there("part", number, data, [part], bytes_at(item, places.get(kind)))
    found = members(kind, item)
    yield counted(number, data, found)
    yield from members_at(number, data, found)
    yield from pairs_at(number, data, item)
    yield from spans_at(kind, number, data)
    if kind == "keyset":
        yield from keys_of(data, item)
    for which in (1, 2, 3):
        yield from labels(kind, number, data, which, maps(kind, item).get(which))
