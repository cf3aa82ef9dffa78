"""The calls that make an item again: from its parts, pair by pair, member by member, or several pairs at once."""
from capi.kinds import ABSENT, EITHER, MEMBERS, OK, PARTS, TAGGED, TAGS, WITH_HEADERS, bytes_at, fits_int64, pairs_of
from cbor import encode


def with_place(item, place, value):
    """Returns the array with `value` at that place, or without the place and all later ones if `value` is None."""
    return ("array", item[1][:place] + ([] if value is None else [value] + item[1][place + 1:]))


def map_of(pairs):
    return ("map", [it for pair in pairs for it in pair])


def has_type(kind, pairs):
    """Returns true unless the pairs are those of a key without its type."""
    return kind != "key" or ("int", 1) in [key for key, _ in pairs]


def pairs_put(kind, number, item):
    """Yields the calls that make a map pair by pair."""
    pairs = pairs_of(item)
    for place, (key, value) in enumerate(pairs):
        before, so_far = encode(map_of(pairs[:place])) if place else b"", encode(map_of(pairs[:place + 1]))
        is_one = has_type(kind, pairs[:place + 1])
        put = lambda call, name, given: (call, number, before, [name, given], OK if is_one else 7, so_far if is_one else None)
        if key[0] == 3:
            yield put("put_text_label", key[1], encode(value))
        elif fits_int64(key):
            yield put("put", key[1], encode(value))
            if is_one:
                yield ("put", number, so_far, [key[1], encode(value)], 8, None)
            if fits_int64(value) or value[0] in (2, 3):
                yield put("put_int" if value[0] == "int" else "put_bytes" if value[0] == 2 else "put_text", key[1], value[1])


def spelled(key, value):
    """Returns a pair as a word of `put_all`, as c/wrappers/c/calls.c reads it."""
    letters = {"int": "i", 3: "t", 2: "b"}
    half = lambda it: letters[it[0]] + (str(it[1]) if it[0] == "int" else it[1].hex())
    is_plain = value[0] in (2, 3) or fits_int64(value)
    return f"{half(key)}={half(value) if is_plain else 'e' + encode(value).hex()}"


def pairs_put_at_once(kind, number, item):
    """Yields the calls that put several pairs at once: all, the last ones into a map of the others, and a label twice."""
    pairs = pairs_of(item)
    if not all(fits_int64(key) or key[0] == 3 for key, _ in pairs):
        return
    is_one = has_type(kind, pairs)
    for count in {0, len(pairs) // 2, len(pairs)}:
        before = encode(map_of(pairs[:count])) if count else b""
        given = ",".join(spelled(*pair) for pair in pairs[count:]) or "-"
        yield ("put_all", number, before, [given], OK if is_one else 7, encode(item) if is_one else None)
    if pairs and is_one:
        yield ("put_all", number, encode(item), [spelled(*pairs[0])], 8, None)
        yield ("put_all", number, b"", [",".join(spelled(*pair) for pair in [*pairs, pairs[-1]])], 8, None)


def canonical(item, order):
    """Returns a key with its labels in that order. The fields, 1 to 5, come first. Operations are in the order of bytes."""
    is_field = lambda key: key[0] == "int" and 1 <= key[1] <= 5
    place = lambda pair: (not is_field(pair[0]), len(encode(pair[0])) if order == 2 else 0, encode(pair[0]))
    arranged = lambda key, value: ("array", sorted(value[1], key=encode)) if key == ("int", 4) else value
    return encode(map_of((key, arranged(key, value)) for key, value in sorted(pairs_of(item), key=place)))


def members_added(kind, number, whole, item):
    """Yields the calls that make a list member by member, beginning with the item without members."""
    if kind == "keyset":
        listed = lambda some: ("array", some) if some else None
        every = item[1]
    else:
        place = MEMBERS[kind]
        listed = lambda some: with_place(item, place, ("array", some) if some or kind != "recipient" else None)
        every = item[1][place][1] if place < len(item[1]) else []
    encoded = lambda some: whole(listed(some)) if listed(some) else b""
    for index, member in enumerate(every):
        yield ("add", number, encoded(every[:index]), [encode(member)], OK, encoded(every[:index + 1]))


def parts_made(kind, number, whole, item):
    """Yields the calls that make an item from its parts."""
    content, proof = None if kind == "signature" else bytes_at(item, 2), bytes_at(item, PARTS[4].get(kind))
    unprotected = encode(item[1][1]) if item[1][1][1] else b""
    empty = item if kind not in MEMBERS else with_place(item, MEMBERS[kind], None if kind == "recipient" else ("array", []))
    words = [unprotected, int(content is not None), content or b"", proof or b""]
    yield ("make", number, bytes_at(item, 0), words, OK, whole(empty))
    if number < TAGGED and kind in TAGS:
        yield ("make", number + EITHER, bytes_at(item, 0), words, OK, encode(empty))
    if kind == "signature":
        yield ("make", number, bytes_at(item, 0), [unprotected, 1, b"", proof], ABSENT, None)
    if kind not in PARTS[4]:
        yield ("make", number, bytes_at(item, 0), words[:3] + [b"\1"], ABSENT, None)


def makings(kind, number, data, item):
    """Yields the calls that make an item of that kind again."""
    whole = lambda it: encode(("tag", TAGS[kind], it) if number & TAGGED else it)
    yield ("write", number, data, [], OK, whole(item))
    if kind in WITH_HEADERS:
        yield from parts_made(kind, number, whole, item)
    else:
        yield ("make", number, b"", [b"", 0, b"", b""], ABSENT, None)
    if item[0] == "map":
        yield from pairs_put(kind, number, item)
        yield from pairs_put_at_once(kind, number, item)
    else:
        yield ("put_all", number, data, ["i1=i-7"], ABSENT, None)
        yield ("put_int", number, data, [1, -7], ABSENT, None)
    if kind in MEMBERS or kind == "keyset":
        yield from members_added(kind, number, whole, item)
    else:
        yield ("add", number, data, [b"\x80"], ABSENT, None)
    if kind == "key":
        for order in (1, 2):
            yield ("canonical_key", order, data, [], OK, canonical(item, order))
