"""The calls that return places in the input: of elements, of pairs, and of the value under a label."""
from capi.kinds import ABSENT, MEMBERS, OK, TAGS, TYPE, WITH_HEADERS
from cbor import decode, read_head


def children(data, at):
    """Yields the start and the end of each element of an array, or of each key and value of a map, in order."""
    _, info, _, start = read_head(data, at)
    end = decode(data, at)[1] - (info == 31)
    while start < end:
        yield start, (start := decode(data, start)[1])


def descendants(data, at):
    """Yields the same for everything in an array, a map or a tag, at any depth."""
    for start, end in children(data, at) if data[at] >> 5 in (4, 5, 6) else []:
        yield start, end
        yield from descendants(data, start)


def below_tag(kind, data):
    """Returns where the item begins, without the tag of its kind."""
    return next(children(data, 0))[0] if kind in TAGS and data[0] >> 5 == 6 else 0


def spelled(*spans):
    return " ".join(f"{start} {end - start}" for start, end in spans)


def by_index(call, number, data, found):
    """Yields the calls for the places of `found` by index, and for one index too many."""
    for index, spans in enumerate(found):
        yield (call, number, data, [index], OK, spelled(*spans))
    yield (call, number, data, [len(found)], ABSENT, None)


def spans_at(kind, number, data):
    """Yields the calls for the places of an item's members and pairs."""
    at = below_tag(kind, data)
    is_map, places = data[at] >> 5 == 5, list(children(data, at)) if data[at] >> 5 in (4, 5) else []
    place = MEMBERS.get(kind)
    listed = at if kind in ("keyset", "any") else places[place][0] if place is not None and place < len(places) else None
    members = list(children(data, listed)) if listed is not None and data[listed] >> 5 == 4 else []
    yield from by_index("member_span", number, data, [(it,) for it in members])
    yield from by_index("pair_spans", number, data, list(zip(places[::2], places[1::2])) if is_map else [])
    told = f"{len(places) // 2} {spelled(*places)}".strip() if is_map else None
    yield ("map_spans", number, data, [], OK if is_map else ABSENT, told)


def label_span(kind, data, which, label):
    """Returns the status and the place of the value under an integer label."""
    at = below_tag(kind, data)
    if (which < 3) != (kind in WITH_HEADERS) or which == 3 and data[at] >> 5 != 5:
        return ABSENT, None
    if which < 3:
        at, end = list(children(data, at))[which - 1]
    if which == 1:
        content = decode(data, at)[0][1]
        if data[at] & 31 == 31:
            return TYPE if content and ("int", label) in decode(content)[0][1][::2] else ABSENT, None
        at = end - len(content)
        if at == end:
            return ABSENT, None
    places = list(children(data, at))
    for key, value in zip(places[::2], places[1::2]):
        if decode(data, key[0])[0] == ("int", label):
            return OK, spelled(value)
    return ABSENT, None
