"""The calls of `coset_is_deeper`, and the number of nested levels as it counts them."""
import contextlib

from capi.kinds import OK
from cbor import read_head


class Unreadable(Exception):
    """The next bytes can't be read."""


class TooDeep(Exception):
    """There are more levels than are asked about."""


class Levels:
    """The nested levels of an input: items, and items in a byte string that is the first or second element of an array."""

    def __init__(self, data, most):
        self.data, self.most, self.deepest = data, most, 0

    def enter(self, depth):
        self.deepest = max(self.deepest, depth)
        if depth > self.most:
            raise TooDeep

    def head(self, at, end):
        """Returns the major type, the argument and the end of a head. The argument is None if it has no definite length."""
        if at >= end:
            raise Unreadable
        major, info, number, behind = read_head(self.data, at)
        if 28 <= info < 31 or behind > end or info == 31 and major in (0, 1, 6):
            raise Unreadable
        return major, None if info == 31 else number, behind

    def item(self, at, end, depth, may_be_header):
        """Returns where the item ends, and whether it is a break."""
        major, number, at = self.head(at, end)
        if number is None and major == 7:
            return at, True
        if major == 2 and may_be_header and number is None:
            self.enter(self.most + 1)
        if major in (2, 3) and number is not None:
            return self.string(at, end, number, depth, major == 2 and may_be_header), False
        if major < 2 or major == 7:
            return at, False
        count = 1 if major == 6 else None if number is None else number * (2 if major == 5 else 1)
        return self.members(at, end, count, depth, major == 4), False

    def string(self, at, end, length, depth, is_protected):
        """Returns where a string ends. One that may be a protected header is read as an item, too."""
        if length > end - at:
            raise Unreadable
        if is_protected and length:
            self.enter(depth + 1)
            with contextlib.suppress(Unreadable):
                self.item(at, at + length, depth + 1, False)
        return at + length

    def members(self, at, end, count, depth, is_array):
        """Returns where an item ends that has `count` members, or members up to a break if `count` is None."""
        if count != 0:
            self.enter(depth + 1)
        place = 0
        while count is None or place < count:
            at, is_break = self.item(at, end, depth + 1, is_array and place < 2)
            place += 1
            if is_break:
                if count is not None:
                    raise Unreadable
                break
        return at


def levels_of(data, most):
    """Returns the number of nested levels as coset_is_deeper counts them, as far as the bytes can be read.

    If there are more than `most`, returns most + 1."""
    levels = Levels(data, most)
    try:
        levels.item(0, len(data), 0, False)
    except Unreadable:
        pass
    except TooDeep:
        return most + 1
    return levels.deepest


def calls(others):
    """Yields calls for the depth of the input of other calls, and of the same input cut and damaged."""
    for place, data in enumerate(sorted({data for _, _, data, _, _, _ in others})):
        cut = place % (len(data) + 1)
        for it in (data, data[:-1], b"\x82\x41" + data, b"\x9f\x58" + bytes([len(data) & 255]) + data + b"\xff",
                   data[:cut] + b"\x81" + data[cut:]):
            yield ("deeper", 0, it, [], OK, levels_of(it, 64))
