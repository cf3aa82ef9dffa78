"""Heads and items of CBOR (RFC 8949, section 3), encoded and decoded without the library.

An item is a tuple that begins with its kind:
- ("int", number)
- (2, content) and (3, content): a byte string and a text, both with their content as bytes
- ("array", elements), and ("map", keys and values in turn)
- ("tag", number, item)
- ("simple", additional information, argument): also a float, whose bits are the argument
"""
import struct

BREAK = 0xFF
# The number of bytes after the first byte of a head, by its additional information.
WIDTHS = {24: 1, 25: 2, 26: 4, 27: 8}


def widths(number):
    """Returns the numbers of bytes in which an argument may follow the first byte, the least first."""
    return [width for width in WIDTHS.values() if number < 1 << 8 * width]


def head(major, number, width=None):
    """Returns a head. Its argument has `width` bytes after the first byte; if `width` is None, the head is the shortest."""
    if width is None and number < 24:
        return bytes([major << 5 | number])
    width = width or min(widths(number), default=8)
    return bytes([major << 5 | 23 + width.bit_length()]) + number.to_bytes(width, "big")


def byte_string(content):
    return head(2, len(content)) + content


def indefinite(major, parts=b""):
    """Returns an item of indefinite length. `parts` are its encoded chunks, elements or pairs."""
    return bytes([major << 5 | 31]) + parts + bytes([BREAK])


def floating(value, width):
    """Returns a float of 2, 4 or 8 bytes."""
    bits = struct.pack({2: ">e", 4: ">f", 8: ">d"}[width], value)
    return head(7, int.from_bytes(bits, "big"), width)


def encode(item):
    """Returns the shortest encoding of an item."""
    if item[0] == "int":
        return head(0, item[1]) if item[1] >= 0 else head(1, -1 - item[1])
    if item[0] in (2, 3):
        return head(item[0], len(item[1])) + item[1]
    if item[0] == "tag":
        return head(6, item[1]) + encode(item[2])
    if item[0] == "simple":
        return head(7, item[2], WIDTHS.get(item[1]))
    major, parts_of_one = (4, 1) if item[0] == "array" else (5, 2)
    return head(major, len(item[1]) // parts_of_one) + b"".join(map(encode, item[1]))


def read_head(data, at):
    """Reads the head at a place. Returns its major type, its additional information, its argument and where it ends.

    If no bytes follow the first byte, the argument is the additional information."""
    major, info = data[at] >> 5, data[at] & 31
    end = at + 1 + WIDTHS.get(info, 0)
    return major, info, int.from_bytes(data[at + 1 : end], "big") if info in WIDTHS else info, end


def decode(data, at=0):
    """Decodes the item at a place. Returns the item and where it ends. Chunks of a string are joined.

    Raises IndexError or ValueError if no item can be read there."""
    major, info, number, at = read_head(data, at)
    is_open = info == 31
    if 28 <= info < 31 or is_open and major in (0, 1, 6, 7):
        raise ValueError(f"no item begins with {major << 5 | info:02x}")
    if major < 2:
        return ("int", number if major == 0 else -1 - number), at
    if major < 4 and not is_open:
        return (major, bytes(data[at : at + number])), at + number
    if major == 6:
        content, at = decode(data, at)
        return ("tag", number, content), at
    if major == 7:
        return ("simple", info, number), at
    parts, count = [], 2 * number if major == 5 else number
    while data[at] != BREAK if is_open else len(parts) < count:
        part, at = decode(data, at)
        parts.append(part)
    if major > 3:
        return ("array" if major == 4 else "map", parts), at + is_open
    if any(part[0] != major for part in parts):
        raise ValueError("a chunk is no string of the same kind")
    return (major, b"".join(content for _, content in parts)), at + is_open
