"""The calls of coset_items.h, those that put a float into a map, and those that put a label into a map of any pairs. Python's module `struct` decodes the floats."""
import math
import struct

from capi.kinds import ABSENT, OK, TYPE
from capi.queries import bits
from cbor import floating

# Examples of RFC 8949, appendix A: each float with its shortest encoding.
EXAMPLES = (
    ("0.0", "f90000"), ("-0.0", "f98000"), ("1.0", "f93c00"), ("1.1", "fb3ff199999999999a"), ("1.5", "f93e00"), ("65504.0", "f97bff"),
    ("100000.0", "fa47c35000"), ("3.4028234663852886e+38", "fa7f7fffff"), ("1.0e+300", "fb7e37e43c8800759c"),
    ("5.960464477539063e-8", "f90001"), ("0.00006103515625", "f90400"), ("-4.0", "f9c400"), ("-4.1", "fbc010666666666666"),
    ("inf", "f97c00"), ("nan", "f97e00"), ("-inf", "f9fc00"))
# Its longer encodings of infinities and NaN.
LONGER = ("fa7f800000", "fa7fc00000", "faff800000", "fb7ff0000000000000", "fb7ff8000000000000", "fbfff0000000000000")
# Maps with their pairs' places: empty, of indefinite length, nested, and with a break in a value.
MAPS = (("a0", "0"), ("bfff", "0"), ("bf0102ff", "1 1 1 2 1"), ("a10102", "1 1 1 2 1"), ("b9000101bf02ffff", None),
        ("a201a1020303820405", "2 1 1 2 3 5 1 6 3"), ("bf019f02ff03bfffff", "2 1 1 2 3 5 1 6 2"), ("a118ff41ff", "1 1 2 3 2"))


def floats():
    """Yields encodings of floats of 16 and 32 bits: each exponent of the short ones, and the least and greatest ones."""
    for sign in (0, 1):
        for exponent in range(32):
            for fraction in (0, 1, 2, 3, 511, 512, 1022, 1023):
                yield b"\xf9" + struct.pack(">H", sign << 15 | exponent << 10 | fraction)
        for exponent in (0, 1, 2, 126, 127, 128, 254, 255):
            for fraction in (0, 1, 2, 3, 0x3fffff, 0x400000, 0x7fffff):
                yield b"\xfa" + struct.pack(">I", sign << 31 | exponent << 23 | fraction)


def neighbours():
    """Yields the values of these floats, and those of 64 bits just above and below."""
    for data in floats():
        value, = struct.unpack({3: ">e", 5: ">f"}[len(data)], data[1:])
        if math.isfinite(value):
            number = struct.unpack(">q", struct.pack(">d", value))[0]
            for near in {number - 1, number, number + 1} - {-1}:
                yield struct.unpack(">d", struct.pack(">q", max(near, -1 << 63)))[0]


def shortest(value):
    """Returns the shortest of the three encodings that has the value (RFC 8949, section 4.2.2)."""
    for width, form in ((2, ">e"), (4, ">f")):
        if abs(value) <= {2: 65504.0, 4: 3.4028234663852886e+38}[width] and struct.unpack(form, struct.pack(form, value))[0] == value:
            return floating(value, width)
    return floating(value, 8)


def refused():
    """Yields calls with bytes that are no item, with other items, and with items that are no map."""
    for data, status in ((b"", 3), (b"\xff", 4), (b"\xf9\x3c", 3), (b"\xf7", 4), (b"\x01\x02", 6)):
        for call in ("major_type", "simple_value", "float_value", "map_spans"):
            yield (call, 13, data, [], status, None)
    for data in ("00", "1864", "1903e8", "1a000f4240", "40", "4100", "60", "80", "a0", "c000", "f4", "f5", "f6"):
        yield ("float_value", 13, bytes.fromhex(data), [], TYPE, None)
        if data[0] != "f":
            yield ("simple_value", 13, bytes.fromhex(data), [], TYPE, None)
    for kind, data in ((1, "8440a0f640"), (257, "d28440a0f640"), (11, "81a10104"), (13, "80"), (13, "c0a0"), (13, "f6")):
        yield ("map_spans", kind, bytes.fromhex(data), [], ABSENT, None)
    yield ("map_spans", 9, b"\xa2\x04\x41\1\x04\x41\1", [], 8, None)


def labels_once():
    """Yields calls that add pairs to a map: the status is 8 if a label is twice in the new map."""
    many = ",".join(f"i{number}=i0" for number in range(20))
    given = ((b"\xa1\3\1", "i3=i2"), (b"\xa1\x18\3\1", "i3=i2"), (b"\xa2\3\1\3\2", "i4=i5"), (b"", "i1=i1,i1=i1"), (b"", "t61=i1,i1=i1,t61=i2"),
             (b"\xa1\x7f\x61a\xff\1", "t61=i2"), (b"", f"{many},i7=i1"), (b"", f"{many},t=i1,t=i1"), (b"\xa1\x20\1", "i-1=i2"))
    for data, pairs in given:
        yield ("put_all", 13, data, [pairs], 8, None)
    yield ("put", 13, b"\xa1\3\1", [3, b"\2"], 8, None)
    yield ("put_text_label", 13, b"\xa1\x61a\1", [b"a", b"\2"], 8, None)
    # Other keys are no labels: byte strings, arrays and simple values.
    yield ("put_text_label", 13, b"\xa3\x41a\1\x41a\1\x80\1", [b"a", b"\2"], OK, b"\xa4\x41a\1\x41a\1\x80\1\x61a\2")
    yield ("put_all", 13, b"\xa1\x1b" + b"\xff" * 8 + b"\1", ["i-1=i2"], OK, b"\xa2\x1b" + b"\xff" * 8 + b"\1\x20\2")
    yield ("put_all", 13, b"", [many], OK, b"\xb4" + b"".join(bytes([number]) + b"\0" for number in range(20)))


def calls():
    """Yields all calls of this file."""
    yield from labels_once()
    for value, encoding in EXAMPLES:
        data = bytes.fromhex(encoding)
        told = "nan" if value == "nan" else struct.pack(">d", float(value)).hex()
        yield ("float_value", 13, data, [], OK, told)
        yield ("put_float", 13, b"", [4, value], OK, b"\xa1\4" + data)
        yield ("put_float", 12, b"\xa1\5\1", [4, value], OK, b"\xa2\5\1\4" + data)
        yield ("put_all", 13, b"", [f"i1=i2,i4=f{value},t61=f{value}"], OK, b"\xa3\1\2\4" + data + b"\x61a" + data)
    for data in (*map(bytes.fromhex, LONGER), *floats()):
        yield ("float_value", 13, data, [], OK, bits(data))
    for value in neighbours():
        yield ("put_float", 13, b"", [4, repr(value)], OK, b"\xa1\4" + shortest(value))
    for number, value in enumerate((b"\xf4", b"\xf5", b"\xf6"), 20):
        yield ("simple_value", 13, value, [], OK, number)
    for data, places in MAPS:
        yield ("map_spans", 13, bytes.fromhex(data), [], 4 if places is None else OK, places)
    yield from refused()
