"""Hostile texts: markup, escape sequences, control characters, hidden and reordering characters. Inputs have them in each
place from which the viewer writes text."""
from cbor import byte_string, head

MARKUP = [
    "<script>document.title = 1</script>",
    "<img src=x onerror=alert(1)>",
    "</code></summary></details><h1>x</h1>",
    "--></style><b>x</b>",
    "]]><svg/onload=alert(1)>",
    '" onmouseover="alert(1)',
    "' onclick='alert(1)",
    "&lt;b&#62;&quot;",
    "javascript:alert(1)",
    "${alert(1)}`",
]
LINES = [
    "x\nd2 / forged /",
    "x\r\nread as hexadecimal, 1 bytes",
    "x / refused at offset 0 /",
    "// comment */ --> ",
    "\\u0000 \\ \\n",
    "x\u2028y\u2029z\u0085",
]
TERMINAL = [
    "\33[31mred\33[0m",
    "\33]0;title\7",
    "\33[2J\33[1;1H",
    "\u009b31m",
    "x\rforged",
    "x\b\b\bforged",
    "\0\1\x7f\x80\x9f",
]
HIDDEN = [
    "a\u202eb\u202dc\u202a",
    "\u2066a\u2067b\u2068c\u2069\u2069\u2069",
    "\u200b\u200c\u200d\u200e\u200f\u2060\ufeff",
    "\u00ad\u034f\u061c\u115f\u1160\u17b4\u180b\u3164\uffa0",
    "\ufe0f\U000e0100\U000e0041\U000e007f",
    "\ue000\U000f0000\U0010fffd",
    "\ufdd0\uffff\u0378",
    "\U0001bca0\U0001d173",
]
TEXTS = MARKUP + LINES + TERMINAL + HIDDEN + ["\u05d0\u05d1: 1", "\u0627: \u0628", "e" + "\u0301" * 40]


def string(text):
    data = text.encode()
    return head(3, len(data)) + data


def message(protected, unprotected, payload):
    """Returns a COSE_Sign1 under its tag."""
    return b"\xd2\x84" + byte_string(protected) + unprotected + byte_string(payload) + b"\x40"


def items(text):
    """Yields items that have the text as a string, a key, a claim, and as parameters of a header."""
    it, data = string(text), text.encode()
    yield it
    yield byte_string(data)
    yield b"\xa1" + it + b"\1"
    yield b"\xa1\1" + it
    yield b"\xa2\1\1" + it + it
    yield b"\xd8\x3d" + message(b"\xa1\1\x26", b"\xa0", b"\xa3\1" + it + b"\2" + it + b"\3" + it)
    yield message(b"\xa1\1" + it, b"\xa1\4" + byte_string(data), data)
    yield message(b"\xa2\1\x26\3" + it, b"\xa1" + it + it, b"")
    yield message(b"\xa2\2\x81" + it + it + b"\0", b"\xa0", b"")
    yield message(b"\xa2" + it + b"\0" + it + b"\0", b"\xa0", b"")
    yield b"\xa3\1\4\2" + byte_string(data) + b"\x20" + byte_string(data)


def inputs():
    """Yields each input: the items in hexadecimal, each text as a raw text string, and each text in several spellings."""
    for text in TEXTS:
        for it in items(text):
            yield it.hex().encode()
        yield string(text)
        for spelling in ("{}", "d2 {}", '"{}"', "[{}]", "/ {} / [1]", "h'{}'", "b64'{}'", "d2 # {}\n84", "b'\\xd2{}'", "HC1:{}", "%D2{}", "'{}': 1"):
            yield spelling.format(text).encode()
