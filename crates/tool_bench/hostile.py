#!/usr/bin/env python3
"""Writes the hostile messages and keys whose times and stack README.md here gives: `hostile.py FOLDER`."""

import itertools
import sys
from collections.abc import Iterator
from pathlib import Path

sys.dont_write_bytecode = True
sys.path.append(str(Path(__file__).resolve().parents[2] / "tools"))
from cbor import byte_string, head, indefinite  # noqa: E402


def with_counter_signature(label: int, protected: bytes, unprotected: bytes) -> bytes:
    """Returns a header with one counter signature under `label`. The counter signature has these two headers.

    Label 7 is of RFC 8152, section 4.5; label 11 is for countersignatures of version 2."""
    signature = head(4, 3) + byte_string(protected) + unprotected + byte_string(b"")
    return head(5, 1) + head(0, label) + signature


def message(protected: bytes, unprotected: bytes) -> bytes:
    """Returns a message with one signature and without a payload (RFC 8152, section 4.2)."""
    return head(4, 4) + byte_string(protected) + unprotected + b"\xf6" + byte_string(b"")


def nested(headers: int, innermost: bytes, labels: Iterator[int]) -> bytes:
    """Nests `headers` headers around `innermost`. Each level is the unprotected header of a counter signature.

    The counter signatures are under the next of `labels`."""
    header = innermost
    for _ in range(headers):
        header = with_counter_signature(next(labels), b"", header)
    return header


def layers(count: int, innermost: bytes, labels: Iterator[int]) -> bytes:
    """Nests `count` protected headers and returns the content of the outermost.

    Each but the outermost is in the last of 127 nested headers. `innermost` is the content of the innermost."""
    content = innermost
    for _ in range(count - 1):
        content = nested(126, with_counter_signature(next(labels), content, head(5, 0)), labels)
    return content


def recipients(count: int, protected: bytes, innermost: bytes) -> bytes:
    """Nests `count` recipients, each with this protected header (RFC 8152, section 5.1).

    `innermost` is the ciphertext of the innermost; those of the others are nil."""
    start = byte_string(protected) + head(5, 0)
    recipient = head(4, 3) + start + innermost
    for _ in range(count - 1):
        recipient = head(4, 4) + start + b"\xf6" + head(4, 1) + recipient
    return recipient


def key(labels: list[int]) -> bytes:
    """Returns a symmetric key whose parameters have these labels, each with the value 0 (RFC 8152, section 7)."""
    params = b"".join(head(0, label) + b"\x00" for label in labels)
    return head(5, 1 + len(labels)) + b"\x01\x04" + params


# A pair whose value is an array of 200,000 integers.
PAIR = head(0, 70) + head(4, 200_000) + bytes(200_000)
# A header with that pair, and a header with that label twice.
WIDE = head(5, 1) + PAIR
TWICE = head(5, 2) + PAIR + head(0, 70) + b"\x00"
# WIDE with one more element in its array: an array of indefinite length.
WIDE_END = head(5, 1) + head(0, 70) + head(4, 200_001) + bytes(200_000) + indefinite(4)


def nests(labels: list[int]) -> dict[str, bytes]:
    """Returns the messages whose counter signatures are under these labels in turn."""

    def around(innermost: bytes) -> bytes:
        return message(b"", nested(120, innermost, itertools.cycle(labels)))

    def deep(innermost: bytes) -> bytes:
        return layers(16, innermost, itertools.cycle(labels))

    return {
        "nested": around(WIDE),
        "nested_end": around(WIDE_END),
        "nested_twice": around(TWICE),
        "deepest": message(deep(b""), head(5, 0)),
        # Its innermost protected header has the same label twice.
        "deepest_twice": message(deep(b"\xa2\x18\x46\x00\x18\x46\x00"), head(5, 0)),
        # 128 nested recipients, each with the deepest protected header that is read.
        "recipients": recipients(128, deep(b""), b"\xf6"),
        # The innermost has a number for its ciphertext.
        "recipients_refused": recipients(128, deep(b""), b"\x00"),
    }


def main(folder: Path) -> None:
    files = nests([7])
    # The same with label 11, and with labels 7 and 11 in turn.
    files |= {f"{name}_11": content for name, content in nests([11]).items()}
    files |= {f"{name}_7_11": content for name, content in nests([7, 11]).items()}
    files |= {
        "flat": message(b"", WIDE),
        "flat_twice": message(b"", TWICE),
        # The labels of 10,000 parameters, descending and mixed (7919 shares no factor with 10,000).
        "key_falling": key([10_099 - i for i in range(10_000)]),
        "key_mixed": key([100 + 7919 * i % 10_000 for i in range(10_000)]),
        # 256 nested items, the deepest that is read.
        "levels": head(4, 1) * 255 + head(4, 0),
    }
    for name, content in files.items():
        (folder / f"{name}.cbor").write_bytes(content)


if __name__ == "__main__":
    main(Path(sys.argv[1]))
