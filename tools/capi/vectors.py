"""The rows of programs with their results, and the rows of the RFCs' examples that `tools/c` needs."""
from cbor import decode
from sources import read


# The statuses of errors by what their texts contain. The first that fits counts.
STATUSES = {"Io(": 3, "Syntax(": 4, "Semantic(": 4, "RecursionLimit": 5, "extraneous": 6, "duplicate": 8, "out of range": 9,
            "recognized IANA": 10, "private use range": 11, "error: got ": 7}


def rows_of(crate):
    """Returns the rows of a crate's stdin, comments included, each with the line of its stdout."""
    return zip(*(read("crates", crate, name).splitlines() for name in ("stdin", "stdout")))


def status_of(text):
    """Returns the status of an error's text."""
    for words, status in STATUSES.items():
        if words in text:
            return status
    raise ValueError(text)


def named(name):
    """Returns the rows of coset_vectors under that name, each with its result."""
    found, here = [], False
    for row, answer in rows_of("coset_vectors"):
        if row.startswith("#"):
            here = here and not row.startswith("# [") or row.startswith(f"# [{name}]")
        elif here and row:
            found.append((row.split(), answer))
    return found


def key_of_row(name, place):
    """Returns the identifier and the public point of the key in a row under that name."""
    key = decode(bytes.fromhex(named(name)[place][0][1]))[0][1]
    pairs = {k[1]: v[1] for k, v in zip(key[::2], key[1::2])}
    return pairs[2], tuple(int.from_bytes(pairs[x], "big") for x in (-2, -3))


def token():
    """Returns the token of RFC 8392, appendix A.3, its structure, and the key of appendix A.2.3."""
    (tagged, _), (_, signed) = named("rfc8392-a.3")[:2]
    return bytes.fromhex(tagged[2]), bytes.fromhex(signed), *key_of_row("rfc8392-a.2", 2)
