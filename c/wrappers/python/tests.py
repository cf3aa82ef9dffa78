"""Tests of the wrapper apart from its calls (tools/c): errors pass to another process, and numbers and values without a
meaning are refused."""
import array
import copy
import ctypes
import hashlib
import os
import pickle
import subprocess
import sys

import coset


def raised(call, *arguments, **more):
    """Returns the error that the call raises, or None."""
    try:
        call(*arguments, **more)
    except Exception as error:
        return error
    return None


fault = raised(coset.check, coset.SIGN1, b"\x84")
assert (type(fault), fault.status, fault.offset, str(fault)) == (coset.Fault, 3, 1, "the bytes end before the item does")
for again in (pickle.loads(pickle.dumps(fault)), copy.copy(fault)):
    assert (type(again), again.status, again.offset, str(again)) == (coset.Fault, 3, 1, str(fault))
for error in (coset.Absent("a"), coset.WrongType("a"), coset.Empty("a"), coset.Misuse("a"), coset.NotAllowed("a"), coset.Critical("a")):
    again = pickle.loads(pickle.dumps(error))
    assert (type(again), again.args) == (type(error), error.args)
refusal = coset.InvalidToken(16, 1, -7)
for again in (refusal, pickle.loads(pickle.dumps(refusal)), copy.deepcopy(refusal)):
    assert (again.reason, again.layer, again.number) == (coset.Status.NOT_ALLOWED, 1, -7) and again.reason is coset.Status.NOT_ALLOWED
    assert str(again) == "layer 1 of the token is refused: the algorithm isn't one that is allowed (-7)"
assert (str(coset.InvalidToken(24)), f"{coset.Status.EXPIRED}", str(coset.Status(24))) == ("the token is refused: the token has expired", *["EXPIRED"] * 2)

for value in (True, False):
    assert type(raised(coset.put, coset.CLAIMS, b"", 1, value)) is TypeError
    assert type(raised(coset.put, coset.CLAIMS, b"", "a", value)) is TypeError
assert coset.put_encoded(coset.HEADER, b"", 99, b"\xf5") == b"\xa1\x18\x63\xf5"
for value, item in ((7, b"\x07"), ("read", b"\x64read"), (b"\x01", b"\x41\x01")):
    assert coset.put(coset.CLAIMS, b"", "scope", value) == b"\xa1\x65scope" + item
    assert type(raised(coset.put, coset.CLAIMS, b"\xa1\x65scope\x07", "scope", value)) is coset.Fault

for number in (0, 15, -1, (1 << 32) + 1, (1 << 64) + 1):
    assert type(raised(coset.check, number, b"\x84")) is coset.Misuse, number
assert coset.Kind(coset.SIGN1 + coset.EITHER) is coset.Kind.SIGN1_EITHER
assert type(raised(coset.part, coset.SIGN1, bytes.fromhex("8440a0f640"), (1 << 32) + 1)) is coset.Misuse

# A call's result is computed once, because the buffer is as large as a result may be.
calls = []


def counted(call):
    return lambda *arguments: calls.append(call) or call(*arguments)


coset._message_spans = counted(coset._message_spans)
coset._library.coset_make, coset._library.coset_part = counted(coset._library.coset_make), counted(coset._library.coset_part)
token = coset.make(coset.SIGN1, b"\xa1\x01\x26", b"", bytes(100_000), bytes(64))
assert coset.sign1(coset.SIGN1, token, bytes(5_000)).payload == bytes(100_000) and len(calls) == 2
assert coset.part(coset.SIGN1, token, coset.PAYLOAD) == bytes(100_000) and len(calls) == 3

assert type(raised(coset.verify, coset.SIGN1, token, [-7], lambda question: 1)) is coset.Refused
assert coset.put(coset.CLAIMS, b"", -70000, coset.Encoded(b"\xf5")) == coset.put_encoded(coset.CLAIMS, b"", -70000, b"\xf5")
sealed = coset.make(coset.ENCRYPT0, coset.put(coset.HEADER, b"", 1, 1), b"", b"ciphertext")
for answer, kind in ((None, coset.Refused), (False, coset.Refused), (True, TypeError), (0, TypeError), ("", TypeError), (b"plain", type(None))):
    assert type(raised(coset.decrypt, coset.ENCRYPT0, sealed, [1], lambda question: answer)) is kind, answer
assert coset.decrypt(coset.ENCRYPT0, sealed, [1], lambda question: bytearray(b"plain")) == b"plain"
assert coset.verify(coset.SIGN1, token, [-7], lambda question: True) == bytes(100_000)



class Falsy(list):
    """A list that counts as false, as an array of zeros may."""

    def __bool__(self):
        return False


class Ambiguous(list):
    """A list without a truth, as an array of several numbers."""

    def __bool__(self):
        raise ValueError("the truth of an array of several numbers")


class Bytes(bytearray):
    """Bytes that count as false."""

    def __bool__(self):
        return False


# Only the length of an argument counts, and not its truth.
critical = coset.make(coset.SIGN1, b"\xa3\x01\x26\x02\x81\x3a\x00\x01\x11\x6f\x3a\x00\x01\x11\x6f\x01", b"", b"payload", bytes(64))
for form in (list, tuple, Falsy, Ambiguous, set):
    labels = form([-70000])
    assert coset.message(coset.SIGN1, critical, critical=labels).critical == coset.UNDERSTOOD
    assert coset.verify(coset.SIGN1, critical, form([-7]), lambda question: True, critical=labels) == b"payload"
assert type(raised(coset.verify, coset.SIGN1, critical, [-7], lambda question: True, critical=Falsy())) is coset.Critical
key = coset.put_all(coset.KEY, b"", {1: 2, 2: b"kid", 3: -7, -1: 1, -2: bytes(32), -3: bytes(32)})
layer = coset.Layer(coset.SIGN1, -7, b"other", None, b"", bytes(64), None, None, 0)
for form in (bytes, bytearray, Bytes):
    assert coset.key_fits(key, layer._replace(key_id=form(b"kid"))) == b"" and coset.key_fits(key, layer._replace(key_id=form(b"other"))) is None

# An empty signature or MAC is refused, and nobody is asked.
for kind, number in ((coset.SIGN1, -7), (coset.MAC0, 5)):
    empty = coset.make(kind + coset.TAGGED, coset.put(coset.HEADER, b"", 1, number), b"", b"\xa1\x04\x1907")
    assert type(raised(coset.verify, kind + coset.TAGGED, empty, [number], lambda question: 1 / 0)) is coset.Refused
    assert type(raised(coset.verify, kind + coset.TAGGED, empty, [1], lambda question: 1 / 0)) is coset.NotAllowed
    error = raised(coset.verify_token, empty, lambda layer: 1 / 0, [number], now=1)
    assert (type(error), error.reason, error.layer) == (coset.InvalidToken, coset.Status.REFUSED, 0)

# Bytes are bytes, and not the memory of numbers.
numbers = (ctypes.c_int64(5), array.array("I", [5]), array.array("B", [5]), (ctypes.c_ubyte * 1)(5), memoryview(array.array("I", [5])), [5], 5.0, None)
for wrong in numbers:
    assert type(raised(coset.check, coset.ITEM, wrong)) is TypeError, wrong
    assert type(raised(coset.decrypt, coset.ENCRYPT0, sealed, [1], lambda question: wrong)) is (coset.Refused if wrong is None else TypeError), wrong
    if not isinstance(wrong, float):
        for call, more in ((coset.put, (1, wrong)), (coset.put, ("a", wrong)), (coset.put_encoded, (1, wrong)), (coset.put_all, ({1: wrong},))):
            assert type(raised(call, coset.ITEM, b"", *more)) is TypeError, (call, wrong)
for form in (bytes, bytearray, memoryview, Bytes, coset.Encoded, lambda data: memoryview(data).cast("b"), lambda data: memoryview(data).cast("c"),
             lambda data: memoryview((ctypes.c_ubyte * len(data))(*data)), lambda data: memoryview(data + data)[: len(data)]):
    assert coset.check(coset.ITEM, form(b"\x05")) is None and coset.put_encoded(coset.ITEM, b"", 1, form(b"\x05")) == b"\xa1\x01\x05"
    assert coset.decrypt(coset.ENCRYPT0, sealed, [1], lambda question: form(b"plain")) == b"plain"
    if form is not coset.Encoded:
        assert coset.put(coset.ITEM, b"", 1, form(b"x")) == coset.put_all(coset.ITEM, b"", {1: form(b"x")}) == b"\xa1\x01\x41x"

# True is no integer, and neither is a float with a whole value or a text. The integer in its place is taken.
numbered = [
    (1, lambda it: coset.check(it, token)), (1, lambda it: coset.part(it, token, coset.PAYLOAD)), (1, lambda it: coset.sign1(it, token)),
    (1, lambda it: coset.message(it, token)), (1, lambda it: coset.structure(it, token)), (1, lambda it: coset.structure_of(it, b"")),
    (1, lambda it: coset.verify(it, token, [-7], lambda question: True)), (1, lambda it: coset.make(it, b"", b"")),
    (5, lambda it: coset.decrypt(it, sealed, [1], lambda question: b"plain")), (6, lambda it: coset.recipient_structure_of(it, b"")),
    (1, lambda it: coset.part(coset.SIGN1, token, it)), (1, lambda it: coset.label(coset.SIGN1, token, it, 1)),
    (1, lambda it: coset.canonical_key(it, key)), (0, lambda it: coset.member(coset.ITEM, b"\x82\x01\x02", it)),
    (0, lambda it: coset.member_span(coset.ITEM, b"\x81\x01", it)), (0, lambda it: coset.item_span(b"\x01\x02", it)),
    (0, lambda it: coset.pair_spans(coset.ITEM, b"\xa1\x01\x02", it)), (0, lambda it: coset.label_at(coset.ITEM, b"\xa1\x01\x02", it)),
    (0, lambda it: coset.value_at(coset.ITEM, b"\xa1\x01\x02", it)), (0, lambda it: coset.message(coset.SIGN1, token, it)),
    (0, lambda it: coset.structure(coset.SIGN1, token, it)), (0, lambda it: coset.verify(coset.SIGN1, token, [-7], lambda question: True, it)),
    (1, lambda it: coset.label(coset.ITEM, b"\xa1\x01\x02", coset.IN_ITEM, it)), (1, lambda it: coset.has(coset.ITEM, b"\xa0", coset.IN_ITEM, it)),
    (1, lambda it: coset.label_bytes(coset.ITEM, b"\xa1\x01\x40", coset.IN_ITEM, it)),
    (1, lambda it: coset.label_int(coset.ITEM, b"\xa1\x01\x02", coset.IN_ITEM, it)),
    (1, lambda it: coset.label_span(coset.ITEM, b"\xa1\x01\x02", coset.IN_ITEM, it)),
    (1, lambda it: coset.put(coset.ITEM, b"", it, 5)), (1, lambda it: coset.put_encoded(coset.ITEM, b"", it, b"\x05")),
    (1, lambda it: coset.put_all(coset.ITEM, b"", [(it, 5)])), (7, lambda it: coset.countersign_structure(coset.SIGN1, token, it)),
    (1, lambda it: coset.key_fits(key, layer._replace(form=it))), (-7, lambda it: coset.key_fits(key, layer._replace(algorithm=it))),
    (1, lambda it: coset.decrypt(coset.ENCRYPT0, sealed, [it], lambda question: b"plain")),
    (-7, lambda it: coset.verify(coset.SIGN1, token, [it], lambda question: True)),
    (1, lambda it: coset.message(coset.SIGN1, token, critical=[it])), (24, coset.status_text),
]
for number, call in numbered:
    assert raised(call, number) is None, (number, raised(call, number))
    for wrong in (True, False, float(number), complex(number), None, b"\x01", [number]):
        assert type(raised(call, wrong)) is TypeError, (number, wrong, raised(call, wrong))
for call in (lambda it: coset.verify(coset.SIGN1, token, it, lambda question: True), lambda it: coset.message(coset.SIGN1, token, critical=it)):
    for wrong in (b"\x05", bytearray(b"\x05"), memoryview(b"\x05"), "5", 5, None, True):
        assert type(raised(call, wrong)) is TypeError, wrong
assert coset.status_text(1 << 32) == coset.status_text(-1) != coset.status_text(0)

# The text of an error says which argument is wrong, and what it should be.
for told, call in (
    ("algorithms takes a list, not int", lambda: coset.verify(coset.SIGN1, token, -7, lambda question: True)),
    ("algorithms takes a list, not NoneType", lambda: coset.decrypt(coset.ENCRYPT0, sealed, None, lambda question: b"")),
    ("each of algorithms is an integer, not str", lambda: coset.verify(coset.SIGN1, token, ["ES256"], lambda question: True)),
    ("each of algorithms is an integer, not str", lambda: coset.verify_token(token, lambda layer: True, ["ES256"])),
    ("required takes a list, not int", lambda: coset.verify_token(token, lambda layer: True, [-7], required=7)),
    ("each of critical is an integer, not NoneType", lambda: coset.message(coset.SIGN1, token, critical=[None])),
    ("audience takes a list, not int", lambda: coset.verify_token(token, lambda layer: True, [-7], audience=5)),
    ("untagged_form is an integer, not str", lambda: coset.verify_token(token, lambda layer: True, [-7], untagged_form="SIGN1")),
    ("a label is an integer, not NoneType", lambda: coset.label_int(coset.SIGN1, token, coset.IN_PROTECTED, None)),
    ("a label that isn't a text is an integer, not NoneType", lambda: coset.label(coset.SIGN1, token, coset.IN_PROTECTED, None)),
    ("a label that isn't a text is an integer, not NoneType", lambda: coset.put(coset.HEADER, b"", None, 1)),
    ("a label that isn't a text is an integer, not bytes", lambda: coset.put_all(coset.HEADER, b"", {b"a": 1})),
    ("a kind is an integer, not str", lambda: coset.check("SIGN1", token)),
    ("an index is an integer, not NoneType", lambda: coset.member(coset.KEY_SET, b"\x80", None)),
    ("pairs are a dict, or tuples of two", lambda: coset.put_all(coset.HEADER, b"", 5)),
    ("pairs are a dict, or tuples of two", lambda: coset.put_all(coset.HEADER, b"", [(1, 2, 3)])),
    ("issuers are a dict, or tuples of a name and a COSE_KeySet", lambda: coset.KeyRing(b"\x80", object())),
    ("issuers are a dict, or tuples of a name and a COSE_KeySet", lambda: coset.KeyRing(None, object())),
):
    error = raised(call)
    assert (type(error), str(error)) == (TypeError, told), (told, error)
assert str(raised(coset.part, coset.SIGN1, token, 9)) == coset.status_text(coset.Status.MISUSE)
assert coset.status_text(coset.Status.MISUSE).startswith("an argument has no meaning for this call")

# A single key is no set of keys.
for call in (coset.readable_keys, lambda data: coset.KeyRing({"as": data}, object())):
    error = raised(call, key)
    assert type(error) is coset.Fault and (error.status, error.offset) == (coset.Status.UNEXPECTED, None), error
    assert str(error) == str(copy.copy(pickle.loads(pickle.dumps(error)))) == "a COSE_KeySet is needed, an array of keys"
assert str(coset.Fault(coset.Status.UNEXPECTED)) == coset.status_text(coset.Status.UNEXPECTED)

# A reason with several causes says all of them.
here = {"audience": ["here"]}
for claims, more, told in (({3: "there"}, here, "isn't for one of the verifier's audiences"), ({3: "there"}, {}, "isn't for one of the verifier's audiences"),
                           ({}, here, "isn't for one of the verifier's audiences"), ({}, {"types": ["application/cwt"]}, "has none of the accepted types"),
                           ({}, {"max_age": 60}, "is too old, or has no time of issue"), ({6: 1}, {"max_age": 60}, "is too old, or has no time of issue")):
    given = coset.make(coset.SIGN1, b"\xa1\x01\x26", b"", coset.put_all(coset.CLAIMS, b"", {4: 2000, **claims}), bytes(64))
    assert str(raised(coset.verify_token, given, lambda layer: True, [-7], now=1000, **more)) == f"the token is refused: the token {told}"

for wrong in (0, 1, True, [5], "5", None, 1.0, array.array("B", [5])):
    assert type(raised(coset.Encoded, wrong)) is TypeError, wrong
assert copy.deepcopy(pickle.loads(pickle.dumps(coset.Encoded(b"\x05")))) == b"\x05"

for wrong in ("ab", b"ab", {1, 2}, iter([1, 2]), 5, None):
    assert type(raised(coset.put_all, coset.ITEM, b"", [wrong])) is TypeError, wrong
    assert type(raised(coset.KeyRing, [wrong], object())) is TypeError, wrong
assert coset.put_all(coset.ITEM, b"", iter([(1, 2), ["a", 3]])) == b"\xa2\x01\x02\x61a\x03"

# A result of more than 4 GB isn't cut to its length modulo 2**32. There is no memory for this one. Its buffer has pages that are
# never touched.
program = """
import ctypes, mmap, resource, coset

ctypes.create_string_buffer = lambda size: (ctypes.c_char * size).from_buffer(mmap.mmap(-1, size))
LENGTH = (1 << 32) + 5


def call(out, room, length):
    length._obj.value = LENGTH
    return 0 if room == LENGTH else 1


resource.setrlimit(resource.RLIMIT_AS, (6 << 30, 6 << 30))
try:
    print(len(coset._written(call)))
except MemoryError:
    print("no memory")
"""
assert subprocess.run([sys.executable, "-c", program], capture_output=True, text=True, cwd=os.path.dirname(__file__)).stdout == "no memory\n"

# The question has the plain kind, and at most one IV.
for kind in (coset.SIGN1, coset.MAC0):
    for form in (0, coset.TAGGED, coset.EITHER):
        bare = coset.make(kind + (coset.TAGGED if form else 0), b"\xa1\x01\x26", b"", b"payload", bytes(64))
        assert coset.verify(kind + form, bare, [-7], lambda question: question.kind is kind) == b"payload"
assert coset.decrypt(coset.ENCRYPT0, sealed, [1], lambda question: question.kind is coset.ENCRYPT0 and b"plain") == b"plain"
both = coset.make(coset.ENCRYPT0, b"\xa2\x01\x01\x05\x42iv", b"\xa1\x06\x41p", b"ciphertext")
error = raised(coset.decrypt, coset.ENCRYPT0, both, [1], lambda question: 1 / 0)
assert type(error) is coset.WrongHeaders and isinstance(error, coset.Refused), error
assert type(raised(coset.decrypt, coset.ENCRYPT0, both, [3], lambda question: 1 / 0)) is coset.NotAllowed

# An index is for a kind with signers. One that is negative is no index.
for index in (1, 1 << 40, (1 << 64) - 1):
    for call, more in ((coset.verify, ([-7], lambda question: True, index)), (coset.message, (index,)), (coset.structure, (index,))):
        assert type(raised(call, coset.SIGN1, critical, *more)) is coset.Misuse, (call, index)
assert type(raised(coset.message, coset.SIGN1, critical, -1)) is IndexError


def countersignatures(kind, message):
    """Returns the countersignatures under label 11 of the unprotected header. It has one by itself, or several in an
    array (RFC 9338, section 2)."""
    if not coset.has(kind, message, coset.IN_UNPROTECTED, 11):
        return []
    value = coset.label(kind, message, coset.IN_UNPROTECTED, 11)
    if raised(coset.check, coset.SIGNATURE, value) is None:
        return [value]
    return [coset.member(coset.ITEM, value, index) for index in range(coset.count(coset.ITEM, value))]


def made_by(key, over):
    """Returns a stand-in for the signature of those bytes by that key."""
    return hashlib.sha256(key + over).digest()


def countersigned(kind, message, keys):
    """Returns the message with a countersignature by each of the keys. The keys are their own identifiers."""
    made = []
    for key in keys:
        own = coset.put_all(coset.HEADER, b"", {1: -7, 4: key})
        made.append(coset.make(coset.SIGNATURE, own, b"", proof=made_by(key, coset.countersign_structure(kind, message, 11, own))))
    value = made[0] if len(made) == 1 else b""
    for one in made if len(made) > 1 else []:
        value = coset.add(coset.ITEM, value, one)
    header = coset.put_encoded(coset.HEADER, b"", 11, value) if made else b""
    parts = [coset.part(kind, message, which) for which in (coset.PROTECTED, coset.PAYLOAD, coset.PROOF)]
    return coset.make(kind, parts[0], header, *parts[1:])


def countersigners(kind, message):
    """Verifies each countersignature, and yields the identifier of its key."""
    for one in countersignatures(kind, message):
        over = coset.countersign_structure(kind, message, 11, coset.part(coset.SIGNATURE, one, coset.PROTECTED))
        key = coset.label_bytes(coset.SIGNATURE, one, coset.IN_PROTECTED, 4)
        assert coset.part(coset.SIGNATURE, one, coset.PROOF) == made_by(key, over)
        yield key


for keys in ([], [b"one"], [b"one", b"two", b"three"]):
    for kind in (coset.SIGN1, coset.MAC0):
        bare = coset.make(kind, b"\xa1\x01\x26", b"", b"payload", b"signature or tag")
        assert list(countersigners(kind, countersigned(kind, bare, keys))) == keys
assert type(raised(coset.countersign_structure, coset.SIGN1, bare, 8)) is coset.Misuse
assert type(raised(coset.countersign_structure, coset.SIGN1, bare, 12, b"\xa0")) is coset.Absent


def elements(array):
    """Yields the elements of an array, in one walk: each begins where the one before it ends."""
    at = coset.member_span(coset.ITEM, array, 0).start
    for _ in range(coset.count(coset.ITEM, array)):
        span = coset.item_span(array, at)
        yield array[span]
        at = span.stop


def certificates(kind, message):
    """Returns the certificates under x5chain, label 33 of the unprotected header: one byte string, or an array of them
    (RFC 9360, section 2). Each is a part of the message, not a copy."""
    chain = memoryview(message)[coset.label_span(kind, message, coset.IN_UNPROTECTED, 33)]
    try:
        parts = list(elements(chain))
    except coset.Absent:
        parts = [chain]
    return [part[coset.string_span(part)] for part in parts]


for held in (b"\x43one", b"\x82\x43one\x58\x03two"):
    header = b"\xa2\x04\x41\x07\x18\x21" + held
    for tag in (b"", b"\xd2"):
        chained = tag + b"\x84\x43\xa1\x01\x26" + header + b"\xf6\x40"
        assert certificates(coset.SIGN1 + coset.EITHER, chained) == [b"one", b"two"][:1 + (held[0] == 0x82)]
