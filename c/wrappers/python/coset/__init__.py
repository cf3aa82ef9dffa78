"""coset from Python: the calls of coset.h. The library is the file that the environment's COSET_LIBRARY names, else
libcoset.so next to this file, else the system's.

A call takes bytes and returns bytes, a number or None. It raises one of these errors:
- Fault if the bytes aren't an item of the kind, or the new item wouldn't be.
- Absent if the bytes don't have the requested part. Or items of the kind, or the bytes that something is added to, have
  no place for an argument.
- WrongType if the requested value is of another type.
- Empty, Misuse, and MemoryError.

`verify_token` verifies a web token (RFC 8392) with the keys of a `KeyRing`. It raises InvalidToken if the token is
refused. `verify` and `decrypt` return a message's contents only after the caller's function said yes. They also raise
NotAllowed, Critical, WrongHeaders or Refused. The header and docs/C.md say what each call promises.
"""
import ctypes
import enum
import math
import operator
import os
import struct
import time
from collections import namedtuple
from collections.abc import Mapping
from numbers import Integral


class Kind(enum.IntEnum):
    """The kind of item that the bytes should be. A message, one of the first six, is plain. It is under its tag if
    TAGGED is added, and both forms are accepted if EITHER is added: SIGN1 + EITHER is Kind.SIGN1_EITHER."""

    SIGN1, SIGN, MAC0, MAC, ENCRYPT0, ENCRYPT, SIGNATURE, RECIPIENT, HEADER, KEY, KEY_SET, CLAIMS, ITEM, KDF_CONTEXT = range(1, 15)
    SIGN1_TAGGED, SIGN_TAGGED, MAC0_TAGGED, MAC_TAGGED, ENCRYPT0_TAGGED, ENCRYPT_TAGGED = range(0x101, 0x107)
    SIGN1_EITHER, SIGN_EITHER, MAC0_EITHER, MAC_EITHER, ENCRYPT0_EITHER, ENCRYPT_EITHER = range(0x201, 0x207)


SIGN1, SIGN, MAC0, MAC, ENCRYPT0, ENCRYPT, SIGNATURE, RECIPIENT, HEADER, KEY, KEY_SET, CLAIMS, ITEM, KDF_CONTEXT = map(Kind, range(1, 15))
TAGGED, EITHER = 0x100, 0x200  # added to a message's kind, one of the first six
_KINDS = frozenset(map(int, Kind))
PROTECTED, PAYLOAD, CIPHERTEXT, PROOF = range(1, 5)
IN_PROTECTED, IN_UNPROTECTED, IN_ITEM = range(1, 4)
LEXICOGRAPHIC, LENGTH_FIRST = range(1, 3)  # orders of labels
BY_SIGNATURE, BY_ANY = range(1, 3)  # which layers authenticate who sent a token
MOST_TRIES = 16  # the greatest number of keys that a KeyRing tries for a layer
NONE, INT, TEXT, BYTES, ENCODED = range(0, 5)  # forms in which a message names its algorithm: the first three; and of labels and values
UNDERSTOOD, NOT_UNDERSTOOD = range(1, 3)  # what there is of labels that must be understood; NONE where there are none

# The algorithms for which `coset.crypto` has ciphers, by their numbers (IANA, "COSE Algorithms").
ES256, ES384, ES512, ES256K, ESP256, ESP384, ESP512 = -7, -35, -36, -47, -9, -51, -52
EDDSA, ED25519, ED448 = -8, -19, -53
PS256, PS384, PS512, RS256, RS384, RS512 = -37, -38, -39, -257, -258, -259
HMAC_256_64, HMAC_256_256, HMAC_384_384, HMAC_512_512 = 4, 5, 6, 7
A128GCM, A192GCM, A256GCM, CHACHA20_POLY1305 = 1, 2, 3, 24
AES_CCM_16_64_128, AES_CCM_16_64_256, AES_CCM_64_64_128, AES_CCM_64_64_256 = 10, 11, 12, 13
AES_CCM_16_128_128, AES_CCM_16_128_256, AES_CCM_64_128_128, AES_CCM_64_128_256 = 30, 31, 32, 33


class Status(enum.IntEnum):
    """The statuses of the header, by their names without COSET_. str() is the name."""

    OK, SHORT, MEMORY, ENDS, MALFORMED, DEEP, EXTRANEOUS, UNEXPECTED, DUPLICATE, OUT_OF_RANGE, UNREGISTERED, NOT_PRIVATE = range(0, 12)
    ABSENT, MISUSE, TYPE, EMPTY, NOT_ALLOWED, CRITICAL = range(12, 18)
    REFUSED, TOO_MANY_KEYS = 18, 35  # of coset_verify.h
    LAYER, TOO_DEEP, UNAUTHENTICATED, NOT_CLAIMS, NO_EXPIRATION, EXPIRED, NOT_YET_VALID, ISSUED_LATER, TOO_OLD = range(19, 28)
    ISSUER, AUDIENCE = range(28, 30)
    HEADERS, TOKEN_TYPE, HEADER_CLAIMS, MISSING, UNFIT = range(30, 35)

    def __str__(self):
        return self.name

    def __format__(self, spec):
        return format(self.name, spec)


_OK, _SHORT, _MEMORY, _ABSENT, _MISUSE, _TYPE, _EMPTY, _NOT_ALLOWED, _CRITICAL = 0, 1, 2, 12, 13, 14, 15, 16, 17
_LAYER, _HEADERS, _MISSING, _UNFIT = 19, 30, 33, 34
# The statuses against a layer of a token. The others are against the whole token.
_OF_LAYER = frozenset([*range(3, 13), _NOT_ALLOWED, _CRITICAL, Status.REFUSED, Status.HEADERS])
_FAULTS = {
    3: "the bytes end before the item does",
    4: "the bytes aren't well-formed",
    5: "arrays, maps and tags nest too deep",
    6: "bytes follow the item",
    7: "an item isn't as its place asks",
    8: "two keys of a map are one label",
    9: "an integer lies outside the range of its place",
    10: "an integer isn't registered",
    11: "an integer isn't registered, nor for private use",
}
_NO_OFFSET = ctypes.c_size_t(-1).value
_LABEL = "a label that isn't a text"

_beside = os.path.join(os.path.dirname(os.path.abspath(__file__)), "libcoset.so")
_library = ctypes.CDLL(os.environ.get("COSET_LIBRARY") or (_beside if os.path.exists(_beside) else "libcoset.so.1"))


class Fault(ValueError):
    """The bytes aren't an item of the kind, or the new item wouldn't be. `status` is the status of the call. `offset`
    is where the bytes stop being one item of CBOR, or None. Only `check` knows it. str() is `text`, or a few words for the
    status if that is None."""

    def __init__(self, status, offset=None, text=None):
        super().__init__(status, offset, text)
        self.status, self.offset, self.text = status, offset, text

    def __str__(self):
        return self.text or _FAULTS.get(self.status) or status_text(self.status)


class Absent(LookupError):
    """The bytes don't have the requested part. Or items of the kind, or the bytes that something is added to, have no
    place for an argument."""


class Empty(LookupError):
    """The counted list is empty: verifying each of its signatures would verify none."""


class WrongType(TypeError):
    """The value is there, but isn't a string, or isn't an integer of 64 bits with a sign. From a call that returns a
    place also: a string is in chunks."""


class Misuse(TypeError):
    """A number names no kind, part, map, order or countersignature, or a kind that the call doesn't take. Or a payload
    or ciphertext is given as detached although the message carries one. Or an index isn't 0 for a kind without
    signers."""


class Refused(Exception):
    """The caller's function said no to the signature, the tag or the ciphertext. Or a signature or tag is empty."""


class NotAllowed(Refused):
    """The protected header doesn't name an allowed algorithm by its number."""


class Critical(Refused):
    """A critical label isn't understood, or isn't protected."""


class WrongHeaders(Refused):
    """A message has both an IV and a partial IV (RFC 8152, section 3.1)."""


class Question(namedtuple("Question", "algorithm key_id key_id_map input proof iv partial_iv iv_map partial_iv_map kind", defaults=[None] * 5)):
    """The question that the caller's function answers:
    - `kind` is the kind of the message, without TAGGED or EITHER: SIGN1, SIGN, MAC0, MAC or ENCRYPT0.
    - `algorithm` is one of the allowed ones.
    - `key_id` is the key identifier, or None if the message names no key. `key_id_map` is the header that has it, as
      in Sign1.
    - `input` is the structure that is signed, authenticated, or goes with the ciphertext.
    - `proof` is the signature or the tag, or for `decrypt` the ciphertext.
    - `iv` and `partial_iv` are the initialization vector, label 5, and the partial one, label 6, each None if neither
      header has it. `iv_map` and `partial_iv_map` are the headers that have them. All are None from `verify`. At most
      one IV isn't None."""

    __slots__ = ()


class InvalidToken(Exception):
    """The token is refused. str() is a sentence that says why:
    - `reason` is the first reason against the token, a Status. It is UNFIT if no key of a KeyRing fits a layer. It is
      TOO_MANY_KEYS if a KeyRing tried MOST_TRIES keys for a layer, each is refused, and more fit.
    - `layer` is the index of the refused layer, counted from 0, the outermost. It is None if the reason isn't against
      a layer.
    - `number` is the number of the algorithm for NOT_ALLOWED, and that of the missing claim for MISSING. It is None
      for another reason, if the layer names no algorithm by a number, and for the number 0, which is reserved.
    - `key_id` is the key identifier of the layer for UNFIT, TOO_MANY_KEYS and REFUSED. It is None for another reason,
      and if the layer names no key."""

    def __init__(self, reason, layer=None, number=None, key_id=None):
        super().__init__(reason, layer, number, key_id)
        self.reason, self.layer, self.number, self.key_id = Status(reason), layer, number, key_id

    def __str__(self):
        subject = "the token" if self.layer is None else f"layer {self.layer} of the token"
        told = _AGAINST.get(self.reason) or status_text(self.reason)
        return f"{subject} is refused: {told}" + ("" if self.number is None else f" ({self.number})")


# The reasons against a token whose texts depend on the call.
_AGAINST = {
    Status.ABSENT: "it carries no payload or ciphertext",
    Status.UNFIT: "no key fits it",
}


class Layer(namedtuple("Layer", "form algorithm key_id key_id_map input proof iv partial_iv index")):
    """The question that the caller's function answers for a layer of a token:
    - `form` is SIGN1, MAC0 or ENCRYPT0.
    - `algorithm` is one of the allowed ones.
    - `key_id` is the key identifier, or None if the layer names no key. `key_id_map` is the header that has it, as
      in Sign1.
    - `input` is the structure that is signed, authenticated, or goes with the ciphertext.
    - `proof` is the signature, the MAC or the ciphertext.
    - `iv` and `partial_iv` are the initialization vector and the partial one, each None if there is none.
    - `index` is the layer's index, counted from 0, the outermost."""

    __slots__ = ()


class VerifiedLayer(namedtuple("VerifiedLayer", "form protected unprotected issuer")):
    """A layer of a verified token:
    - `form` is SIGN1, MAC0 or ENCRYPT0.
    - `protected` is the content of the protected header's byte string, as received: a HEADER, or no bytes.
    - `unprotected` is the unprotected header, a HEADER.
    - `issuer` is the name of the issuer whose key accepted the layer, or None."""

    __slots__ = ()


class VerifiedToken(namedtuple("VerifiedToken", "claims audience others issuer layers")):
    """A verified token:
    - `claims` are its claims, a CLAIMS. An `aud` that is an array is left out, and so are `others`.
    - `audience` has the names in `aud`, which is a text or an array of texts.
    - `others` are the claims whose numbers are neither assigned by IANA nor for private use, an ITEM: a map.
    - `issuer` is the name of the issuer whose key authenticated the token, or None. The innermost authenticating layer
      decides.
    - `layers` has a VerifiedLayer for each layer, from the outermost in."""

    __slots__ = ()


class Message(namedtuple("Message", "algorithm algorithm_form key_id_map critical is_tagged input proof content key_id")):
    """Everything that verifying or decrypting a message takes. It is like Sign1, but for any message:
    - `critical` is NONE, UNDERSTOOD or NOT_UNDERSTOOD.
    - `input` is the structure that is signed, authenticated, or goes with the ciphertext.
    - `proof` is the signature or the tag, and empty for an encrypted message.
    - `content` is the payload or ciphertext that the message carries, and empty if it is detached.

    For a message with signers, the headers and the signature are those of one signer."""

    __slots__ = ()


class Sign1(namedtuple("Sign1", "algorithm algorithm_form key_id_map has_critical is_tagged signed signature payload key_id")):
    """Everything that verifying a message with one signature takes:
    - `algorithm` is the algorithm in the protected header, an int or None. `algorithm_form` is its form: NONE, INT
      or TEXT.
    - `key_id_map` is the header that has the key identifier: IN_PROTECTED, else IN_UNPROTECTED, which isn't signed,
      else None.
    - `has_critical` says whether either header has crit: labels that must be understood.
    - `is_tagged` says whether the message is under its tag.
    - `signed` is the structure that is signed, and `signature` the signature.
    - `payload` is the payload that the message carries, and empty if it is detached.
    - `key_id` is the key identifier.

    Before you use the payload, verify the signature over `signed`, by a key that you trust and an algorithm that you
    allow for it. Refuse a message that has crit."""

    __slots__ = ()


class _Spans(ctypes.Structure):
    """coset_message_spans_view of the header."""

    _fields_ = [
        ("algorithm", ctypes.c_int64),
        ("algorithm_form", ctypes.c_uint32),
        ("key_id_map", ctypes.c_uint32),
        ("critical", ctypes.c_uint32),
        ("is_tagged", ctypes.c_uint32),
        ("is_proof_in_input", ctypes.c_uint32),
        ("is_content_in_input", ctypes.c_uint32),
        ("is_key_id_in_input", ctypes.c_uint32),
        ("structure_len", ctypes.c_size_t),
        ("proof_at", ctypes.c_size_t),
        ("proof_len", ctypes.c_size_t),
        ("content_at", ctypes.c_size_t),
        ("content_len", ctypes.c_size_t),
        ("key_id_at", ctypes.c_size_t),
        ("key_id_len", ctypes.c_size_t),
    ]


class _Span(ctypes.Structure):
    """coset_span of the header."""

    _fields_ = [
        ("at", ctypes.c_size_t),
        ("len", ctypes.c_size_t),
    ]


class _Pair(ctypes.Structure):
    """coset_pair of the header."""

    _fields_ = [
        ("label_form", ctypes.c_uint32),
        ("value_form", ctypes.c_uint32),
        ("label", ctypes.c_int64),
        ("label_at", ctypes.c_size_t),
        ("label_len", ctypes.c_size_t),
        ("value", ctypes.c_int64),
        ("value_at", ctypes.c_size_t),
        ("value_len", ctypes.c_size_t),
    ]


class _Rules(ctypes.Structure):
    """coset_rules of the header."""

    _fields_ = [
        ("size", ctypes.c_size_t),
        ("leeway", ctypes.c_uint64),
        ("max_age", ctypes.c_uint64),
        ("untagged_form", ctypes.c_uint32),
        ("authenticated_by", ctypes.c_uint32),
        ("any_audience", ctypes.c_uint32),
        ("may_not_expire", ctypes.c_uint32),
        ("may_be_issued_later", ctypes.c_uint32),
    ]


class _Text(ctypes.Structure):
    """coset_text of the header."""

    _fields_ = [
        ("chars", ctypes.c_char_p),
        ("len", ctypes.c_size_t),
    ]


class _Opened(ctypes.Structure):
    """coset_opened of the header."""

    _fields_ = [
        ("form", ctypes.c_uint32),
        ("offset", ctypes.c_size_t),
        ("structure_len", ctypes.c_size_t),
        ("proof_len", ctypes.c_size_t),
        ("plaintext", ctypes.c_size_t),
        ("plaintext_len", ctypes.c_size_t),
        ("issuer", ctypes.c_size_t),
        ("issuer_len", ctypes.c_size_t),
    ]


class _Layer(ctypes.Structure):
    """coset_layer of the header."""

    _fields_ = [
        ("form", ctypes.c_uint32),
        ("key_id_map", ctypes.c_uint32),
        ("algorithm", ctypes.c_int64),
        ("claim", ctypes.c_int64),
        ("index", ctypes.c_size_t),
        ("structure_len", ctypes.c_size_t),
        ("proof_len", ctypes.c_size_t),
        ("key_id_len", ctypes.c_size_t),
        ("iv_len", ctypes.c_size_t),
        ("partial_iv_len", ctypes.c_size_t),
    ]


def _calls_with_kind():
    """Returns the calls that begin with a kind and an input, with the types of their other arguments."""
    number, size, integer, at = ctypes.c_uint32, ctypes.c_size_t, ctypes.c_int64, ctypes.c_char_p
    given, to, span = [at, size], [ctypes.c_void_p, size, ctypes.POINTER(size)], ctypes.POINTER(_Span)
    return {
        "check": [ctypes.POINTER(size)],
        "count": [ctypes.POINTER(size)],
        "part": [number, *to],
        "member": [size, *to],
        "member_span": [size, span],
        "pair_spans": [size, span, span],
        "label_span": [number, integer, span],
        "label": [number, integer, *to],
        "label_bytes": [number, integer, *to],
        "label_int": [number, integer, ctypes.POINTER(integer)],
        "text_label": [number, *given, *to],
        "label_at": [size, *to],
        "value_at": [size, *to],
        "structure": [size, *given, number, *given, *to],
        "recipient_structure": [*given, *to],
        "countersign_structure": [integer, *given, *given, number, *given, *to],
        "message_spans": [size, *given, number, *given, *[ctypes.c_void_p, size] * 2, ctypes.c_void_p, ctypes.c_void_p],
        "put_all": [ctypes.POINTER(_Pair), size, *given, *to],
        "put": [integer, *given, *to],
        "put_bytes": [integer, *given, *to],
        "put_text": [integer, *given, *to],
        "put_int": [integer, integer, *to],
        "put_text_label": [*given, *given, *to],
        "structure_of": [*given, *given, *given, *to],
        "recipient_structure_of": [*given, *to],
        "make": [*given, number, *given, *given, *to],
        "add": [*given, *to],
        "write": to,
        "canonical_key": to,
    }


def _declare():
    """Declares the types of the library's functions."""
    size, integer, at = ctypes.c_size_t, ctypes.c_int64, ctypes.c_char_p
    given, to, span = [at, size], [ctypes.c_void_p, size, ctypes.POINTER(size)], ctypes.POINTER(_Span)
    calls = {name: [ctypes.c_uint32, *given, *others] for name, others in _calls_with_kind().items()}
    calls |= {
        "key_of": [*given, *given, *to],
        "item_span": [*given, size, span],
        "string_span": [*given, span],
        "integer": [*given, ctypes.POINTER(integer)],
        "token_open": [
            ctypes.POINTER(_Rules), *[ctypes.POINTER(integer), size] * 3, *[ctypes.POINTER(_Text), size] * 2, *given, integer,
            ctypes.POINTER(_Opened), size, *given, *to, ctypes.POINTER(_Layer),
        ],
        "key_fits": [*given, ctypes.c_uint32, integer, *given * 4, *to],
    }
    for name, arguments in calls.items():
        call = getattr(_library, "coset_" + name)
        call.argtypes, call.restype = arguments, ctypes.c_int32
    _library.coset_version.argtypes, _library.coset_version.restype = [], at
    _library.coset_version_number.argtypes, _library.coset_version_number.restype = [], ctypes.c_uint32
    _library.coset_status_text.argtypes, _library.coset_status_text.restype = [ctypes.c_int32], at


_declare()
# The version of this file. An earlier library may have other structs and statuses.
_VERSION_NUMBER = 0x00040207
if _library.coset_version_number() < _VERSION_NUMBER:
    raise ImportError(f"the library is of version {_library.coset_version().decode()}, earlier than this package")


def _raise(status, offset=None):
    """Raises the error of a status other than success."""
    if status == _MEMORY:
        raise MemoryError
    if status == _ABSENT:
        raise Absent("what is asked for isn't there, or what is given has no place")
    if status == _TYPE:
        raise WrongType("what is asked for is there, and is no string, or no integer of 64 bits")
    if status == _EMPTY:
        raise Empty("the list is empty")
    if status == _MISUSE:
        raise Misuse(status_text(_MISUSE))
    if status == _NOT_ALLOWED:
        raise NotAllowed("the algorithm isn't one that is allowed")
    if status == _CRITICAL:
        raise Critical("a label that must be understood isn't")
    if status == _HEADERS:
        raise WrongHeaders("the headers of a layer contradict each other")
    if status != _OK:
        raise Fault(status, offset)


def _bytes(data):
    """Returns the bytes of a bytes, a bytearray or a memoryview of bytes, and their number. Other objects with a buffer, such
    as arrays of numbers, would give the memory in which this processor keeps them."""
    if type(data) is not bytes:
        if not isinstance(data, (bytes, bytearray, memoryview)):
            raise TypeError(f"bytes, a bytearray or a memoryview is needed, not {type(data).__name__}")
        if isinstance(data, memoryview) and data.format.lstrip("@=<>!") not in ("B", "b", "c"):
            raise TypeError(f"a memoryview of bytes is needed, not of the format {data.format}")
        data = bytes(memoryview(data))
    return data, len(data)


def _whole(number, field="an argument"):
    """Returns the int that an integer is. True and False are integers of Python, and none here."""
    if type(number) is int:
        return number
    if isinstance(number, bool) or not isinstance(number, Integral):
        raise TypeError(f"{field} is an integer, not {type(number).__name__}")
    return operator.index(number)


def _kind(number):
    """Returns the number of a kind, or raises Misuse."""
    number = number if type(number) is Kind else _whole(number, "a kind")
    if number not in _KINDS:
        raise Misuse("a number of no kind")
    return number


def _number(number, field="a part, a map or an order"):
    """Returns the number of a part, a map or an order, or raises Misuse."""
    number = _whole(number, field)
    if not 0 <= number < 1 << 32:
        raise Misuse("a number of no part, no map or no order")
    return number


def _int64(number, field="a label"):
    number = _whole(number, field)
    if not -(1 << 63) <= number < 1 << 63:
        raise OverflowError("a number of more than 64 bits")
    return number


def _size(number):
    number = _whole(number, "an index")
    if not 0 <= number <= _NO_OFFSET:
        raise IndexError("an index that is negative or too large")
    return number


def _list(values, field):
    """Returns the elements as a list. A text, or bytes, isn't a list of its characters."""
    if isinstance(values, (str, bytes, bytearray, memoryview)) or not _is_iterable(values):
        raise TypeError(f"{field} takes a list, not {type(values).__name__}")
    return list(values)


def _is_iterable(values):
    return any(hasattr(type(values), name) for name in ("__iter__", "__getitem__"))


def _pairs(pairs, told="pairs are a dict, or tuples of two"):
    """Returns the pairs of a dict, or of a list of pairs. A text of two characters is no pair. Else `told` is the error."""
    if not _is_iterable(pairs):
        raise TypeError(told)
    found = list(pairs.items() if isinstance(pairs, Mapping) else pairs)
    if not all(isinstance(pair, (tuple, list)) and len(pair) == 2 for pair in found):
        raise TypeError(told)
    return found


def _integers(numbers, field):
    """Returns a list of integers of 64 bits."""
    return [_int64(number, f"each of {field}") for number in _list(numbers, field)]


def _written(call, *arguments, behind=()):
    """Returns the bytes that a call writes. The arguments in `behind` follow those for the result. The buffer has room
    for any usual result: twice the size of all arguments, and heads. If it is too small all the same, the call is
    made again."""
    room, length = 256, ctypes.c_size_t()
    for it in arguments:
        if type(it) is bytes:
            room += 2 * len(it)
    while True:
        out = ctypes.create_string_buffer(room)
        status = call(*arguments, out, room, ctypes.byref(length), *behind)
        if status != _SHORT:
            _raise(status)
            return out[: length.value]
        room = length.value


def check(kind, data):
    """Raises Fault, with the offset, unless the bytes are an item of the kind."""
    offset = ctypes.c_size_t()
    status = _library.coset_check(_kind(kind), *_bytes(data), ctypes.byref(offset))
    _raise(status, None if offset.value == _NO_OFFSET else offset.value)


def count(kind, data):
    """Returns the number of signatures, recipients, keys or elements, which is at least 1."""
    number = ctypes.c_size_t()
    _raise(_library.coset_count(_kind(kind), *_bytes(data), ctypes.byref(number)))
    return number.value


def part(kind, data, which):
    """Returns a part: PROTECTED, PAYLOAD, CIPHERTEXT or PROOF."""
    return _written(_library.coset_part, _kind(kind), *_bytes(data), _number(which))


def member(kind, data, index):
    """Returns the signature, recipient, key or element at `index`, in its shortest encoding."""
    return _written(_library.coset_member, _kind(kind), *_bytes(data), _size(index))


def _slice(span):
    return slice(span.at, span.at + span.len)


def member_span(kind, data, index):
    """Returns the place of the signature, recipient, key or array element at `index`, as received. It is a slice for
    `memoryview(data)[..]`."""
    span = _Span()
    _raise(_library.coset_member_span(_kind(kind), *_bytes(data), _size(index), ctypes.byref(span)))
    return _slice(span)


def pair_spans(kind, data, index):
    """Returns the places of the label and value of a map's pair, as received: two slices. `index` counts the pairs from
    0."""
    name, value = _Span(), _Span()
    _raise(_library.coset_pair_spans(_kind(kind), *_bytes(data), _size(index), ctypes.byref(name), ctypes.byref(value)))
    return _slice(name), _slice(value)


def label_span(kind, data, which, name):
    """Returns the place of an integer label's value, as received: a slice."""
    span = _Span()
    _raise(_library.coset_label_span(_kind(kind), *_bytes(data), _number(which), _int64(name), ctypes.byref(span)))
    return _slice(span)


def item_span(data, at):
    """Returns the place of the item that begins at the offset `at`, as received: a slice. The next element of an array,
    or the next label or value of a map, begins where the item ends. A bytearray or a memoryview is copied in each call, so
    a walk over many items takes bytes."""
    span = _Span()
    _raise(_library.coset_item_span(*_bytes(data), _size(at), ctypes.byref(span)))
    return _slice(span)


def string_span(data):
    """Returns the place of a string's content: a slice. The string has definite length."""
    span = _Span()
    _raise(_library.coset_string_span(*_bytes(data), ctypes.byref(span)))
    return _slice(span)


def integer(data):
    """Returns the integer that the bytes encode."""
    value = ctypes.c_int64()
    _raise(_library.coset_integer(*_bytes(data), ctypes.byref(value)))
    return value.value


class MajorType(enum.IntEnum):
    """Major types of items (RFC 8949, section 3.1). SIMPLE is a float or a simple value."""

    UNSIGNED, NEGATIVE, BYTE_STRING, TEXT_STRING, ARRAY, MAP, TAG, SIMPLE = range(0, 8)


def _item(data):
    """Returns the bytes of one item."""
    data = _bytes(data)[0]
    check(ITEM, data)
    return data


def major_type(data):
    """Returns the MajorType of an item."""
    return MajorType(_item(data)[0] >> 5)


def simple_value(data):
    """Returns the simple value that an item is: False, True or None. The library supports no others."""
    data = _item(data)
    if data not in (b"\xf4", b"\xf5", b"\xf6"):
        raise WrongType("the item isn't a simple value")
    return (False, True, None)[data[0] - 0xF4]


def float_value(data):
    """Returns the float that an item is, of 16, 32 or 64 bits."""
    data = _item(data)
    if not 0xF9 <= data[0] <= 0xFB:
        raise WrongType("the item isn't a float")
    return struct.unpack((">e", ">f", ">d")[data[0] - 0xF9], data[1:])[0]


def map_spans(kind, data):
    """Returns the places of the labels and values of all pairs of a map, as received: a list of two slices each, in their
    order. They are found in one walk."""
    data = _bytes(data)[0]
    try:
        found = [pair_spans(kind, data, 0)]
    except Absent:
        if data[0] >> 5 != MajorType.MAP:
            raise
        return []
    while (end := found[-1][1].stop) < len(data) and data[end] != 0xFF:
        name = item_span(data, end)
        found.append((name, item_span(data, name.stop)))
    return found


def label(kind, data, which, name):
    """Returns the value of a label, in its shortest encoding. `name` is an int or a str. `which` is the map:
    IN_PROTECTED, IN_UNPROTECTED or IN_ITEM."""
    if isinstance(name, str):
        return _written(_library.coset_text_label, _kind(kind), *_bytes(data), _number(which), *_bytes(name.encode()))
    return _written(_library.coset_label, _kind(kind), *_bytes(data), _number(which), _int64(name, _LABEL))


def has(kind, data, which, name):
    """Returns True if the map has the label."""
    try:
        label(kind, data, which, name)
    except Absent:
        return False
    return True


def label_bytes(kind, data, which, name):
    """Returns the content of the byte string or text string that is the value of an integer label."""
    return _written(_library.coset_label_bytes, _kind(kind), *_bytes(data), _number(which), _int64(name))


def label_int(kind, data, which, name):
    """Returns the integer that is the value of an integer label."""
    value = ctypes.c_int64()
    _raise(_library.coset_label_int(_kind(kind), *_bytes(data), _number(which), _int64(name), ctypes.byref(value)))
    return value.value


def label_at(kind, data, index):
    """Returns the label of a map's pair, in its shortest encoding. `index` counts the pairs from 0."""
    return _written(_library.coset_label_at, _kind(kind), *_bytes(data), _size(index))


def value_at(kind, data, index):
    """Returns the value of a map's pair, in its shortest encoding. `index` counts the pairs from 0."""
    return _written(_library.coset_value_at, _kind(kind), *_bytes(data), _size(index))


def key_of(data, key_id):
    """Returns the first key of a set with this identifier, in its shortest encoding."""
    return _written(_library.coset_key_of, *_bytes(data), *_bytes(key_id))


def structure(kind, data, index=0, external_aad=b"", detached=None):
    """Returns the structure that is signed (by the signer at `index`), authenticated, or goes with the ciphertext. Its
    payload is the one that the message carries. If the message carries none, it is `detached`; else `detached` is
    None. Raises Misuse for an index other than 0, unless the kind is a SIGN."""
    content = _bytes(b"" if detached is None else detached)
    return _written(
        _library.coset_structure, _kind(kind), *_bytes(data), _size(index), *_bytes(external_aad), detached is not None, *content
    )


def recipient_structure(holder, data, external_aad=b""):
    """Returns the structure that goes with the ciphertext of a recipient, by the kind that contains it: ENCRYPT, MAC or
    RECIPIENT."""
    return _written(_library.coset_recipient_structure, _kind(holder), *_bytes(data), *_bytes(external_aad))


def countersign_structure(kind, data, label, signer=b"", external_aad=b"", detached=None):
    """Returns the structure that a countersignature of a message, a signature or a recipient signs.

    `label` is 7, or 9 for an abbreviated countersignature (RFC 8152, section 4.5 and appendix A.2); or 11, or 12 for
    an abbreviated one (RFC 9338, section 2). `signer` is the content of the countersignature's own protected header.
    An abbreviated countersignature has none. The structure's payload is the payload, ciphertext or signature that
    the item carries. If the item carries none, it is `detached`."""
    given = *_bytes(data), _int64(label), *_bytes(signer), *_bytes(external_aad)
    content = _bytes(b"" if detached is None else detached)
    return _written(_library.coset_countersign_structure, _kind(kind), *given, detached is not None, *content)


# The numbers of _Spans, and a length after them.
_numbers = struct.Struct("@qIIIIIIINNNNNNNN").unpack_from
_LENGTH_AT = ctypes.sizeof(_Spans)
_TEXT_AT = _LENGTH_AT + ctypes.sizeof(ctypes.c_size_t)
# Memory for these numbers and for the usual texts. Each call has its own, since a signal handler may make calls inside of it.
_USUAL = 4096
_Held = ctypes.c_char * (_TEXT_AT + _USUAL)
_message_spans, _made = _library.coset_message_spans, tuple.__new__


def _seen(shape, kind, data, index, critical, external_aad, detached):
    """Returns a Message or a Sign1, as `shape` says. A Sign1 has `has_critical` in place of `critical`."""
    kind = _kind(kind)
    data, data_len = (data, len(data)) if type(data) is bytes else _bytes(data)
    aad, aad_len = (external_aad, len(external_aad)) if type(external_aad) is bytes else _bytes(external_aad)
    content, content_len = (b"", 0) if detached is None else _bytes(detached)
    critical = _integers(critical, "critical")
    known = (ctypes.c_int64 * len(critical))(*critical) if critical else None
    # The structure has all arguments once, with heads. Texts that have no place in the message may follow it.
    room = max(_USUAL, 2 * data_len + aad_len + content_len + 128)
    while True:
        held = _Held() if room == _USUAL else (ctypes.c_char * (_TEXT_AT + room))()
        at = ctypes.addressof(held)
        status = _message_spans(
            kind, data, data_len, index, aad, aad_len, detached is not None, content, content_len, known, len(critical),
            at + _TEXT_AT, room, at + _LENGTH_AT, at,
        )
        if status != _SHORT:
            break
        room = _numbers(held)[-1]
    if status != _OK:
        _raise(status)
    algorithm, form, key_id_map, labels, is_tagged, is_proof, is_content, is_key, signed, at, n, content_at, content_n, key_at, key_n, length = _numbers(held)
    proof = content = key = data
    if not (is_proof and is_content and is_key):
        text = held[_TEXT_AT : _TEXT_AT + length]
        proof, content, key = (data if is_input else text for is_input in (is_proof, is_content, is_key))
    return _made(shape, (
        algorithm if form == INT else None, form, key_id_map or None, labels if shape is Message else labels != NONE, is_tagged != 0,
        held[_TEXT_AT : _TEXT_AT + signed], proof[at : at + n], content[content_at : content_at + content_n], key[key_at : key_at + key_n],
    ))


def sign1(kind, data, external_aad=b"", detached=None):
    """Returns everything that verifying a message with one signature takes: a Sign1. `kind` is SIGN1, with TAGGED,
    EITHER or neither added. The payload is the one that the message carries. If the message carries none, it is
    `detached`; else `detached` is None."""
    if _kind(kind) & 0xFF != SIGN1:
        raise Misuse("a kind of another call")
    return _seen(Sign1, kind, data, 0, (), external_aad, detached)


def message(kind, data, index=0, critical=(), external_aad=b"", detached=None):
    """Returns everything that verifying or decrypting a message takes: a Message. For a message with signers, it is for
    the signer at `index`; for another kind, an index other than 0 is a Misuse. The payload is the one that the message
    carries. If the message carries none, it is `detached`; else `detached` is None. `critical` are the critical labels
    that the caller understands."""
    return _seen(Message, kind, data, _size(index), critical, external_aad, detached)


def _asked(kind, found, algorithms, proof):
    """Returns the question about a message with this proof, or raises an error if the message isn't allowed."""
    if found.critical == NOT_UNDERSTOOD:
        raise Critical("a label that must be understood isn't")
    if found.algorithm is None or found.algorithm not in algorithms:
        raise NotAllowed("the algorithm isn't one that is allowed")
    key_id = found.key_id if found.key_id_map else None
    return Question(found.algorithm, key_id, found.key_id_map, found.input, proof, kind=Kind(kind & 0xFF))


def verify(kind, data, algorithms, verify, index=0, critical=(), external_aad=b"", detached=None):
    """Returns the payload of a message with signatures or a MAC, after `verify` said yes. `kind` is SIGN1, SIGN, MAC0
    or MAC, with TAGGED, EITHER or neither added. Nothing else is checked: for a web token call `verify_token`.

    `verify` returns True if the question's proof is a signature or MAC of its input, by a key that the caller trusts
    for that algorithm. It isn't called for an empty proof, which is refused. No other length of a proof is checked, so
    compare its length with the algorithm's before its bytes.

    `algorithms` are those that are allowed. List only algorithms for that kind: a MAC0's algorithm in a SIGN1's list
    would be accepted. `critical` are the critical labels that the caller understands, and acts on. Those of a MAC's
    recipients aren't looked at.

    For a message with signers, the question is about the signer at `index`. The caller decides which signers are
    enough. A signature may be in the list twice: count keys, not indices. For another kind, an index other than 0 is a
    Misuse."""
    if _kind(kind) & 0xFF not in (SIGN1, SIGN, MAC0, MAC):
        raise Misuse("a kind without a signature or a tag")
    algorithms = _integers(algorithms, "algorithms")
    own = None if detached is None else _bytes(detached)[0]
    found = message(kind, data, index, critical, external_aad, own)
    question = _asked(kind, found, algorithms, found.proof)
    if not found.proof or verify(question) is not True:
        raise Refused("the signature or the tag is refused")
    return found.content if own is None else own


def _found(call, *arguments):
    """Returns the result of the call, or None if it raises Absent."""
    try:
        return call(*arguments)
    except Absent:
        return None


def _in_either(kind, data, name):
    """Returns the content of the string under a label of a message, from the protected header, else from the unprotected
    one, and that header. Both are None if neither has it."""
    for which in (IN_PROTECTED, IN_UNPROTECTED):
        value = _found(label_bytes, kind, data, which, name)
        if value is not None:
            return value, which
    return None, None


def decrypt(kind, data, algorithms, decrypt, critical=(), external_aad=b"", detached=None):
    """Returns the plaintext of an ENCRYPT0, with TAGGED, EITHER or neither added.

    `decrypt` receives the question, whose proof is the ciphertext, with the IV and the partial IV. Their lengths aren't
    checked: the ciphertext may be shorter than a tag. `decrypt` returns the plaintext as bytes, or None or False if the
    ciphertext isn't authentic by a key that the caller trusts. Any other answer is a TypeError. The other arguments are
    those of `verify`.

    Raises WrongHeaders if the message has both an IV and a partial IV (RFC 8152, section 3.1)."""
    if _kind(kind) & 0xFF != ENCRYPT0:
        raise Misuse("a kind of another call")
    algorithms = _integers(algorithms, "algorithms")
    data, own = _bytes(data)[0], None if detached is None else _bytes(detached)[0]
    found = message(kind, data, 0, critical, external_aad, own)
    ciphertext = part(kind, data, CIPHERTEXT) if own is None else own
    (iv, iv_map), (partial_iv, partial_iv_map) = _in_either(kind, data, 5), _in_either(kind, data, 6)
    question = _asked(kind, found, algorithms, ciphertext)
    if iv_map is not None and partial_iv_map is not None:
        _raise(_HEADERS)
    plain = _accepted(
        ENCRYPT0, decrypt(question._replace(iv=iv, partial_iv=partial_iv, iv_map=iv_map, partial_iv_map=partial_iv_map))
    )
    if plain is None:
        raise Refused("the ciphertext is refused")
    return plain


def _array(numbers):
    """Returns the integers as an array, and their number."""
    return (ctypes.c_int64 * len(numbers))(*numbers), len(numbers)


def _texts(names, field):
    """Returns the texts as an array, and their number."""
    names = _list(names, field)
    if not all(isinstance(name, str) for name in names):
        raise TypeError(f"{field} takes texts")
    texts = [name.encode() for name in names]
    return (_Text * len(texts))(*((text, len(text)) for text in texts)), len(texts)


def _flag(value, field):
    """Returns 1 or 0 for True or False."""
    if not isinstance(value, bool):
        raise TypeError(f"{field} is True or False")
    return int(value)


def _seconds(number, field, least):
    """Returns a number of seconds that the library takes."""
    number = _whole(number, field)
    if not least <= number < 1 << 63:
        raise ValueError(f"{field} is a number of seconds from {least} to 2**63 - 1")
    return number


def _moments(now):
    """Returns the whole seconds before and after `now`, or `now` if it is whole. A token must be valid at each of them.
    It is then valid at `now` too, because the moments at which it is valid have no gap."""
    moment = time.time() if now is None else now
    if isinstance(moment, bool) or not isinstance(moment, (int, float)):
        raise TypeError("now is a number of seconds, or None")
    return [_int64(second) for second in sorted({math.floor(moment), math.ceil(moment)})]


def _elements(array):
    """Yields the elements of an array, as received."""
    try:
        number = count(ITEM, array)
    except Empty:
        return
    at = member_span(ITEM, array, 0).start
    for _ in range(number):
        span = item_span(array, at)
        yield array[span]
        at = span.stop


def _string(item):
    """Returns the content of a string."""
    return item[string_span(item)]


def _name(item):
    """Returns the text, or None for null."""
    return None if item == b"\xf6" else _string(item).decode()


def _verified(text):
    """Returns the verified token that the library wrote."""
    claims, audience, others, issuer, layers = _elements(text)
    read = []
    for layer in _elements(layers):
        form, protected, unprotected, vouched = _elements(layer)
        read.append(VerifiedLayer(integer(form), _string(protected), unprotected, _name(vouched)))
    names = tuple(_string(name).decode() for name in _elements(audience))
    return VerifiedToken(claims, names, others, _name(issuer), tuple(read))


def _layer(view, text):
    """Returns the layer that waits."""
    texts, start = [], 0
    for length in (view.structure_len, view.proof_len, view.key_id_len, view.iv_len, view.partial_iv_len):
        texts.append(text[start : start + length])
        start += length
    structure, proof, key_id, iv, partial_iv = texts
    return Layer(
        view.form, view.algorithm, key_id or None, view.key_id_map or None, structure, proof, iv or None, partial_iv or None, view.index
    )


def _issuer(name):
    """Returns the name of an issuer, or None, if it is one of these."""
    if not isinstance(name, (str, type(None))):
        raise TypeError("an issuer's name is a text or None")
    if name == "":
        raise ValueError("an issuer's name is empty")
    return name


def _accepted(form, said):
    """Returns True for a signature or a MAC, the plaintext of a ciphertext, or None for a refusal. Any other answer is
    an error."""
    if said is None or said is False:
        return None
    if form == ENCRYPT0:
        if not isinstance(said, (bytes, bytearray, memoryview)):
            raise TypeError("for a ciphertext the answer is its plaintext as bytes, or None")
        return _bytes(said)[0]
    if said is not True:
        raise TypeError("for a signature or a MAC the answer is True, False or None")
    return True


def _answered(layer, keys):
    """Returns the plaintext of the layer by the answer of `keys`, and the name of an issuer or None. A signature or a MAC
    has no plaintext. Raises InvalidToken if the answer is a refusal, or if a signature or MAC is empty."""
    said, name = None if layer.form != ENCRYPT0 and not layer.proof else keys(layer), None
    if isinstance(said, tuple):
        if len(said) != 2:
            raise TypeError("the answer is one value, or a pair of it and the issuer's name")
        said, name = said[0], _issuer(said[1])
    accepted = _accepted(layer.form, said)
    if accepted is None:
        raise InvalidToken(Status.REFUSED, layer.index, key_id=layer.key_id)
    return b"" if accepted is True else accepted, None if name is None else name.encode()


def _handed(layer, plaintext, name, start):
    """Returns the entry for an opened layer, and its bytes, which begin at `start`."""
    handed = layer.input + layer.proof
    plain = start + len(handed)
    issuer = (0, 0) if name is None else (plain + len(plaintext), len(name))
    held = (plain, len(plaintext)) if layer.form == ENCRYPT0 else (0, 0)
    entry = _Opened(layer.form, start, len(layer.input), len(layer.proof), *held, *issuer)
    return entry, handed + plaintext + (name or b"")


def _token_open(given, data, now, layers, known):
    """Returns the status of the call, the bytes that it wrote, and the view of a layer."""
    length, room, view = ctypes.c_size_t(), 2 * len(data) + 512, _Layer()
    while True:
        out = ctypes.create_string_buffer(room)
        status = _library.coset_token_open(*given, data, len(data), now, (_Opened * len(layers))(*layers), len(layers),
                                           known, len(known), out, room, ctypes.byref(length), ctypes.byref(view))
        if status != _SHORT:
            return status, out[: length.value], view
        room = length.value


def _refuse(status, view):
    """Raises the error of a status other than success."""
    if status == _MISUSE:
        raise Misuse("an algorithm or a required claim isn't assigned, a number has no meaning, or there are audiences with any_audience")
    if status == _MEMORY:
        raise MemoryError
    number = {_NOT_ALLOWED: view.algorithm or None, _MISSING: view.claim}.get(status)
    raise InvalidToken(status, view.index if status in _OF_LAYER else None, number)


def verify_token(data, keys, algorithms, *, audience=(), types=(), required=(), critical=(), leeway=0, max_age=None, untagged_form=SIGN1,
                 authenticated_by=0, any_audience=False, may_not_expire=False, may_be_issued_later=False, now=None):
    """Verifies a web token (RFC 8392) and returns a VerifiedToken.

    - `keys` is a KeyRing. Or it is a function that is called with each Layer. It returns True if a key that fits
      verifies the signature or the MAC. For an ENCRYPT0 it returns the plaintext, as bytes. None or False refuses the
      token. The function may return a pair: one of these, and the name of the key's issuer. It isn't called for an
      empty signature or MAC, which is refused.
    - `algorithms` are the numbers of the allowed algorithms, such as ES256. Each layer must name one of them that is
      for its form.
    - `audience` has the caller's own names. `aud` must contain one of them. If there is none, a token with `aud` is
      refused. `any_audience` leaves the check to the caller, who then compares the result's `audience`.
    - `types` are the accepted types (`typ`, RFC 9596), such as "application/cwt". If there is none, `typ` is ignored,
      and refused if it is critical, unless `critical` has 16.
    - `required` are the numbers of claims that the token must have.
    - `critical` are the critical labels that the caller understands, and acts on.
    - `leeway` is the number of seconds by which the clocks of issuer and verifier may differ.
    - `max_age` is the age in seconds since `iat`, plus `leeway`, at which a token is refused. If it is None, there is no
      such age.
    - `untagged_form` is the form of an outermost layer without a tag.
    - `authenticated_by` says which layers authenticate the sender: 0 for a signature or a MAC, BY_SIGNATURE or BY_ANY.
    - `may_not_expire` accepts a token without `exp`, and `may_be_issued_later` one with an `iat` after `now`.
    - `now` is the time in seconds since 1970 began in UTC, an int or a float. If it is None, it is the clock's time.
      The token must be valid at the whole seconds before and after a float. So it isn't accepted before `nbf` or after
      `exp`, and may be refused up to a second before `exp`.

    Raises InvalidToken if the token is refused. Raises TypeError if `keys` gives another answer, such as no bytes for
    a plaintext. Raises Misuse if an argument has no meaning, such as an unassigned algorithm."""
    if not callable(keys):
        raise TypeError("keys is a KeyRing or a function")
    flags = [_flag(any_audience, "any_audience"), _flag(may_not_expire, "may_not_expire"), _flag(may_be_issued_later, "may_be_issued_later")]
    age = 0 if max_age is None else _seconds(max_age, "max_age", 1)
    forms = [_number(untagged_form, "untagged_form"), _number(authenticated_by, "authenticated_by")]
    rules = _Rules(ctypes.sizeof(_Rules), _seconds(leeway, "leeway", 0), age, *forms, *flags)
    named = {"algorithms": algorithms, "critical": critical, "required": required}
    lists = [it for field, numbers in named.items() for it in _array(_integers(numbers, field))]
    texts = [*_texts(audience, "audience"), *_texts(types, "types")]
    given, data, moments = [ctypes.byref(rules), *lists, *texts], _bytes(data)[0], _moments(now)
    layers, known = [], b""
    while True:
        status, text, view = _token_open(given, data, moments[0], layers, known)
        if status == _LAYER:
            layer = _layer(view, text)
            entry, more = _handed(layer, *_answered(layer, keys), len(known))
            layers.append(entry)
            known += more
        elif status != _OK:
            _refuse(status, view)
        elif len(moments) == 1:
            return _verified(text)
        else:
            moments = moments[1:]


def key_fits(key, layer):
    """Returns the nonce by which a key fits a Layer, or None if it doesn't fit. For an algorithm without a nonce, such
    as a signature's, it is b"". So compare the result with None.

    `key` is a KEY. Its `alg` must be the layer's algorithm. Its type, members and operations must be those that the
    algorithm requires. The layer's IV must have the right length, and its key identifier, if any, must be the key's."""
    out, length = ctypes.create_string_buffer(16), ctypes.c_size_t()
    texts = [b"" if text is None else text for text in (layer.key_id, layer.iv, layer.partial_iv, layer.proof)]
    given = [it for text in texts for it in _bytes(text)]
    status = _library.coset_key_fits(
        *_bytes(key), _number(layer.form, "a form"), _int64(layer.algorithm, "an algorithm"), *given, out, len(out), ctypes.byref(length)
    )
    if status == _UNFIT:
        return None
    _raise(status)
    return out[: length.value]


def readable_keys(keys):
    """Returns a list of the keys of a KEY_SET that can be read, as received (RFC 9052, section 7). Raises Fault if the
    bytes aren't an array, such as a single KEY."""
    found = []
    try:
        elements = list(_elements(_bytes(keys)[0]))
    except Absent:
        raise Fault(Status.UNEXPECTED, None, "a COSE_KeySet is needed, an array of keys") from None
    for key in elements:
        try:
            check(KEY, key)
        except Fault:
            continue
        found.append(key)
    return found


class KeyRing:
    """The keys of issuers, for `verify_token`. It says whose key accepted a layer.

    A layer is compared with each key of the ring. If it names a key identifier, only keys with that identifier are
    decoded. At most MOST_TRIES keys that fit are tried.

    `issuers` is a dict, or pairs: for each issuer's name, as in `iss`, a KEY_SET. The name None is for an issuer whose
    tokens have no `iss`. Keys that can't be read are skipped (RFC 9052, section 7).

    `ciphers` has two methods, as `coset.crypto.CIPHERS`, which is the default and needs the package `cryptography`:
    - `verify(key, algorithm, input, proof)` returns True if the proof is a signature or a MAC of the input, else
      False or None.
    - `decrypt(key, algorithm, nonce, aad, ciphertext)` returns the plaintext, or None if the ciphertext isn't
      authentic.

    They are called only with a KEY that fits the layer (`key_fits`)."""

    def __init__(self, issuers, ciphers=None):
        if ciphers is None:
            from coset.crypto import CIPHERS as ciphers
        self._ciphers, self._keys = ciphers, []
        for name, keys in _pairs(issuers, "issuers are a dict, or tuples of a name and a COSE_KeySet"):
            self._keys += [(_issuer(name), key, _found(label_bytes, KEY, key, IN_ITEM, 2)) for key in readable_keys(keys)]

    def __call__(self, layer):
        """Tries each key that fits the layer, in order, and MOST_TRIES keys at most. Returns True or the plaintext, with
        the name of the key's issuer; or None if each of them is refused. Raises InvalidToken, with UNFIT, if no key
        fits, and with TOO_MANY_KEYS if those that it tried are refused, and more fit."""
        named, tries = None if layer.key_id is None else _bytes(layer.key_id)[0] or None, 0
        for name, key, key_id in self._keys:
            if named is not None and key_id != named:
                continue
            nonce = key_fits(key, layer)
            if nonce is None:
                continue
            if tries == MOST_TRIES:
                raise InvalidToken(Status.TOO_MANY_KEYS, layer.index, key_id=named)
            tries += 1
            if layer.form == ENCRYPT0:
                said = self._ciphers.decrypt(key, layer.algorithm, nonce, layer.input, layer.proof)
            else:
                said = self._ciphers.verify(key, layer.algorithm, layer.input, layer.proof)
            said = _accepted(layer.form, said)
            if said is not None:
                return said, name
        if not tries:
            raise InvalidToken(Status.UNFIT, layer.index, key_id=named)
        return None


def version():
    """Returns the version of the library, followed by ` (unproved)` if it was built without a proof."""
    return _library.coset_version().decode()


def version_number():
    """Returns the version of the library with a byte for each of its four numbers, such as 0x00040207."""
    return _library.coset_version_number()


def status_text(status):
    """Returns a few words for a status of the header. Other integers share one text."""
    status = _whole(status, "a status")
    return _library.coset_status_text(status if 0 <= status < 1 << 31 else -1).decode()


def put(kind, data, name, value):
    """Returns the header, key or claims set, which may be empty, with one more pair at its end. The pair is a label, an
    int or a str, and an int, a float, a str, bytes, or an Encoded. True and False are no integers of CBOR: `put_encoded`
    takes them, as b"\\xf5" and b"\\xf4"."""
    if isinstance(value, bool):
        raise TypeError("True and False are no integers of CBOR: put_encoded takes their encodings")
    if isinstance(name, str) or isinstance(value, Encoded):
        return put_all(kind, data, [(name, value)])
    given = _kind(kind), *_bytes(data), _int64(name, _LABEL)
    if isinstance(value, int):
        return _written(_library.coset_put_int, *given, _int64(value))
    if isinstance(value, float):
        return _written(_library.coset_put, *given, *_bytes(_encoded_float(value)))
    if isinstance(value, str):
        return _written(_library.coset_put_text, *given, *_bytes(value.encode()))
    return _written(_library.coset_put_bytes, *given, *_bytes(value))


def put_encoded(kind, data, name, value):
    """Returns such a map with one more pair: a label, an int or a str, and a value as its encoding, one item of
    CBOR."""
    if isinstance(name, str):
        return _written(_library.coset_put_text_label, _kind(kind), *_bytes(data), *_bytes(name.encode()), *_bytes(value))
    return _written(_library.coset_put, _kind(kind), *_bytes(data), _int64(name, _LABEL), *_bytes(value))


def _encoded_float(value):
    """Returns a float in its shortest encoding (RFC 8949, section 4.2.2)."""
    if math.isnan(value):
        return b"\xf9\x7e\0"
    for first, form in (0xF9, ">e"), (0xFA, ">f"):
        try:
            bits = struct.pack(form, value)
        except OverflowError:
            continue
        if struct.unpack(form, bits)[0] == value:
            return bytes([first]) + bits
    return b"\xfb" + struct.pack(">d", value)


class Encoded(bytes):
    """A value for `put_all` as its encoding, one item of CBOR."""

    __slots__ = ()

    def __new__(cls, data):
        """Takes bytes alone. From an integer, `bytes` makes so many zeros."""
        return super().__new__(cls, _bytes(data)[0])


def _part(data, parts):
    """Appends the bytes to the parts. Returns their offset and their number."""
    at = len(parts)
    parts += data
    return at, len(parts) - at


def _pair(name, value, parts):
    """Returns the struct of a pair, and appends its texts and bytes to the parts."""
    pair = _Pair()
    if isinstance(name, str):
        pair.label_form, (pair.label_at, pair.label_len) = TEXT, _part(name.encode(), parts)
    else:
        pair.label_form, pair.label = INT, _int64(name, _LABEL)
    if isinstance(value, bool):
        raise TypeError("True and False are no integers of CBOR: Encoded takes their encodings")
    if isinstance(value, int):
        pair.value_form, pair.value = INT, _int64(value)
    elif isinstance(value, float):
        pair.value_form, (pair.value_at, pair.value_len) = ENCODED, _part(_encoded_float(value), parts)
    elif isinstance(value, str):
        pair.value_form, (pair.value_at, pair.value_len) = TEXT, _part(value.encode(), parts)
    else:
        form = ENCODED if isinstance(value, Encoded) else BYTES
        pair.value_form, (pair.value_at, pair.value_len) = form, _part(_bytes(value)[0], parts)
    return pair


def put_all(kind, data, pairs):
    """Returns the header, key or claims set, which may be empty, with these pairs at its end, in order, in one call.
    `pairs` is a dict, or labels with values. A label is an int or a str. A value is an int, a float, a str, bytes, or
    Encoded, one item of CBOR."""
    parts = bytearray()
    told = [_pair(name, value, parts) for name, value in _pairs(pairs)]
    return _written(_library.coset_put_all, _kind(kind), *_bytes(data), (_Pair * len(told))(*told), len(told), *_bytes(parts))


def structure_of(kind, protected, content=b"", signer=b"", external_aad=b""):
    """Does the same as `structure` for a message that isn't made yet. `protected` is its protected header. `content` is
    the payload; a structure that goes with a ciphertext has none. `signer` is the signer's protected header, for
    SIGN alone."""
    return _written(
        _library.coset_structure_of, _kind(kind), *_bytes(protected), *_bytes(signer), *_bytes(external_aad), *_bytes(content)
    )


def recipient_structure_of(holder, protected, external_aad=b""):
    """Does the same as `recipient_structure` for a recipient that isn't made yet, from its protected header."""
    return _written(_library.coset_recipient_structure_of, _kind(holder), *_bytes(protected), *_bytes(external_aad))


def make(kind, protected, unprotected, content=None, proof=b""):
    """Makes a message, a signature or a recipient from its headers, its content, and its signature or tag. The content
    is the payload or the ciphertext, or None if that is detached. A message with signers or recipients is made
    without them."""
    held = _bytes(b"" if content is None else content)
    return _written(
        _library.coset_make, _kind(kind), *_bytes(protected), *_bytes(unprotected), content is not None, *held, *_bytes(proof)
    )


def add(kind, data, item):
    """Returns the item with one more signature, recipient, key or element at the end. A set of keys or an array may
    begin with no bytes."""
    return _written(_library.coset_add, _kind(kind), *_bytes(data), *_bytes(item))


def write(kind, data):
    """Returns the item in its shortest encoding."""
    return _written(_library.coset_write, _kind(kind), *_bytes(data))


def canonical_key(order, data):
    """Returns the key in its shortest encoding, with its labels in this order: LEXICOGRAPHIC or LENGTH_FIRST."""
    return _written(_library.coset_canonical_key, _number(order), *_bytes(data))


# The public names: those of this module, without the modules that it imports.
__all__ = [
    name for name, it in globals().items()
    if name[0] != "_" and not isinstance(it, type(os)) and getattr(it, "__module__", __name__) == __name__
]
