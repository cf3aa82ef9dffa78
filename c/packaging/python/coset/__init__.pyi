from collections.abc import Callable, Collection, Iterable, Mapping
from enum import IntEnum
from typing import NamedTuple, Protocol

_Bytes = bytes | bytearray | memoryview

class Kind(IntEnum):
    SIGN1 = 1
    SIGN = 2
    MAC0 = 3
    MAC = 4
    ENCRYPT0 = 5
    ENCRYPT = 6
    SIGNATURE = 7
    RECIPIENT = 8
    HEADER = 9
    KEY = 10
    KEY_SET = 11
    CLAIMS = 12
    ITEM = 13
    KDF_CONTEXT = 14
    SIGN1_TAGGED = 257
    SIGN_TAGGED = 258
    MAC0_TAGGED = 259
    MAC_TAGGED = 260
    ENCRYPT0_TAGGED = 261
    ENCRYPT_TAGGED = 262
    SIGN1_EITHER = 513
    SIGN_EITHER = 514
    MAC0_EITHER = 515
    MAC_EITHER = 516
    ENCRYPT0_EITHER = 517
    ENCRYPT_EITHER = 518

SIGN1: Kind
SIGN: Kind
MAC0: Kind
MAC: Kind
ENCRYPT0: Kind
ENCRYPT: Kind
SIGNATURE: Kind
RECIPIENT: Kind
HEADER: Kind
KEY: Kind
KEY_SET: Kind
CLAIMS: Kind
ITEM: Kind
KDF_CONTEXT: Kind
TAGGED: int
EITHER: int
PROTECTED: int
PAYLOAD: int
CIPHERTEXT: int
PROOF: int
IN_PROTECTED: int
IN_UNPROTECTED: int
IN_ITEM: int
LEXICOGRAPHIC: int
LENGTH_FIRST: int
NONE: int
INT: int
TEXT: int
BYTES: int
ENCODED: int
UNDERSTOOD: int
NOT_UNDERSTOOD: int
BY_SIGNATURE: int
BY_ANY: int
MOST_TRIES: int
ES256: int
ES384: int
ES512: int
ES256K: int
ESP256: int
ESP384: int
ESP512: int
EDDSA: int
ED25519: int
ED448: int
PS256: int
PS384: int
PS512: int
RS256: int
RS384: int
RS512: int
HMAC_256_64: int
HMAC_256_256: int
HMAC_384_384: int
HMAC_512_512: int
A128GCM: int
A192GCM: int
A256GCM: int
CHACHA20_POLY1305: int
AES_CCM_16_64_128: int
AES_CCM_16_64_256: int
AES_CCM_64_64_128: int
AES_CCM_64_64_256: int
AES_CCM_16_128_128: int
AES_CCM_16_128_256: int
AES_CCM_64_128_128: int
AES_CCM_64_128_256: int

class Status(IntEnum):
    OK = 0
    SHORT = 1
    MEMORY = 2
    ENDS = 3
    MALFORMED = 4
    DEEP = 5
    EXTRANEOUS = 6
    UNEXPECTED = 7
    DUPLICATE = 8
    OUT_OF_RANGE = 9
    UNREGISTERED = 10
    NOT_PRIVATE = 11
    ABSENT = 12
    MISUSE = 13
    TYPE = 14
    EMPTY = 15
    NOT_ALLOWED = 16
    CRITICAL = 17
    REFUSED = 18
    LAYER = 19
    TOO_DEEP = 20
    UNAUTHENTICATED = 21
    NOT_CLAIMS = 22
    NO_EXPIRATION = 23
    EXPIRED = 24
    NOT_YET_VALID = 25
    ISSUED_LATER = 26
    TOO_OLD = 27
    ISSUER = 28
    AUDIENCE = 29
    HEADERS = 30
    TOKEN_TYPE = 31
    HEADER_CLAIMS = 32
    MISSING = 33
    UNFIT = 34
    TOO_MANY_KEYS = 35

class Fault(ValueError):
    status: int
    offset: int | None
    text: str | None
    def __init__(self, status: int, offset: int | None = None, text: str | None = None) -> None: ...

class Absent(LookupError): ...
class Empty(LookupError): ...
class WrongType(TypeError): ...
class Misuse(TypeError): ...
class Refused(Exception): ...
class NotAllowed(Refused): ...
class Critical(Refused): ...
class WrongHeaders(Refused): ...

class InvalidToken(Exception):
    reason: Status
    layer: int | None
    number: int | None
    key_id: bytes | None
    def __init__(
        self, reason: int, layer: int | None = None, number: int | None = None, key_id: bytes | None = None
    ) -> None: ...

class Layer(NamedTuple):
    form: int
    algorithm: int
    key_id: bytes | None
    key_id_map: int | None
    input: bytes
    proof: bytes
    iv: bytes | None
    partial_iv: bytes | None
    index: int  # type: ignore[assignment]

class VerifiedLayer(NamedTuple):
    form: int
    protected: bytes
    unprotected: bytes
    issuer: str | None

class VerifiedToken(NamedTuple):
    claims: bytes
    audience: tuple[str, ...]
    others: bytes
    issuer: str | None
    layers: tuple[VerifiedLayer, ...]

class Question(NamedTuple):
    algorithm: int
    key_id: bytes | None
    key_id_map: int | None
    input: bytes
    proof: bytes
    iv: bytes | None = None
    partial_iv: bytes | None = None
    iv_map: int | None = None
    partial_iv_map: int | None = None
    kind: Kind | None = None

class Message(NamedTuple):
    algorithm: int | None
    algorithm_form: int
    key_id_map: int | None
    critical: int
    is_tagged: bool
    input: bytes
    proof: bytes
    content: bytes
    key_id: bytes

class Sign1(NamedTuple):
    algorithm: int | None
    algorithm_form: int
    key_id_map: int | None
    has_critical: bool
    is_tagged: bool
    signed: bytes
    signature: bytes
    payload: bytes
    key_id: bytes

def check(kind: int, data: _Bytes) -> None: ...
def count(kind: int, data: _Bytes) -> int: ...
def part(kind: int, data: _Bytes, which: int) -> bytes: ...
def member(kind: int, data: _Bytes, index: int) -> bytes: ...
def member_span(kind: int, data: _Bytes, index: int) -> slice: ...
def label_span(kind: int, data: _Bytes, which: int, name: int) -> slice: ...
def item_span(data: _Bytes, at: int) -> slice: ...
def string_span(data: _Bytes) -> slice: ...
def integer(data: _Bytes) -> int: ...
def pair_spans(kind: int, data: _Bytes, index: int) -> tuple[slice, slice]: ...
def map_spans(kind: int, data: _Bytes) -> list[tuple[slice, slice]]: ...

class MajorType(IntEnum):
    UNSIGNED = 0
    NEGATIVE = 1
    BYTE_STRING = 2
    TEXT_STRING = 3
    ARRAY = 4
    MAP = 5
    TAG = 6
    SIMPLE = 7

def major_type(data: _Bytes) -> MajorType: ...
def simple_value(data: _Bytes) -> bool | None: ...
def float_value(data: _Bytes) -> float: ...
def label(kind: int, data: _Bytes, which: int, name: int | str) -> bytes: ...
def has(kind: int, data: _Bytes, which: int, name: int | str) -> bool: ...
def label_bytes(kind: int, data: _Bytes, which: int, name: int) -> bytes: ...
def label_int(kind: int, data: _Bytes, which: int, name: int) -> int: ...
def label_at(kind: int, data: _Bytes, index: int) -> bytes: ...
def value_at(kind: int, data: _Bytes, index: int) -> bytes: ...
def key_of(data: _Bytes, key_id: _Bytes) -> bytes: ...
def structure(
    kind: int, data: _Bytes, index: int = 0, external_aad: _Bytes = b"", detached: _Bytes | None = None
) -> bytes: ...
def recipient_structure(holder: int, data: _Bytes, external_aad: _Bytes = b"") -> bytes: ...
def countersign_structure(
    kind: int,
    data: _Bytes,
    label: int,
    signer: _Bytes = b"",
    external_aad: _Bytes = b"",
    detached: _Bytes | None = None,
) -> bytes: ...
def sign1(kind: int, data: _Bytes, external_aad: _Bytes = b"", detached: _Bytes | None = None) -> Sign1: ...
def message(
    kind: int,
    data: _Bytes,
    index: int = 0,
    critical: Collection[int] = (),
    external_aad: _Bytes = b"",
    detached: _Bytes | None = None,
) -> Message: ...
def verify(
    kind: int,
    data: _Bytes,
    algorithms: Collection[int],
    verify: Callable[[Question], bool],
    index: int = 0,
    critical: Collection[int] = (),
    external_aad: _Bytes = b"",
    detached: _Bytes | None = None,
) -> bytes: ...
def decrypt(
    kind: int,
    data: _Bytes,
    algorithms: Collection[int],
    decrypt: Callable[[Question], bytes | None],
    critical: Collection[int] = (),
    external_aad: _Bytes = b"",
    detached: _Bytes | None = None,
) -> bytes: ...
_Said = bool | _Bytes | None

class _Ciphers(Protocol):
    def verify(self, key: bytes, algorithm: int, input: bytes, proof: bytes) -> bool | None: ...
    def decrypt(self, key: bytes, algorithm: int, nonce: bytes, aad: bytes, ciphertext: bytes) -> _Bytes | None: ...

class KeyRing:
    def __init__(
        self,
        issuers: Mapping[str, _Bytes] | Mapping[str | None, _Bytes] | Iterable[tuple[str | None, _Bytes]],
        ciphers: _Ciphers | None = None,
    ) -> None: ...
    def __call__(self, layer: Layer) -> tuple[bool | bytes, str | None] | None: ...

def verify_token(
    data: _Bytes,
    keys: Callable[[Layer], _Said | tuple[_Said, str | None]],
    algorithms: Iterable[int],
    *,
    audience: Iterable[str] = (),
    types: Iterable[str] = (),
    required: Iterable[int] = (),
    critical: Iterable[int] = (),
    leeway: int = 0,
    max_age: int | None = None,
    untagged_form: int = ...,
    authenticated_by: int = 0,
    any_audience: bool = False,
    may_not_expire: bool = False,
    may_be_issued_later: bool = False,
    now: float | None = None,
) -> VerifiedToken: ...
def key_fits(key: _Bytes, layer: Layer) -> bytes | None: ...
def readable_keys(keys: _Bytes) -> list[bytes]: ...
def version() -> str: ...
def version_number() -> int: ...
def status_text(status: int) -> str: ...
def put(kind: int, data: _Bytes, name: int | str, value: int | float | str | _Bytes) -> bytes: ...
def put_encoded(kind: int, data: _Bytes, name: int | str, value: _Bytes) -> bytes: ...
class Encoded(bytes):
    def __new__(cls, data: _Bytes) -> "Encoded": ...
def put_all(
    kind: int,
    data: _Bytes,
    pairs: Mapping[int | str, int | float | str | _Bytes] | Iterable[tuple[int | str, int | float | str | _Bytes]],
) -> bytes: ...
def structure_of(
    kind: int, protected: _Bytes, content: _Bytes = b"", signer: _Bytes = b"", external_aad: _Bytes = b""
) -> bytes: ...
def recipient_structure_of(holder: int, protected: _Bytes, external_aad: _Bytes = b"") -> bytes: ...
def make(
    kind: int, protected: _Bytes, unprotected: _Bytes, content: _Bytes | None = None, proof: _Bytes = b""
) -> bytes: ...
def add(kind: int, data: _Bytes, item: _Bytes) -> bytes: ...
def write(kind: int, data: _Bytes) -> bytes: ...
def canonical_key(order: int, data: _Bytes) -> bytes: ...
