"""Tests that the memory of a call belongs to the call. A trace function and a signal handler make calls inside of calls, at any
place of the wrapper. And callers change their buffers during a call."""
import hashlib
import hmac
import signal
import sys
import time

import coset
from coset.crypto import CIPHERS

KEY = bytes(range(32))


def is_good(question):
    return hmac.compare_digest(question.proof, hashlib.sha256(KEY + question.input).digest())


def signed(payload, of=None):
    """Returns a message with this payload, and the signature of a message with the payload `of`."""
    over = coset.structure_of(coset.SIGN1, b"\xa1\x01\x26", payload if of is None else of)
    return coset.make(coset.SIGN1, b"\xa1\x01\x26", b"\xa1\x04\x41k", payload, hashlib.sha256(KEY + over).digest())


def token(subject, of=None):
    """Returns a token with this subject, and the MAC of a token with the subject `of`."""
    head, claims = b"\xa1\x01\x05", [coset.put_all(coset.CLAIMS, b"", {2: it or subject, 4: 2000}) for it in (subject, of)]
    mac = hmac.digest(KEY, coset.structure_of(coset.MAC0, head, claims[1]), "sha256")
    return coset.make(coset.MAC0 + coset.TAGGED, head, b"", claims[0], mac)


HONEST, FORGED = signed(b"pay 1 to ann"), signed(b"pay 9 to eve", b"pay 1 to ann")
HONEST_TOKEN, FORGED_TOKEN = token("ann"), token("eve", "ann")
RING = coset.KeyRing({None: coset.add(coset.KEY_SET, b"", coset.put_all(coset.KEY, b"", {1: 4, 3: 5, -1: KEY}))}, CIPHERS)
SEALED = coset.make(coset.ENCRYPT0, b"\xa1\x01\x01", b"\xa1\x05\x4c" + bytes(12), b"ciphertext", b"")
DETACHED = coset.make(coset.SIGN1, b"\xa1\x01\x26", b"", None, coset.part(coset.SIGN1, HONEST, coset.PROOF))


def verify_token(data):
    return coset.verify_token(data, RING, [5], now=1000.5)


# The calls whose results are compared with their results alone.
OUTER = [
    lambda: coset.verify(coset.SIGN1, FORGED, [-7], is_good),
    lambda: coset.verify(coset.SIGN1, HONEST, [-7], is_good),
    lambda: coset.verify(coset.SIGN1, DETACHED, [-7], is_good, detached=b"pay 1 to ann"),
    lambda: coset.sign1(coset.SIGN1, FORGED),
    lambda: coset.message(coset.SIGN1, FORGED, critical=[1]),
    lambda: coset.decrypt(coset.ENCRYPT0, SEALED, [1], lambda question: question.input + question.proof + question.iv),
    lambda: verify_token(FORGED_TOKEN),
    lambda: verify_token(HONEST_TOKEN),
    lambda: coset.part(coset.SIGN1, FORGED, coset.PAYLOAD),
    lambda: coset.label_int(coset.SIGN1, FORGED, coset.IN_PROTECTED, 1),
    lambda: coset.pair_spans(coset.ITEM, b"\xa1\x01\x02", 0),
    lambda: coset.put_all(coset.HEADER, b"", {1: -7, 4: b"key"}),
    lambda: coset.check(coset.SIGN1, FORGED[:-1]),
]
INNER = [
    lambda: coset.sign1(coset.SIGN1, HONEST),
    lambda: coset.verify(coset.SIGN1, HONEST, [-7], is_good),
    lambda: verify_token(HONEST_TOKEN),
    lambda: coset.label(coset.SIGN1, HONEST, coset.IN_UNPROTECTED, 4),
]


def result(call):
    """Returns the result of a call, or the error that it raises, in words."""
    try:
        return repr(call())
    except Exception as error:
        return repr(error)


ALONE = [result(call) for call in OUTER]
assert "Refused" in ALONE[0] and ALONE[1] == repr(b"pay 1 to ann") and "REFUSED" in ALONE[6] and "VerifiedToken" in ALONE[7]


def traced(call, inner):
    """Returns the result of a call with `inner` called before each opcode of the wrapper, and how often that was."""
    count = 0

    def trace(frame, event, _):
        nonlocal count
        if not frame.f_code.co_filename.startswith(coset.__path__[0]):
            return None
        frame.f_trace_opcodes = True
        count += 1
        inner()
        return trace

    sys.settrace(trace)
    try:
        return result(call), count
    finally:
        sys.settrace(None)


inside = 0
for call, alone in zip(OUTER, ALONE):
    for inner in INNER:
        found, count = traced(call, inner)
        assert found == alone, f"with a call inside: {found} and not {alone}"
        inside += count
        assert count > 10

signals, verifications = 0, 0


def interrupt(*_):
    global signals
    INNER[signals % len(INNER)]()
    signals += 1


signal.signal(signal.SIGVTALRM, interrupt)
signal.setitimer(signal.ITIMER_VIRTUAL, 0.0002, 0.0002)
end = time.process_time() + 3
while time.process_time() < end:
    for call, alone in zip(OUTER[:8], ALONE):
        found = result(call)
        assert found == alone, f"with a signal: {found} and not {alone}"
        verifications += 1
signal.setitimer(signal.ITIMER_VIRTUAL, 0)
assert signals > 100, signals

# A buffer that the caller changes while the signature is verified isn't returned.
content, whole = bytearray(b"pay 1 to ann"), bytearray(HONEST)


def changing(question):
    content[:], whole[:] = b"pay 9 to eve", FORGED
    return is_good(question)


assert coset.verify(coset.SIGN1, DETACHED, [-7], changing, detached=content) == b"pay 1 to ann"
content[:], whole[:] = b"pay 1 to ann", HONEST
assert coset.verify(coset.SIGN1, whole, [-7], changing) == b"pay 1 to ann" and bytes(content) == b"pay 9 to eve"
data = bytearray(HONEST_TOKEN)


def changing_keys(layer):
    data[:] = FORGED_TOKEN
    return RING(layer)


assert verify_token(HONEST_TOKEN) == coset.verify_token(data, changing_keys, [5], now=1000) and bytes(data) == FORGED_TOKEN
print(f"calls inside of calls {inside}, interrupted {signals} times in {verifications} calls")
