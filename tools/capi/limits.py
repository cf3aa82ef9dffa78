"""Makes the tables of docs/C.md with the stack and memory that calls from C take, which `tools/c --limits` measures
(c/wrappers/c/limits.c). Each number there is a bound: the greatest over all calls with that input, rounded up."""
import itertools
import os
import subprocess
import sys

from capi.kinds import ABSENT, EITHER, MEMORY, MISUSE, OK, number_of
from cbor import byte_string, head
from sources import HERE

sys.path.append(f"{HERE}/crates/tool_bench")
import hostile  # noqa: E402

SIGN1, SIGN, MAC, RECIPIENT, KEY_SET = map(number_of, ("sign1", "sign", "mac", "recipient", "keyset"))
CALLS = {SIGN1: "check part label structure detached countersigned sign1 message spans token write",
         SIGN: "check count member structure countersigned message spans write",
         MAC: "check count member structure countersigned message spans write",
         RECIPIENT: "check count member recipient_structure countersigned add write",
         KEY_SET: "check count member write"}


def levels(count):
    """Returns a message whose unprotected header has a value of `count` nested arrays."""
    return hostile.message(b"", head(5, 1) + head(0, 70) + head(4, 1) * (count - 1) + head(4, 0))


def headers(count):
    """Returns a message with `count` nested headers.

    Each is the unprotected header of a counter signature in the one before."""
    return hostile.message(b"", hostile.nested(count - 1, head(5, 0), itertools.cycle([7])))


def protected(count, around=0):
    """Returns a message with `count` nested protected headers, each inside `around` more unprotected headers."""
    content = b""
    for _ in range(count - 1):
        content = hostile.nested(around, hostile.with_counter_signature(7, content, head(5, 0)), itertools.cycle([7]))
    return hostile.message(content, head(5, 0))


def recipients(count):
    """Returns `count` nested recipients."""
    return hostile.recipients(count, b"", b"\xf6")


def nesting(program, token):
    """Yields the rows of the table of stack: what nests, how deep, and the inputs with their kinds."""
    yield "a signed token (RFC 8392, appendix A.3)", [""], [(SIGN1 + EITHER, token)]
    counts = (16, 64, 128)
    yield "arrays in the value of a label", [*counts, 254], [(SIGN1, levels(n)) for n in (*counts, 254)]
    counts = (2, 16, 64, 127)
    yield "headers, each of a counter signature of the one before", counts, [(SIGN1, headers(n)) for n in counts]
    counts = (2, 4, 8, 16)
    yield "protected headers, each in a counter signature of the one before", counts, [(SIGN1, protected(n)) for n in counts]
    counts = (2, 16, 64, 128)
    yield "recipients", counts, [(RECIPIENT, recipients(n)) for n in counts]
    counts = (2, 4, 8, 16)
    yield "protected headers, each in the innermost of 127 headers", counts, [(SIGN1, protected(n, 126)) for n in counts]
    yield "128 recipients, the innermost with such protected headers", [16], [(RECIPIENT, hostile.nests([7])["recipients"])]
    counts = (16, 32, 64)
    yield "any of these, of so many levels as `coset_is_deeper` counts", counts, [shallow(program, most) for most in counts]


def is_deeper(program, data, most):
    """Returns the result of coset_is_deeper."""
    ran = subprocess.run([program], input=f"deeper {most} {data.hex()}\n", capture_output=True, text=True, check=True)
    return ran.stdout.split()[0] == "1"


def shallow(program, most):
    """Returns the deepest input of each kind for which `coset_is_deeper` is false."""
    kinds = [(SIGN1, levels), (SIGN1, headers), (SIGN1, protected), (RECIPIENT, recipients)]
    kinds += [(SIGN1, lambda count, around=around: protected(count, around)) for around in (1, 2, 4)]
    found = []
    for kind, make in kinds:
        inputs = map(make, range(1, min(most, 17 if make is protected else most)))
        found.append((kind, [data for data in inputs if not is_deeper(program, data, most)][-1]))
    return found


def list_of(start, member, count):
    """Returns `start`, followed by an array of `count` members."""
    return start + head(4, count) + member * count


def amounts(token):
    """Yields the rows of the table of memory: the name of the input, its kind, and its bytes."""
    key = b"\xa3\x01\x04\x02" + byte_string(b"a key's id") + b"\x20" + byte_string(bytes(32))
    payload = byte_string(bytes(10**6))
    signers, recipients_of = b"\x84\x40\xa0\xf6", b"\x85\x40\xa0\xf6\x40"
    signer, recipient, integers = b"\x83\x40\xa0\x40", b"\x83\x40\xa0\xf6", b"\xa1\x18\x46"
    yield "a signed token (RFC 8392, appendix A.3)", SIGN1 + EITHER, token
    yield "a message with a payload of 1 MB", SIGN1, b"\x84\x43\xa1\x01\x26\xa0" + payload + byte_string(bytes(64))
    yield "a set of 100 keys, each with an identifier and 32 bytes", KEY_SET, head(4, 100) + 100 * key
    for count in (10**4, 10**6):
        header = list_of(integers, b"\x00", count)
        yield f"an array of {count:,} small integers in a header", SIGN1, hostile.message(b"", header)
    yield "333,000 keys with nothing but their type", KEY_SET, list_of(b"", b"\xa1\x01\x04", 333_000)
    for count in (2_500, 250_000):
        yield f"{count:,} signers with nothing in them", SIGN, list_of(signers, signer, count)
    yield "4,097 recipients with nothing in them", MAC, list_of(recipients_of, recipient, 4_097)


def told(program, kind, data, **more):
    """Returns for each call with that input its status, the bytes of stack, the most bytes of memory at once, and the number of
    allocations."""
    lines = "".join(f"{call} {kind} {data.hex()}\n" for call in CALLS[kind & 0xFF].split())
    ran = subprocess.run([program], input=lines, capture_output=True, text=True, check=False, **more)
    if ran.returncode:
        sys.exit(f"limits: {ran.returncode} {ran.stderr[-1000:]}")
    found = [tuple(map(int, line.split())) for line in ran.stdout.splitlines()]
    if any(it[0] < 0 or not it[1] for it in found):
        sys.exit(f"limits: a call isn't known, or its thread didn't start: {found}")
    return found


def measured(program, kind, data):
    """Returns the most status, stack, memory and allocations of any call with that input."""
    return [max(column) for column in zip(*told(program, kind, data))]


def refusals(program, token, check):
    """Lets the program's heap refuse each allocation of each call with the token in turn.

    A call must then return COSET_MEMORY, or the same as with enough memory. The program itself checks that everything is
    freed. Returns the number of allocations."""
    ample = told(program, SIGN1 + EITHER, token)
    is_used = any(it[3] for it in ample)
    check(is_used and all(it[0] in (OK, ABSENT, MISUSE) for it in ample), f"over a heap of the program's own: {ample}")
    # The token's headers are plain. Only `message` allocates, the structure alone.
    requests = dict(zip(CALLS[SIGN1].split(), (it[3] for it in ample)))
    for call, allowed in {"check": 0, "spans": 0, "message": 1}.items():
        check(requests[call] == allowed, f"requests for memory of {call} with plain headers: {requests[call]}, not {allowed}")
    for number in range(1, max(it[3] for it in ample) + 1):
        for now, then in zip(told(program, SIGN1 + EITHER, token, env={**os.environ, "REFUSE": str(number)}), ample):
            is_right = now[0] == then[0] or now[0] == MEMORY and then[3] >= number
            check(is_right, f"over a heap of the program's own: {now} and {then}")
    return sum(it[3] for it in ample)


def rounded(number, step):
    return -(-number // step) * step


def spelled(number, up=True):
    """Returns a number of bytes in words, with two digits. It is rounded up, or to the nearest if `up` is false."""
    unit = 10 ** max(0, len(str(number)) - 2)
    number = rounded(number, unit) if up else (number + unit // 2) // unit * unit
    for unit, name in ((10**6, "MB"), (10**3, "kB")):
        if number >= unit:
            return f"{number / unit:.{1 if number < 10 * unit else 0}f} {name}"
    return f"{number} bytes"


def tables(program, token):
    """Yields the lines of the two tables, as docs/C.md has them."""
    yield "| Inside one another | How many | kB of stack |"
    yield "|---|---|---|"
    for name, counts, inputs in nesting(program, token):
        each = [inputs_of if isinstance(inputs_of, list) else [inputs_of] for inputs_of in inputs]
        took = [rounded(max(measured(program, kind, data)[1] for kind, data in them), 4096) // 1024 for them in each]
        yield f"| {name} | {', '.join(map(str, counts))} | {', '.join(map(str, took))} |"
    yield ""
    yield "| Input | Its length | Memory at once | Requests | Times its length |"
    yield "|---|---|---|---|---|"
    for name, kind, data in amounts(token):
        _, _, most, requests = measured(program, kind, data)
        yield f"| {name} | {spelled(len(data), up=False)} | {spelled(most)} | {requests} | {most / len(data):.0f} |"
