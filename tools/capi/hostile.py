"""Hostile input through the wrappers: the items that nest deepest, and rows with damaged bytes. The results must be those of the
program in C, whose calls the other files check. A call of JavaScript may also lack stack."""
import random
import tempfile

from capi import attack, calling, memory, openers
from capi.kinds import EITHER, MEMORY, NAMES, OK, SHORT, TAGGED
from capi.vectors import token

SEED, DAMAGED = 20_261_201, 3000
ROOM = 600
# The arguments of calls for a message. The algorithms and labels are those of the rows.
MESSAGE, ALGORITHMS = [0, b"", 0, b"", "-7,2"], "-7,1,5,10,-8,24"
OF_ITEM = (("label", [3, 1]), ("label_int", [3, 3]), ("label_bytes", [3, 2]), ("count", []), ("map_spans", []), ("write", []),
           ("label_at", [0]), ("value_at", [1]), ("pair_spans", [0]), ("canonical_key", []))
OF_MESSAGE = (("message", MESSAGE), ("message", [0, b"aad", 1, b"detached", "-"]), ("sign1", [b"", 0, b""]), ("structure", MESSAGE[:4]),
              ("safe", [*MESSAGE[:3], b"", ALGORITHMS, "-", b"", b"", b""]), ("safe", [0, b"", 1, b"x", ALGORITHMS, "2", b"", b"", b""]),
              ("part", [2]), ("label", [1, 1]), ("label_int", [2, 4]), ("label_bytes", [2, 4]), ("count", []), ("map_spans", []),
              ("token", [1000, "0,0,0,2,1,1,1", ALGORITHMS, "-", "-", "-", "-", "yes@61,yes,a1041907d0,yes"]))
# Calls that take one number alone: a kind, or an order.
KINDS = {"sign1": 1, "token": 0, "canonical_key": 1}


def line(call, number, data, words):
    if call == "safe" and number & 0xFF == 6:  # there is no call that decrypts it
        call, words = "message", MESSAGE
    if call in KINDS:
        number = KINDS[call] + (number & (TAGGED | EITHER) if call == "sign1" else 0)
    return calling.line(call, number, data, words, calling.LARGE if call in ("safe", "token") else ROOM)


def damaged(data, chance):
    """Returns the bytes with one to three changes. Each flips a bit, changes, adds or removes a byte, repeats a run, or cuts off the
    end."""
    data = bytearray(data)
    for _ in range(chance.randrange(1, 4)):
        at, how = chance.randrange(len(data) + 1), chance.choice((0, 0, 0, 1, 1, 2, 3, 4, 5))
        if how == 0 and at < len(data):
            data[at] ^= 1 << chance.randrange(8)
        elif how == 1 and at < len(data):
            data[at] = chance.choice((0x00, 0x18, 0x1B, 0x40, 0x5F, 0x7F, 0x9F, 0xA0, 0xBF, 0xD8, 0xF6, 0xFF, chance.randrange(256)))
        elif how == 2:
            data.insert(at, chance.randrange(256))
        elif how == 3:
            del data[at : at + 1]
        elif how == 4:
            data[at:at] = data[at : at + chance.randrange(16)]
        elif chance.randrange(4) == 0:
            del data[at:]
    return bytes(data)


def damaged_lines():
    """Yields calls with damaged rows, the same each time."""
    chance, rows = random.Random(SEED), list(attack.rows())
    for _ in range(DAMAGED):
        number, data = chance.choice(rows)
        data = damaged(data, chance)
        yield line("check", number, data, [])
        is_message = number & 0xFF < 7
        call, words = chance.choice(OF_MESSAGE if is_message else OF_ITEM)
        yield line(call, (number & 0xFF) + chance.choice((number & TAGGED, EITHER)) if is_message else number, data, words)


def deep_lines(folder):
    """Yields calls with the items that nest deepest: the check of each, and for half of the messages what a verifier needs."""
    checks = list(memory.hostile_lines(folder))[:: len(memory.STACK_CALLS)]
    yield from checks
    for number, data in (it.split()[1:3] for it in checks[:: len(memory.LABELS)]):
        for call, words in OF_MESSAGE:
            if number == "1" and call in ("message", "safe") and words[2]:
                yield line(call, int(number), bytes.fromhex(data), words)


def is_like(asked, want, got):
    """Returns true if a wrapper's result is that of C: the status, and for a success the bytes and the numbers. If C had too little
    room, the bytes aren't compared."""
    call, want, got = asked.split()[0], want.split(), got.split()
    status = int(want[0])
    if status in (OK, SHORT) and got[0] != "ok" or status not in (OK, SHORT) and got[0] != NAMES[status]:
        return False
    if call == "token":
        return got[1:] == want[2:] if status == OK else got[-4:] == want[-4:]
    if status != OK or call == "check":
        return True
    if call in calling.WITHOUT_ROOM:
        return got[1:] == want[1:]
    text = want[2][: 2 * int(want[1])] if len(want) > 2 else ""
    return got[1:] == [*([text] if text else []), *want[3:]]


def damage(name, command, caller, check, **more):
    """Makes the calls with damaged rows through a wrapper. Returns a line."""
    lines = list(damaged_lines())
    for asked, want, got in zip(lines, calling.answers([caller], lines, check), calling.answers(command, lines, check, **more)):
        check(is_like(asked, want, got), f"{name}: {asked[:300]}: {got[:300]} and not {want[:300]}")
    return f"with damaged rows {len(lines)}"


def nest(node, caller, check):
    """Makes the calls with the deepest items from JavaScript, each followed by one that succeeds. Returns a line."""
    with tempfile.TemporaryDirectory() as folder:
        lines = list(deep_lines(folder))
    usual = f"check 1 {token()[0][1:].hex()}"
    told, wanted = calling.answers(node, [it for one in lines for it in (one, usual)], check), calling.answers([caller], lines, check)
    for asked, want, got, after in zip(lines, wanted, told[::2], told[1::2]):
        is_right = got.strip() == NAMES[MEMORY] or is_like(asked, want, got)
        check(is_right and after.strip() == "ok", f"JavaScript: {asked[:80]}: {got[:80]} and not {want[:80]}, {after}")
    short = [it.strip() for it in told[::2]].count(NAMES[MEMORY])
    check(short < len(lines), "JavaScript: no hostile input has enough stack")
    return f"with hostile input {len(lines)}, without enough stack {short}"
