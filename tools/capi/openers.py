"""Calls with answers that no caller's function should give, and calls of coset_token_open with arguments that no caller should
have."""
from capi.calling import NO_ROOM, OTHERS, YES
from capi.kinds import LAYER, MISUSE, NAMES, OK, REFUSED, SHORT, TOO_MANY_KEYS, UNFIT
from capi.tokens import SIZE, Answer, Opening, layers_of, opened_words

SIGNED = bytes.fromhex("d28443a10126a045a1041907d0420102")
ENCRYPTED = bytes.fromhex("d08343a1010aa04163")
EMPTY_SIGNATURE = bytes.fromhex("d28443a10126a045a1041907d040")
EMPTY_MAC = bytes.fromhex("d18443a10105a045a1041907d040")
NO_CIPHERTEXT = bytes.fromhex("d08343a1010aa040")
RULES = "0,0,0,2,1,0,0"
LISTS = ["-7,5,10", "-", "-", "-", "-"]
FULL = 1 << 64
NOT_CLAIMS = NAMES.index("NotClaims")


def answers():
    """Yields calls in which the caller's function answers a layer in this way, with the right status."""
    for data, yes, no_room in ((SIGNED, OK, REFUSED), (ENCRYPTED, NOT_CLAIMS, SHORT)):
        for number in (*OTHERS, 1 << 30):
            yield data, f"={number}", REFUSED
        for number in (UNFIT, TOO_MANY_KEYS):
            yield data, f"={number}", number
            yield data, f"~{number}", number
        yield data, f"={YES}", yes
        yield data, f"={NO_ROOM}", no_room
        yield data, "", REFUSED
        yield data, "!,!,!,!,!", REFUSED
        for length in (0, 1, 100, 1 << 20, (1 << 63) - 1, 1 << 63, FULL - 1):
            yield data, f">{length}", no_room
        for name in ("ff", "c080", "eda080", "61ff"):
            yield data, f"yes@{name}", MISUSE
        yield data, "yes@?", REFUSED
        yield data, "no@61", REFUSED
    for more in (1, 2, 1 << 20, FULL - (1 << 16)):
        yield SIGNED, f"+{more}", OK
        yield ENCRYPTED, f"+{more}", REFUSED
    yield ENCRYPTED, "+0", NOT_CLAIMS
    for number, status in ((YES, REFUSED), (1, REFUSED), (0, REFUSED), (-1, REFUSED), (NO_ROOM, SHORT)):
        yield ENCRYPTED, f"~{number}", status
    yield SIGNED, f"~{YES}", OK
    yield SIGNED, f"~{NO_ROOM}", REFUSED
    for data in (EMPTY_SIGNATURE, EMPTY_MAC):
        for answer in ("yes", f"={YES}", f"~{YES}", f"~{NO_ROOM}", "!"):
            yield data, answer, REFUSED
    yield NO_CIPHERTEXT, "pa1041907d0", OK
    yield ENCRYPTED, "pa1041907d0", OK
    yield ENCRYPTED, "pa1041907d0,yes", OK
    yield ENCRYPTED, "p" + SIGNED.hex() + ",=2", REFUSED
    yield ENCRYPTED, "p" + SIGNED.hex() + ",>5", REFUSED
    for number in (UNFIT, TOO_MANY_KEYS):
        yield ENCRYPTED, f"p{SIGNED.hex()},={number}", number


def rules():
    """Yields rules and lists without a meaning for coset_token_open: the words, and the token."""
    for size in (0, 1, SIZE - 8, SIZE - 1, SIZE + 1, SIZE + 8, 56, 1 << 32, FULL - 1):
        yield f"{size},{RULES}", LISTS
    for place, numbers in ((2, (2, 4, 6, 7, 12, 0x101, 0xffffffff)), (3, (3, 4, 0xffffffff))):
        for number in numbers:
            words = RULES.split(",")
            words[place] = str(number)
            yield f"{SIZE},{','.join(words)}", LISTS
    for place in (0, 1):
        for number in (1 << 63, FULL - 1):
            words = RULES.split(",")
            words[place] = str(number)
            yield f"{SIZE},{','.join(words)}", LISTS
    for place, wrong in ((0, ("-70000", "9999", "8", "-7,8", "-65536")), (2, ("-1", "9999", "-70000", "4,-70000"))):
        for numbers in wrong:
            yield f"{SIZE},{RULES}", [*LISTS[:place], numbers, *LISTS[place + 1:]]
    closed = "0,0,0,2,0,0,0"
    for place in (3, 4):
        for texts in ("tff", "t61,tc080", "teda080", "t61,t80,t62", "t?", "t61,t?"):
            yield f"{SIZE},{closed}", [*LISTS[:place], texts, *LISTS[place + 1:]]
    for any_audience in (1, 2, 0xffffffff):
        yield f"{SIZE},0,0,0,2,{any_audience},0,0", [*LISTS[:3], "t61", LISTS[4]]


def nothing(length=10):
    told = Opening(b"")
    told.layer = [0] * length
    return told


def misuses():
    """Yields the calls of coset_token_open with such rules, also for bytes that are no token."""
    for words, lists in rules():
        for data in (SIGNED, b"", b"\x00"):
            yield ("open", 0, data, [1000, words, *lists, "-", b""], MISUSE, nothing())


def changed(layer, opened):
    """Yields words OPENED by which the layer isn't opened: other forms, other lengths, and ranges that aren't in the bytes."""
    numbers = list(map(int, opened.split("/")))
    structure, proof = len(layer.structure), len(layer.proof)
    for form in (0, 2, 4, 6, *(it for it in (1, 3, 5) if it != layer.form), layer.form + (1 << 8), 1 << 31):
        yield [form, *numbers[1:]]
    for offset in (1, FULL - 1, FULL - structure, FULL - structure - proof, 1 << 63):
        yield [numbers[0], offset, *numbers[2:]]
    for first, second in ((structure - 1, proof + 1), (structure + 1, proof - 1), (structure, proof - 1),
                          (structure, proof + 1), (structure - 1, proof), (0, 0), (FULL - 1, proof), (structure, FULL - 1), (structure + proof, 0),
                          (0, structure + proof), (1 << 63, 1 << 63)):
        yield [*numbers[:2], first, second, *numbers[4:]]
    for place in (4, 6):
        for at, length in ((FULL - 1, 1), (FULL - 1, 2), (0, FULL - 1), (1 << 63, 1 << 63), (structure + proof + 10, 50)):
            yield [*numbers[:place], at, length, *numbers[place + 2:]]


def unopened():
    """Yields calls with opened layers that are others than the token's, so that its own still waits."""
    for data, said in ((SIGNED, "yes"), (ENCRYPTED, "a1041907d0")):
        layer = layers_of(data, 1, [Answer(said)], 1)[0]
        opened, held = opened_words([layer])
        words = [1000, f"{SIZE},{RULES}", *LISTS]
        for numbers in changed(layer, opened):
            yield ("open", 0, data, [*words, "/".join(map(str, numbers)), held], LAYER, layer.waiting(0))
        for place in range(len(layer.structure) + len(layer.proof)):
            other = held[:place] + bytes([held[place] ^ 1]) + held[place + 1:]
            yield ("open", 0, data, [*words, opened, other], LAYER, layer.waiting(0))
        yield ("open", 0, data, [*words, opened, held[:len(layer.structure) + len(layer.proof) - 1]], LAYER, layer.waiting(0))
        yield ("open", 0, data, [*words, opened, b""], LAYER, layer.waiting(0))


def between():
    """Yields calls with the opened layer of one token, for another token that differs in a byte of its claims or signature."""
    words = opened_words(layers_of(SIGNED, 1, [Answer("yes@61")], 1))
    for place in (11, 12, 14, 15):
        other = SIGNED[:place] + bytes([SIGNED[place] ^ 1]) + SIGNED[place + 1:]
        layer = layers_of(other, 1, [Answer("yes")], 1)[0]
        yield ("open", 0, other, [1000, f"{SIZE},{RULES}", *LISTS, *words], LAYER, layer.waiting(0))


def names():
    """Yields calls with opened layers whose issuers have names that aren't UTF-8."""
    for data, said in ((SIGNED, "yes"), (ENCRYPTED, "a1041907d0")):
        for name in ("ff", "61ff", "eda080", "c0af", "f4908080"):
            layers = layers_of(data, 1, [Answer(said)], 1)
            layers[0].answer.name = bytes.fromhex(name)
            yield ("open", 0, data, [1000, f"{SIZE},{RULES}", *LISTS, *opened_words(layers)], MISUSE, nothing())


def calls():
    """Yields all calls of this file."""
    for data, said, status in answers():
        yield ("answers", 0, data, [1000, RULES, *LISTS, said], status, None)
    yield from misuses()
    yield from unopened()
    yield from between()
    yield from names()
