"""Makes calls through the programs of c/wrappers, and compares their output with the right results."""
import itertools
import subprocess

from capi import interface
from capi.kinds import BY_KEYS, CRITICAL, HEADERS, LAYER, MISSING, MISUSE, NAMES, NOT_ALLOWED, OK, REFUSED, SHORT, TOO_MANY_KEYS, UNFIT
from capi.messages import Told
from capi.tokens import Refused, Verified
from capi.vectors import token

# Calls that return places.
SPANS = ("member_span", "pair_spans", "label_span", "item_span", "string_span")
# Calls that return a number, or a text for one.
NUMBERS = ("count", "label_int", "integer", "major_type", "simple_value")
# Calls that verify a token.
TOKENS = ("token", "ring")
# Calls without a buffer for their result.
WITHOUT_ROOM = ("check", "float_value", "map_spans", *NUMBERS, *SPANS)
# Calls that return a view.
WITH_VIEW = ("sign1", "message", "spans")
LARGE = 1 << 16
# The offset of `check` without one.
NO_OFFSET = (1 << 64) - 1


def word(value):
    return (value.hex() or "-") if isinstance(value, bytes) else str(value)


def line(call, number, data, words, cap):
    """Returns the line that asks a program for a call with a buffer of `cap` bytes."""
    return " ".join(map(word, [call, number, data, *([] if call in WITHOUT_ROOM else [cap]), *words]))


def answers(command, lines, check, **more):
    """Returns the program's results for the lines."""
    ran = subprocess.run(command, input="\n".join(lines) + "\n", capture_output=True, text=True, **more)
    check(ran.returncode == 0, f"{command[0]}: status {ran.returncode}: {ran.stderr[-2000:]}")
    told = ran.stdout.splitlines()
    check(len(told) == len(lines), f"{command[0]}: {len(told)} answers to {len(lines)} calls")
    return told


def agrees(got, want):
    """Returns true if the words are the wanted ones. None stands for any word, and `...` at the end for any words."""
    if want and want[-1] is ...:
        want = want[:-1]
        got = got[:len(want)]
    return len(got) == len(want) and all(w in (None, g) for g, w in zip(got, want))


# ---- from C


def untouched(cap):
    return "ee" * (cap + 8)


def view_told(call, status, answer, cap):
    """Returns the numbers of the view, which are 0 if the call fails."""
    if call not in WITH_VIEW:
        return []
    return list(map(str, answer.view)) if status == OK and len(answer) <= cap else ["0"] * 9


def spans_told(status, answer, view):
    """Returns the right output for `coset_message_spans`. Unknown flags are None."""
    if status != OK:
        return ["0", str(status), "0", *view]
    flags = None if answer.flags is None else str(answer.flags)
    return [flags, str(OK), str(len(answer)), *([answer.hex()] if answer else []), *view]


def opening_told(status, answer, cap):
    """Returns the right output for `coset_token_open`."""
    writes = status in (OK, LAYER)
    if writes and len(answer) > cap:
        return [str(SHORT), str(len(answer)), untouched(cap), *["0"] * 10]
    text = answer if writes else b""
    return [str(status), str(len(text)), (text + b"\xee" * (cap + 8 - len(text))).hex(), *map(str, answer.layer)]


def told_by_c(call, status, answer, cap):
    """Returns the right output of calls.c: the status, the number and the buffer. Some calls add the numbers of the view."""
    view = view_told(call, status, answer, cap)
    if call == "check":
        return [str(status), str(NO_OFFSET) if status == OK else None]
    if call in SPANS:
        return [str(status), *(answer.split() if status == OK else ["0"] * (4 if call == "pair_spans" else 2))]
    if call == "deeper":
        return ["levels", str(answer)]
    if call in TOKENS:
        return [str(status), "0", *answer.words, *answer.asked]
    if call in ("room", "answers"):
        return [str(status), ...]
    if call == "open":
        return opening_told(status, answer, cap)
    if call == "spans":
        return spans_told(status, answer, view)
    if call == "safe":
        return [str(status), str(len(answer or b""))] + ([answer.hex()] if answer else [])
    if call in NUMBERS:
        return [str(status), str(answer or 0)]
    if call == "float_value":
        return [str(status), answer or "0" * 16]
    if call == "map_spans":
        return [str(status), *(answer or "0").split()]
    if status == -1:
        return ["-1", ...]
    if status == OK and len(answer) > cap:
        return [str(SHORT), str(len(answer)), untouched(cap), *view]
    text = answer if status == OK else b""
    return [str(status), str(len(text)), (text + b"\xee" * (cap + 8 - len(text))).hex(), *view]


def rooms(call, answer):
    """Returns the sizes of buffers for a call: just large enough, one byte too small, and larger."""
    if call == "verified":
        return [4096]
    if call in ("safe", "spans", "answers", *TOKENS):
        return [LARGE]
    if call == "room":
        return [answer]
    size = len(answer) if isinstance(answer, bytes) else 0
    return sorted({size, size + 5, max(size - 1, 0)})


def lines_of(call, number, data, words, status, answer):
    """Yields the lines that ask for a call with buffers of several sizes, each with the right output."""
    for cap in rooms(call, answer):
        yield line(call, number, data, words, cap), told_by_c(call, status, answer, cap)
    if call == "safe" and status in (OK, NOT_ALLOWED, CRITICAL, REFUSED, HEADERS) or call in TOKENS and status == OK:
        yield line(call, number, data, words, 0), [str(SHORT), None, *(["0"] * 3 + ["-", "0"] + ["-"] * 2 if call in TOKENS else [])]
    if call == "verified" and status == OK:
        whole = len(words[2])  # the structure that is signed; the other parts stay in the token
        yield line(call, number, data, words, whole - 1), [str(SHORT), str(whole), untouched(whole - 1)]


def from_c(program, calls, check):
    """Makes the calls from C. Returns their lines, and the right output for each."""
    lines, wanted = zip(*(it for call in calls for it in lines_of(*call)))
    for asked, want, got in zip(lines, wanted, answers([program], lines, check)):
        check(agrees(got.split(), want), f"C: {asked}: {got} and not {want}")
    return lines, wanted


def lengths(program, check):
    """Checks that the calls of coset_verify.h refuse a length above PTRDIFF_MAX. Bytes of such a length exceed every depth."""
    told = answers([program], [f"lengths 0 {token()[0].hex()} 4096"], check)
    check(told == [f"{MISUSE} {MISUSE} {MISUSE} {MISUSE} 1"], f"a length above PTRDIFF_MAX: {told}")


def without_length(program, check):
    """Checks that a decrypter that says yes is refused if it sets no length. If it says that there is too little room, and sets no
    length, the buffer needs a byte more."""
    told = answers([program], ["unset 0 8343a10101a04163 4096"], check)
    check(told == [f"{REFUSED} 0 {SHORT} 4097"], f"a decrypter that sets no length: {told}")


def pairs_built(program, check):
    """Checks the maps of coset_pairs.h with a named integer. A value that is given as bytes, with the form of an integer, fails."""
    named, values = bytes.fromhex("a3616e3a0001116f"), {2: ("6105", "6106"), 3: ("4105", "4106"), 4: ("05", "06")}
    wanted = {(form, place): f"{MISUSE} " for form in (0, 1, 5) for place in (1, 2)}
    for form, place in itertools.product(values, (1, 2)):
        first, second = (values[form if at == place else 3][at - 1] for at in (1, 2))
        wanted[form, place] = f"{OK} {named.hex()}01{first}616d{second}"
    told = answers([program], [f"built {form} - 64 {place}" for form, place in wanted], check)
    for call, want, got in zip(wanted, wanted.values(), told):
        check(got == want, f"pairs of the form {call}: {got} and not {want}")


# The results of the caller's functions, as coset_verify.h numbers them.
YES, NO_ROOM = 0x59e5, 0x2008
# Numbers that a function returns by mistake: statuses, truths, error codes, and numbers near those that count.
OTHERS = (*range(-3, 34), *range(36, 40), 255, 256, YES - 1, YES + 1, YES + (1 << 16), YES - (1 << 31), NO_ROOM + 1, NO_ROOM + (1 << 16))


def numbers_said(program, check):
    """Checks which results of a verifier and of a decrypter count as a yes, and which say that there is too little room.

    An empty signature or MAC is refused whatever the verifier returns."""
    numbers = (*OTHERS, UNFIT, TOO_MANY_KEYS, YES, NO_ROOM)
    messages = {1: ("8443a10126a0416140", "8443a10126a041614170"), 3: ("8443a10105a0416140", "8443a10105a041614170"),
                2: ("8440a04161818343a10126a040", "8440a04161818343a10126a04170"), 4: ("8543a10105a041614080", "8543a10105a04161417080")}
    calls = [(kind, data, number, OK if number == YES and data is proved else REFUSED) for kind, (_, proved) in messages.items()
             for data in messages[kind] for number in numbers]
    calls += [(5, "8343a10101a04163", number, {YES: OK, NO_ROOM: SHORT}.get(number, REFUSED)) for number in numbers]
    told = answers([program], [f"said {kind} {data} 4096 {number}" for kind, data, number, _ in calls], check)
    for (*call, status), got in zip(calls, told):
        check(got == str(status), f"the caller's function for a message: {call}: {got} and not {status}")


# ---- through the wrappers


# The statuses against a layer of a token. The others are against the whole token. A wrapper reports an answer of the wrong type as
# the misuse of a layer.
OF_LAYER = (*range(3, 14), NOT_ALLOWED, CRITICAL, *BY_KEYS, HEADERS)


def refusal_told(status, refused):
    """Returns the right output of a wrapper for a token that is refused. It has the reason, the index of the refused
    layer, the number of the refused algorithm or of the missing claim, and the key identifier of the layer."""
    index, algorithm, claim, key_id = refused.words
    number = {NOT_ALLOWED: algorithm if algorithm != "0" else "-", MISSING: claim}.get(status, "-")
    return " ".join([NAMES[status], index if status in OF_LAYER else "-", number, key_id, *refused.asked])


def told_by_wrapper(status, answer):
    """Returns the right output of a wrapper."""
    if status == -1:
        return "ok no"
    if isinstance(answer, Refused):
        return refusal_told(status, answer)
    if status != OK:
        return NAMES[status]
    if isinstance(answer, Verified):
        return " ".join(["ok", *answer.words, *answer.asked])
    spelled = "" if answer is None else answer.hex() if isinstance(answer, bytes) else str(answer)
    return " ".join(["ok", spelled, *map(str, answer.view if isinstance(answer, Told) else [])])


def lines_for_wrapper(calls):
    return [line(call, number, data, words, 0) for call, number, data, words, _, _ in calls]


def compare(name, calls, lines, told, check):
    """Compares a wrapper's results with the right ones."""
    check(len(told) == len(lines), f"{name}: {len(told)} answers to {len(lines)} calls")
    for (*_, status, answer), asked, got in zip(calls, lines, told):
        want = told_by_wrapper(status, answer)
        check(got.strip() == want.strip(), f"{name}: {asked}: {got} and not {want}")


def from_wrapper(name, command, calls, check, **more):
    """Makes the calls through a wrapper."""
    lines = lines_for_wrapper(calls)
    compare(name, calls, lines, answers(command, lines, check, **more), check)


def texts(is_quick, callers, check):
    """Checks that the version and the texts of statuses are the same in all languages. Unknown statuses share one more text. Returns
    the texts.

    `callers` are the programs' commands, each with the arguments of its run."""
    lines = [f"text {status}" for status in range(-1, len(NAMES) + 1)]
    told = [[text.partition("ok ")[2] or text for text in answers(command, lines, check, **more)] for command, more in callers]
    version = interface.version() + (" (unproved)" if is_quick else "") + f" {interface.number():08x}"
    check(all(text.startswith(f"{version}: ") for text in told[0]), f"the library's version isn't {version}: {told[0][0]}")
    check(len(set(told[0])) == len(NAMES) + 1 and told[0][0] == told[0][-1], "two statuses have one text")
    check(all(it == told[0] for it in told), "the languages tell other texts")
    return [text.removeprefix(f"{version}: ") for text in told[0]]
