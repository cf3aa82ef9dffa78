"""Checks how calls use memory: refused allocations, little stack, valgrind, and keys in freed blocks."""
import os
import subprocess
import sys

from capi.building import FLAGS, HERE, run
from capi.calling import NO_OFFSET, agrees, answers, line
from capi.kinds import MEMORY

# More allocations than any call makes.
MOST_REQUESTS = 5000
# Calls whose results are places alone.
PLACES_ALONE = ("member_span ", "pair_spans ", "label_span ", "string_span ")
# The hostile files, and their kinds. Files whose name ends in `twice` or `refused` aren't of their kind.
HOSTILE = {"deepest": 1, "nested": 1, "deepest_twice": 1, "nested_twice": 1, "recipients": 8, "recipients_refused": 8}
# Ends of the names: nested through label 7 alone, or through 7 and 11 in turn.
LABELS = ("", "_7_11")
STACK_CALLS = (("check", []), ("member", [0]), ("label", [2, 7]), ("structure", [0, b"", 1, b""]), ("write", []),
               ("add", [bytes.fromhex("8340a0f6")]), ("sign1", [b"", 0, b""]), ("recipient_structure", [b""]))


def is_clean(asked, want, got):
    """Returns true if a call that returned COSET_MEMORY left its results as they were, or 0."""
    if asked.startswith("spans "):
        return got == ["0", str(MEMORY), "0", *["0"] * 9]
    if asked.startswith(PLACES_ALONE):
        return set(got[1:]) == {"0"}
    if asked.startswith("open "):
        got = [*got[:7], *got[8:]]  # without the index of the layer, which may be known
    is_untouched = len(got) < 3 or set(got[2][i:i + 2] for i in range(0, len(got[2]), 2)) <= {"ee"}
    is_empty = not got[1].strip("0") or got[1] == str(NO_OFFSET)
    return is_untouched and set(got[3:]) <= {"0"} and is_empty


def refusals(program, lines, wanted, check):
    """Refuses each allocation of some of the calls in turn. Returns the number of refusals."""
    refused = 0
    for number in range(MOST_REQUESTS):
        told, before = answers([program], lines, check, env={**os.environ, "REFUSE": str(number)}), refused
        for asked, want, got in zip(lines, wanted, map(str.split, told)):
            if got[1 if asked.startswith("spans ") else 0] == str(MEMORY):
                refused += 1
                check(is_clean(asked, want, got), f"refused {number}: {asked}: {got}")
            else:
                check(agrees(got, want), f"refused {number}: {asked}: {got} and not {want}")
        if refused == before:
            check(refused, "no allocation is refused")
            return refused
    check(False, "calls make more requests than are refused")
    return refused


def hostile_lines(folder):
    """Writes the files of crates/tool_bench/hostile.py into the folder. Yields calls with those that nest deepest."""
    run([sys.executable, f"{HERE}/crates/tool_bench/hostile.py", folder])
    for name, kind in HOSTILE.items():
        for labels in LABELS:
            with open(f"{folder}/{name}{labels}.cbor", "rb") as file:
                data = file.read()
            for call, words in STACK_CALLS:
                yield line(call, 8 if call == "recipient_structure" else kind, data, words, 9)


def within_stack(program, folder, check):
    """Checks that hostile input needs no more than 1 MB of stack. Returns the number of calls."""
    lines = list(hostile_lines(folder))
    wanted = answers([program], lines, check)
    told = answers(["bash", "-c", f"ulimit -s 1024; exec {program}"], lines, check)
    check(told == wanted, "hostile input is answered otherwise with 1 MB of stack")
    is_valid = [answer.split()[0] == "0" for asked, answer in zip(lines, wanted) if asked.startswith("check ")]
    right = [not name.endswith(("twice", "refused")) for name in HOSTILE for _ in LABELS]
    check(is_valid == right, f"hostile input is refused or accepted wrongly: {is_valid}")
    return len(lines)


def under_valgrind(program, lines, check):
    """Makes the calls under valgrind. Returns their number."""
    answers(["valgrind", "-q", "--error-exitcode=9", "--leak-check=full", program], lines, check)
    return len(lines)


def wiped(folder, check, compiler="cc", runner=()):
    """Checks that no freed block contains a key that the library was given. The runner is the command that runs the program."""
    run([compiler, *FLAGS, "-Wl,--wrap=free", "-o", "wiped.exe", f"{HERE}/c/wrappers/c/wiped.c", "libcoset.a"], cwd=folder)
    ran = subprocess.run([*runner, f"{folder}/wiped.exe"], capture_output=True, text=True)
    check(ran.returncode == 0, f"a freed block holds a key: {ran.stdout.strip()}")
