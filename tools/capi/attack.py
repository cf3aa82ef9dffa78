"""Attacks the C interface for `tools/c --attack` and `tools/fuzz`. tools/attack.c calls each function that coset.h and
coset_items.h declare. Its table is written from these headers, so a new function is attacked as well. The functions in the
headers, such as those of coset_verify.h, aren't attacked."""
import os
import re
import subprocess

from capi.building import HERE, run
from capi.kinds import KINDS, TAGGED, number_of
from sources import read

SEED = 20_160_101
FIRST_STATUS, FIRST_KIND = "COSET_OK", "COSET_SIGN1"  # the constant that an enum of the header begins with
ANSWERS = ("size_t", "int64_t", "uint64_t", "int32_t", "uint32_t", "double")


def headers():
    return sorted(it for it in os.listdir(f"{HERE}/c/include") if it.endswith(".h"))


def declarations():
    """Returns the headers as the compiler sees them, without attributes."""
    given = "".join(f"#include <{it}>\n" for it in headers())
    text = run(["cc", "-E", "-P", "-D__attribute__(x)=", f"-I{HERE}/c/include", "-x", "c", "-"], input=given)
    return re.sub(r"\[\[.*?\]\]", "", text)


def enum(text, first):
    """Returns the names and numbers of the enum that begins with this constant."""
    found = re.search(r"enum\s*\w*\s*\{\s*" + first + r"\s*=.*?\}", text, re.S)
    return [(name, int(number, 0)) for name, number in re.findall(r"(COSET_\w+)\s*=\s*(\w+)", found[0])]


def class_of(type_, name, before):
    """Returns the letter by which attack.c makes an argument, and the type of the result in it. Unknown arguments are None."""
    if type_ == "size_t" and before in ("b", "w", "o", "p", "t", "x"):
        return {"b": "z", "w": "y", "o": "c", "p": "q", "t": "m", "x": "n"}[before], None
    if type_ in ("const coset_pair *", "const coset_text *"):
        return type_[12], None
    if type_.startswith("const coset_"):
        return ("r" if name == "rules" else "x"), type_[6:-2]
    if type_ == "const int64_t *":
        return "w", None
    if type_ in ("const uint8_t *", "uint8_t *"):
        return ("o" if type_ == "uint8_t *" else "b"), None
    if type_ in ("uint32_t", "int32_t", "coset_status"):
        return ("k" if name in ("kind", "holder") else "f" if name.startswith("has_") else "u"), None
    if type_ in ("size_t", "int64_t"):
        return ("i" if type_ == "size_t" else "s"), None
    pointed = re.fullmatch(r"(\w+) \*", type_)
    if pointed and (pointed[1] in ANSWERS or pointed[1].startswith("coset_")):
        return ("l" if before == "c" and type_ == "size_t *" else "v" if pointed[1].endswith("_view") else "a"), pointed[1]
    return None


def functions(text):
    """Yields each function that returns a status: its name, and `class_of` for each argument."""
    while re.search(r"\{[^{}]*\}", text):
        text = re.sub(r"\{[^{}]*\}", "", text)
    for name, arguments in re.findall(r"\b(?:int32_t|coset_status)\s+(coset_\w+)\s*\(([^()]*)\)\s*;", text):
        found = []
        for one in arguments.split(","):
            type_, argument = re.fullmatch(r"\s*(.*?)\s*(\w+)\s*", re.sub(r"\s+", " ", one)).groups()
            found.append(class_of(type_, argument, found[-1][0] if found and found[-1] else ""))
        yield name, found


def table(text):
    """Returns the file calls.h, and the functions that it leaves out. It has each function with its classes, the kinds and
    the statuses."""
    statuses, kinds = enum(text, FIRST_STATUS), enum(text, FIRST_KIND)
    numbers = dict(statuses)
    both, keys = (sum(kind in of for kind, _ in tokens()) for of in (range(1 << 16), [number_of("key")]))
    lines = [f"enum {{ STATUSES = {max(numbers.values()) + 1}, FORM = {TAGGED}, TOKENS = {both - keys}, KEYS = {keys} }};"]
    lines += ["static const uint32_t kinds[] = {" + ", ".join(str(n) for _, n in kinds if n < TAGGED) + "};"]
    rows, left = [], []
    for place, (name, found) in enumerate(functions(text)):
        if None in found:
            left.append(name)
            continue
        letters = [letter for letter, _ in found]
        words = ", ".join(f"a[{at}].{'at' if it in 'bwptolavxr' else 'number'}" for at, it in enumerate(letters))
        lines.append(f"static int32_t call_{place}(const union word *a) {{ return {name}({words}); }}")
        sizes = ", ".join(f"sizeof({type_})" if type_ else "0" for _, type_ in found)
        rows.append(f'    {{"{name}", call_{place}, "{"".join(letter for letter, _ in found)}", {{{sizes}}}}},')
    lines += ["static const struct function functions[] = {", *rows, "};"]
    return "\n".join(lines) + "\n", left


def tokens():
    """Yields the tokens of test_verify, and then its keys: the number of a kind, and the bytes."""
    words = [line.split() for line in read("crates", "test_verify", "stdin").splitlines()]
    for line in words:
        if line[:1] in (["verify"], ["ring"]) and re.fullmatch(r"([0-9a-f]{2}){1,8192}", line[-1]):
            yield number_of("sign1") + TAGGED, bytes.fromhex(line[-1])
    for line in words:
        if line[:1] == ["fits"]:
            yield number_of("key"), bytes.fromhex(line[1])


def rows():
    """Yields the rows of coset_vectors that have bytes, and those of test_verify: the number of the kind, and the bytes."""
    yield from tokens()
    with open(f"{HERE}/crates/coset_vectors/stdin", encoding="utf-8") as file:
        for line in file:
            words = line.split()
            tagged = words[:1] == ["tagged"]
            words = words[tagged:]
            if len(words) >= 2 and words[0] in (*KINDS, "value") and re.fullmatch(r"([0-9a-f]{2}){1,8192}", words[1]):
                number = number_of(words[0]) if words[0] in KINDS else 9
                yield number + TAGGED * tagged, bytes.fromhex(words[1])


def prepared(folder):
    """Writes calls.h and the file of rows. Returns the names of the functions that are left out."""
    text, left = table(declarations())
    with open(f"{folder}/calls.h", "w", encoding="utf-8") as file:
        file.write(text)
    with open(f"{folder}/rows", "w", encoding="utf-8") as file:
        file.writelines(f"{number} {data.hex()}\n" for number, data in rows())
    return left


def attack(folder, objects, calls, compiler="cc", runner=()):
    """Attacks the library of these object files with about `calls` calls. Returns whether no fault was found, and a report.

    The compiler is that of the object files, and the runner is the command that runs their programs."""
    left = prepared(folder)
    flags = ["-std=c11", "-O2", "-Wall", "-Wextra", "-Werror", "-D__USE_MINGW_ANSI_STDIO", f"-I{HERE}/c/include", f"-I{folder}"]
    run([compiler, *flags, *(["-static"] if runner else []), "-o", "attack.exe", f"{HERE}/tools/attack.c", *objects, "-lpthread"], cwd=folder)
    command = [*runner, f"{folder}/attack.exe", f"{folder}/rows", str(SEED), str(calls)]
    ran = subprocess.run(command, capture_output=True, text=True, check=False)
    told = ran.stdout.strip() or f"the attack says nothing: {ran.stderr.strip()[-500:]}"
    more = [f"not attacked: {', '.join(left)}"] if left else []
    made = re.match(r"attacked by (\d+) calls", told)
    return ran.returncode == 0 and not left and bool(made) and int(made[1]) >= calls, "; ".join([told, *more])


def corpus(folder):
    """Writes each row as an input of libFuzzer: first the choices that attack.c reads, then the bytes."""
    kinds = [number for _, number in enum(declarations(), FIRST_KIND) if number < TAGGED]
    os.makedirs(folder, exist_ok=True)
    for place, (number, data) in enumerate(rows()):
        first = bytes([place % 251, kinds.index(number % TAGGED), number // TAGGED])
        with open(f"{folder}/row-{place:04}", "wb") as file:
            file.write(first.ljust(24, b"\xff") + data)
