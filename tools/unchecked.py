"""The part of tools/instructions that builds tool_bench without a proof, but as LLVM builds the proved program.

`rt try` makes the program's LLVM module. It adds checks at run time, and leaves out the hints on inlining. Here the text of the
module is changed back, and compiled for x86-64-v2.
"""
import collections
import glob
import hashlib
import os
import re
import sys
import tempfile

sys.dont_write_bytecode = True
import common  # noqa: E402

# Lines that `rt try` adds to a module: checks at run time, and memory that is filled before its use.
ADDED = re.compile(r'  call void @"rattle-llvm-checks::|\s*call void @llvm\.trap\(\)$|.*call void @llvm\.memset.* i8 -86\b')
ATTRIBUTES = {
    "sanitize_address ": "",
    '"frame-pointer"="all"': '"frame-pointer"="none"',
    '"target-cpu"="x86-64"': '"target-cpu"="x86-64-v2"',
}
DEFINED = re.compile(r'define.*?@"((?:[^"\\]|\\.)*)"')
HINT = re.compile(r"#\[inline(?:\((\w+)\))?\]")
HINTS = {"always": "alwaysinline", "never": "noinline", None: "inlinehint"}
BLOCK = re.compile(r"(?:unsafe )?impl(?:<.*?(?<!-)>)? (?:(?P<trait>.*?) for )?(?P<type>.*?)(?: \{.*)?$")
TRAIT = re.compile(r"(?:pub(?:\([^)]*\))? )?trait (\w+)")
FUNCTION = re.compile(r"(?:pub(?:\([^)]*\))? )?(?:const )?(?:unsafe )?fn (\w+)")


def joined(words):
    """Returns a type or a trait as the module spells it: `VecU8` for `Vec<u8>`, without parameters such as `T`."""
    if words.startswith("("):
        return f"Tuple{words.count(',') + 1}" if words != "()" else "Unit"
    words = re.findall(r"\w+", re.sub(r"'\w+|\b[A-Z]\b", "", words.replace("&", "ref ")))
    return "".join(it[0].upper() + it[1:] for it in words)


def functions(path):
    """Yields each function of a source: its type or trait, its name, and its hint or an empty text.

    A method of a trait has both: `VecU8Encode`, `encode`."""
    of, hint = "", ""
    with open(path, encoding="utf-8") as source:
        for line in source:
            stripped = line.strip()
            if found := BLOCK.match(line):
                of = joined(found["type"]) + joined(found["trait"] or "")
            elif found := TRAIT.match(line):
                of = found[1]
            elif line.startswith("}"):
                of = ""
            if found := HINT.match(stripped):
                hint = HINTS[found[1]]
            elif found := FUNCTION.match(stripped):
                yield of if line.startswith(" ") else "", found[1], hint
                hint = ""
            elif stripped and not stripped.startswith(("#", "//", "ghost")):
                hint = ""


def hints(*folders):
    """Returns the functions in all crates of these folders, by name: the module, the type or trait, and the hint of each."""
    found = collections.defaultdict(list)
    for folder in folders:
        for path in glob.glob(f"{folder}/*/src/**/*.rt", recursive=True):
            crate, _, *module = os.path.relpath(path, folder)[: -len(".rt")].split("/")
            if module[-1] in ("lib", "main", "mod"):
                module.pop()
            for of, function, hint in functions(path):
                found[function].append(([crate, *module], of, hint))
    return found


def hint_of(path, known):
    """Returns the hint of a function, by its path in the module without type arguments."""
    *module, function = path.split("::")
    of, found = module.pop() if module else "", known.get(function, ())
    # A type's own methods may be in a module below. If a type isn't spelled as expected, all of its module's are meant.
    choices = (
        {hint for place, it, hint in found if it == of and place[: len(module)] == module},
        {hint for place, it, hint in found if not it and place == [*module, of]},
        {hint for place, _, hint in found if place == module},
    )
    hint, *others = next(filter(None, choices), [""])
    return "" if others else hint


def as_proved(line, known):
    """Returns a line of the module's text as it is with a proof."""
    if line.startswith("attributes #"):
        for old, new in ATTRIBUTES.items():
            line = line.replace(old, new)
    elif found := DEFINED.match(line):
        if hint := hint_of(re.sub(r"::<.*$", "", found[1]), known):
            return re.sub(r"\) #0 \{$", f") {hint} #0 {{", line)
    return line


def build(folder, to):
    """Builds a checkout's program. A source that changes meanwhile ends the script."""
    stamp = stamp_of(folder)
    known = hints(f"{folder}/crates", f"{common.kit()}/rattle")
    with tempfile.TemporaryDirectory() as own:
        common.module(f"{folder}/crates/tool_bench", f"{own}/module.bc")
        as_text = ("-S", "-emit-llvm", "-O0", "-Xclang", "-disable-llvm-passes")
        common.clang(*as_text, "-x", "ir", f"{own}/module.bc", "-o", f"{own}/tried.ll")
        with open(f"{own}/tried.ll", encoding="utf-8") as tried, open(f"{own}/proved.ll", "w", encoding="utf-8") as made:
            made.writelines(as_proved(line, known) for line in tried if not ADDED.match(line))
        common.clang("-O3", "-c", f"{own}/proved.ll", "-o", f"{own}/program.o")
        common.link(f"{own}/program.o", to)
    if stamp_of(folder) != stamp:
        sys.exit(f"a source of {folder} changed meanwhile")


def stamp_of(folder):
    """Returns a checksum of the sources of a checkout's program, of the kit's version, and of this file."""
    with open(__file__, "rb") as own:
        found = hashlib.sha256(common.rt("version").encode() + own.read())
    for path in sorted(common.source_files("tool_bench", folder=folder, parts=["src"])):
        with open(path, "rb") as source:
            found.update(f"\0{os.path.relpath(path, folder)}\0".encode() + source.read())
    return found.hexdigest()[:16]


def program(folder):
    """Returns the program of a checkout. It is built unless it is kept."""
    common.kit()
    kept = f"instructions-{stamp_of(folder)}"
    made = f"{common.QUICK}/{kept}"
    if not os.path.exists(made):
        with common.alone("instructions", "building tool_bench"):
            # Another script may have built it meanwhile.
            if not os.path.exists(made):
                common.say(f"unproved: tool_bench of {folder} is built in a minute or two, and kept as out/quick/{kept}")
                common.keep("tool_bench", made, lambda to: build(folder, to))
    return made
