"""Reads the edits of edits/CRATE.edits: wrong bodies of a crate, each as replacements of text.

A record begins with `edit: NAME` if the prover must refuse the body, or with `planted: NAME` if a test must catch it. A blank
line ends it. Lines without a field say what is wrong. The other lines are `file: PATH`, `old: TEXT` and `new: TEXT`, as in a
crate's must-fail/, and the fields that tools/planted explains."""
import os
import re
import sys

sys.dont_write_bytecode = True
import common  # noqa: E402

FOLDER = f"{common.HERE}/edits"


def crates():
    """Returns the names of the crates that have edits."""
    return sorted(it.removesuffix(".edits") for it in os.listdir(FOLDER) if it.endswith(".edits"))


def records(crate, *kinds):
    """Yields the name and the lines of each record of these kinds (`edit`, `planted`)."""
    with open(f"{FOLDER}/{crate}.edits", encoding="utf-8") as file:
        for record in re.split(r"\n\n+", file.read().strip("\n")):
            first, _, lines = record.partition("\n")
            kind, _, name = first.partition(": ")
            if kind not in ("edit", "planted"):
                sys.exit(f"edits/{crate}.edits: a record begins with {first!r}")
            if kind in kinds:
                yield name, f"{lines}\n"


def fields(lines):
    """Returns the fields of a record, and its replacements: the file, the old and the new text of each."""
    found, replacements = {}, []
    for line in lines.splitlines():
        key, colon, text = line.partition(":")
        text = text.removeprefix(" ")
        if key == "old" and colon:
            replacements.append([found["file"], text, None])
        elif key == "new" and colon:
            replacements[-1][2] = text
        elif colon and key.islower():
            found[key] = text
    return found, replacements


def misplaced(text_of, name, lines):
    """Yields each replacement of a record whose old text isn't in its file exactly once. `text_of(path)` is the file's text, or
    None if there is no such file."""
    changed = {}
    for path, old, new in fields(lines)[1]:
        text = changed.get(path, text_of(path))
        if text is None:
            yield f"{name}: there is no file {path}"
        elif text.count(old) != 1:
            yield f"{name}: {path} has {text.count(old)} times, and not once: {old.strip()}"
        else:
            changed[path] = text.replace(old, new)
