"""Checks of tools/pages on the steps that pages list: they name each file that the last addition of their kind is in. Also on the
numbers of algorithms, which are IANA's everywhere."""
import os
import re
import sys
from typing import NamedTuple

sys.dont_write_bytecode = True
from sources import HERE, files, read  # noqa: E402

FOLDERS = ("c", "crates", "docs", "edits", "rust", "tools")
# Files that aren't searched: one that a script writes, the list of another library's items, and this one. Neither are rows and data.
LEFT_OUT = ("docs/API.md", "rust/surface.txt", "tools/recipes.py")
ROWS = re.compile(r"/out/|/data/|/(?:stdin|stdout)$")


class Recipe(NamedTuple):
    """Steps of a page, by their heading or the first cell of their row. They must name each file in these folders with the pattern."""

    page: str
    heading: str
    pattern: str
    within: tuple = FOLDERS


LEVELS = r"const (?:MAX_)?(?:DEPTH|LAYERS|LEVELS): \w+ = (?:4|16|256);"
RECIPES = (
    Recipe("docs/ARCHITECTURE.md", "Adding a field", "countersignature0_v2"),
    Recipe("CONTRIBUTING.md", "Add a registry entry", r"ESP384|-51\b(?<![\w-]-51)"),
    Recipe("CONTRIBUTING.md", "256 levels; 16 layers; four layers of a token", LEVELS, ("crates/",)),
    Recipe("CONTRIBUTING.md", "the two texts in `UnexpectedItem`", '"repeated array entry"|"non-signature"', ("crates/tool_",)),
)


# ---- steps


def steps(page, heading):
    """Returns the text under a heading of a page, or the row that begins with it."""
    text = read(page)
    row = re.search(rf"^\| {re.escape(heading)} \|.*$", text, re.M)
    return row[0] if row else text.partition(f"\n## {heading}\n")[2].partition("\n## ")[0]


def place(name, folder):
    """Returns the path of the file or folder of that name, or None. `crates/`, and the ending of Rattle's files, may be left out."""
    for path in (f"{start}{name}{end}" for start in ([f"{folder}/"] if folder else ["", "crates/"]) for end in (".rt", ".antt", "")):
        if os.path.exists(f"{HERE}/{path}"):
            return path
    return None


def named_by(text):
    """Returns the files that a text names in backquotes, and the names of files that aren't there.

    A name is a path, and a folder stands for all its files. After a folder with a `/` at its end come names in it, up to the end of
    the line. Those in brackets are no files."""
    found, missing = set(), []
    for line in text.split("\n"):
        folder, depth = None, 0
        for bracket, name in re.findall(r"([()])|`([^` ]+)`", line):
            depth += {"(": 1, ")": -1}.get(bracket, 0)
            is_path = name and not depth and (folder or "/" in name)
            path = place(name.rstrip("/"), None if name.endswith("/") else folder) if is_path else None
            if is_path and not path:
                missing.append(name)
            elif path and name.endswith("/"):
                folder = path
            elif path:
                found.update([path] if os.path.isfile(f"{HERE}/{path}") else files(path))
    return found, missing


def searched():
    """Returns the texts of the files that are searched, by their paths."""
    found = {}
    for path in (path for folder in FOLDERS for path in files(folder)):
        if path not in LEFT_OUT and not ROWS.search(path):
            with open(f"{HERE}/{path}", encoding="utf-8", errors="replace") as file:
                found[path] = file.read()
    return found


def incomplete(texts):
    """Yields the files with a pattern that its steps don't name, and the files that they name and the repository lacks."""
    for page, heading, pattern, within in RECIPES:
        named, missing = named_by(steps(page, heading))
        there = {path for path, text in texts.items() if path.startswith(within) and path != page and re.search(pattern, text)}
        if not there:
            yield f"{page}, '{heading}': no file has {pattern}"
        yield from (f"{page}, '{heading}': {it} isn't named, and has {pattern}" for it in sorted(there - named))
        yield from (f"{page}, '{heading}': there is no {it}" for it in missing)


# ---- numbers


def numbered(text):
    """Yields each name that a text of C, Python, JavaScript or Go gives a number, with the number."""
    several = re.compile(r"^\s*(\w+(?:, \w+)+) += (-?\d+(?:, -?\d+)+)$", re.M)
    for names, numbers in several.findall(text):
        yield from zip(names.split(", "), numbers.split(", "))
    text = several.sub("", text)
    yield from re.findall(r"(?<![\w.])(?:COSET_)?([A-Z]\w+)(?: =|:) (-?\d+)\b", text)
    yield from ((name, number) for number, name in re.findall(r'"(-?\d+)": \["(\w+)"', text))


def misnumbered(texts):
    """Yields the algorithms of tables for C, its wrappers and the page with another number than in IANA's registry."""
    own = {}
    for name, number in re.findall(r"^    (\w+) = (-?\d+),$", read("crates/coset_iana/src/algorithms.rt"), re.M):
        own[name] = number
    # Curves that have the name of an algorithm.
    curves = {"Ed25519": "6", "Ed448": "7"}
    found = [(path, *it) for path, text in texts.items() if path.startswith(("c/", "tools/")) for it in numbered(text) if it[0] in own]
    if not found:
        yield "no table has numbers of algorithms"
    yield from (f"{path}: {name} is {number}, and in IANA's registry {own[name]}" for path, name, number in found
                if number not in (own[name], curves.get(name)))


def wrong():
    """Yields what is wrong by these checks."""
    texts = searched()
    yield from incomplete(texts)
    yield from misnumbered(texts)
