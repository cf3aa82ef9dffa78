"""Checks of tools/pages that need nothing built: links and paths, programs, the places of promises, the kit's version, the texts
of edits, the size of the extractor."""
import os
import re
import sys

sys.dont_write_bytecode = True
import common  # noqa: E402
import edits  # noqa: E402
from sources import files, read, shown  # noqa: E402

HERE = common.HERE
WORD = re.compile(r"[A-Za-z_]\w*")
LINK = re.compile(r"\]\(([^)#\s]*)(?:#([^)]*))?\)")
# A path in backquotes, or in the text of a page: one that begins with a folder of the repository.
PATH = re.compile(r"(?<![\w/.])((?:crates|tools|c|docs|edits|rust|coset_\w+|cwt_\w+|ffi_\w+|tool_\w+|test_\w+|example_\w+)/[\w./*-]+)")
PROGRAM = re.compile(r"^In \[[^\]\n]*\]\(\.\./(crates/\w+/src/main\.rt)\):\n\n```rust\n(.*?)^```", re.M | re.S)


def pages():
    """Returns the paths of all pages."""
    found = [*sorted(it for it in os.listdir(HERE) if it.endswith(".md")), *files("docs"), *(it for it in files("rust") if it.endswith(".md"))]
    return [*found, *(f"crates/{it}/README.md" for it in sorted(os.listdir(f"{HERE}/crates")) if os.path.exists(f"{HERE}/crates/{it}/README.md"))]
CONTRACT = re.compile(r"^In \[[^\]\n]*\]\(\.\./(crates/\w+/src/\w+\.rt)\), with its contract:\n\n```rust\n(.*?)^```", re.M | re.S)


# ---- links and paths


def is_there(path):
    """Returns true if the repository has this file or folder. A path may begin with the name of a crate, and leave out `src/`."""
    crate, _, rest = path.partition("/")
    places = [path, f"crates/{path}", f"crates/{crate}/src/{rest}"]
    return any(os.path.exists(f"{HERE}/{it}") for it in places)


def headings(page):
    """Returns the names by which links lead to the headings of a page."""
    return {re.sub(r"[^\w\- ]", "", it.lower()).replace(" ", "-") for it in re.findall(r"^#+ (.*)$", page, re.M)}


def astray(page):
    """Yields the links and paths of a page that lead to no file or heading. Built files, patterns, and words in capitals aren't
    checked."""
    text, folder = read(page), os.path.dirname(page)
    for link, heading in LINK.findall(text):
        place = os.path.normpath(os.path.join(folder, link)) if link else page
        if "://" not in link and not os.path.exists(os.path.join(HERE, place)):
            yield f"{page}: there is no {link}"
        elif heading and place.endswith(".md") and heading not in headings(read(place)):
            yield f"{page}: no heading of {place} is #{heading}"
    prose = re.sub(r"^```.*?^```", "", text, flags=re.M | re.S)
    for path in sorted({it.rstrip("./-") for it in PATH.findall(prose)}):
        if not re.search(r"[*]|/out(/|$)|\b[A-Z]{4,}\b", path) and not path.startswith("crates/hello") and not is_there(path):
            yield f"{page}: there is no {path}"


# ---- programs


def unlike():
    """Yields the programs of pages that aren't their files without contracts. A line `In [path](../path):` is above each. Under
    a line `In [path](../path), with its contract:` is a part of the file as it is."""
    for page in pages():
        for path, program in PROGRAM.findall(read(page)):
            if program != shown(text_of(path) or "", [], []):
                yield f"{page}: the program isn't that of {path}"
        for path, part in CONTRACT.findall(read(page)):
            if part not in (text_of(path) or ""):
                yield f"{page}: the part isn't in {path}"


# ---- promises

# Cells of 'Where' that stand for many crates.
EVERYWHERE = ("specs of each crate", "builders", "each call")


def module(crate, name):
    """Returns the text of a crate's modules of that name, or of its folder specs/. An empty text: there are none."""
    if name == "specs":
        return "".join(read(it) for it in files("crates", crate, "specs"))
    return "".join(read(it) for it in files("crates", crate, "src") if os.path.basename(it) == f"{name}.rt")


def crate_text(crate):
    """Returns the text of a crate's code, contracts and definitions."""
    return "".join(read(it) for part in ("src", "specs") for it in files("crates", crate, part))


def texts_at(cell):
    """Yields each place that a cell 'Where' names, with its text: `crate`, module, .. or laws, or many crates. Other words yield nothing."""
    crate, parts = None, [it.strip() for it in re.split("[,;]", cell)]
    if cell in EVERYWHERE:
        yield cell, "".join(crate_text(it) for it in sorted(os.listdir(os.path.join(HERE, "crates"))))
    for at, part in enumerate(parts):
        if named := re.fullmatch(r"`(\w+)`", part):
            crate = named[1]
            if at + 1 == len(parts) or parts[at + 1] == "laws" or parts[at + 1].startswith("`"):
                yield part, crate_text(crate)
        elif part == "laws":
            yield part, read("crates", "coset", "src", "laws.rt")
        elif of := re.fullmatch(r"laws of `(\w+)`", part):
            yield part, module(of[1], "laws")
        elif crate:
            yield f"{crate}, {part}", module(crate, part)


def misplaced():
    """Yields the promises of PROVED whose contract isn't where the row says."""
    rows = [row.split(" | ") for row in re.findall(r"^\| (.*) \|$", read("docs", "PROVED.md"), re.M)]
    promises = [cells for cells in rows if len(cells) == 3 and cells[2] != "Where"]
    if not promises:
        yield "PROVED has no promises"
    for cells in promises:
        texts = dict(texts_at(cells[2]))
        if not texts:
            yield f"PROVED: {cells[2]} is no place"
        yield from (f"PROVED: there is no {it}" for it, text in texts.items() if not text)
        known = set(WORD.findall("".join(texts.values())))
        for code in re.findall(r"`([^`]+)`", cells[1]) if texts else ():
            if unknown := [it for it in WORD.findall(code) if it not in known and not it.endswith("_")]:
                yield f"PROVED: {cells[2]} has no {unknown[0]}: {cells[0][:80]}"


# ---- the kit


def other_kit():
    """Yields the pages that name another kit than the installed one (`common.is_kit`)."""
    installed = common.rt("version")
    for page in pages():
        for named in sorted(set(re.findall(r"rattle-kit-\w+(?: logic \w+)?", read(page)))):
            if page != "CHANGELOG.md" and not common.is_kit(named, installed):
                yield f"{page}: {named} is named, and {installed} is installed"


# ---- edits


def unfit():
    """Yields the edits whose old text isn't in its file exactly once."""
    for crate in sorted(os.listdir(f"{HERE}/crates")):
        found = [(f"edits/{crate}.edits: {name}", lines) for name, lines in edits.records(crate, "edit", "planted")] if crate in edits.crates() else []
        found += [(path, read(path)) for path in files("crates", crate, "must-fail") if path.endswith(".edit")]
        for name, lines in found:
            yield from edits.misplaced(lambda path: text_of(f"crates/{crate}/{path}"), name, lines)


def text_of(path):
    return read(path) if os.path.exists(f"{HERE}/{path}") else None


# ---- the Rust package

# The pages that say what makes the Rust package, and their words for its size, in one line.
ON_EXTRACTOR = ("README.md", "SECURITY.md", "docs/PROVED.md", "rust/README.md")
SIZE = re.compile(r"(a program of at most )([\d,]+)( lines)")


def extractor_size():
    """Returns the number of lines of the program that makes the Rust package, rounded up to hundreds. Its tests are in a folder."""
    names = sorted(it for it in os.listdir(f"{HERE}/rust/extractor") if it.endswith(".rs"))
    lines = sum(read("rust", "extractor", it).count("\n") for it in names)
    return f"{-(-lines // 100) * 100:,}"


def missized(is_written):
    """Yields the pages that don't say how long the extractor is. If `is_written` is true, it first writes the number."""
    for page in ON_EXTRACTOR:
        if is_written:
            text = SIZE.sub(rf"\g<1>{extractor_size()}\3", read(page))
            with open(f"{HERE}/{page}", "w", encoding="utf-8") as file:
                file.write(text)
        told = {it[1] for it in SIZE.findall(read(page))}
        if told != {extractor_size()}:
            yield f"{page}: the extractor has at most {extractor_size()} lines; the page says {', '.join(sorted(told)) or 'nothing'}"


def wrong(is_written):
    """Yields what is wrong by these checks. If `is_written` is true, they write what they can."""
    for page in pages():
        if not read(page).strip():
            yield f"{page} is empty"
        yield from astray(page)
    yield from unlike()
    yield from misplaced()
    yield from other_kit()
    yield from unfit()
    yield from missized(is_written)
