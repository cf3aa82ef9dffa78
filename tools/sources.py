"""Reads the sources as text: code without its contracts, public items, definitions."""
import os
import re
import sys

sys.dont_write_bytecode = True
import common  # noqa: E402

HERE = common.HERE


def read(*path):
    with open(os.path.join(HERE, *path), encoding="utf-8") as file:
        return file.read()


def files(*path):
    """Yields the files of a folder of the repository, at any depth. What cargo built is left out. There are none if the folder doesn't
    exist."""
    for folder, folders, names in os.walk(os.path.join(HERE, *path)):
        folders[:] = [it for it in folders if it != "target"]
        for name in sorted(names):
            yield os.path.relpath(os.path.join(folder, name), HERE)


def closing(text, start):
    """Returns the position after the brace that closes the one before `start`."""
    depth, end = 1, start
    while depth and end < len(text):
        depth += {"{": 1, "}": -1}.get(text[end], 0)
        end += 1
    return end


# ---- brackets


def to_close(text, start, pairs="<>"):
    """Returns the position after the bracket that closes the one before `start`. An arrow closes none."""
    depth, end = 1, start
    while depth and end < len(text):
        if text[end] == pairs[0]:
            depth += 1
        elif text[end] == pairs[1] and text[end - 1] != "-":
            depth -= 1
        end += 1
    return end


def split(text):
    """Returns the parts of a list between commas that are outside all brackets."""
    found, depth, start = [], 0, 0
    for at, char in enumerate(text):
        depth += (char in "<([{") - (char in ")]}" or char == ">" and text[at - 1] != "-")
        if char == "," and not depth:
            found.append(text[start:at].strip())
            start = at + 1
    return [it for it in (*found, text[start:].strip()) if it]


# ---- code without its contracts

GHOST_USE = re.compile(r"^ *ghost use [^;]*;\n", re.M)
GHOST = re.compile(r"^(?: *///[^\n]*\n)* *ghost \w+(?:: \{[^\n]*\} = | = |: )\{", re.M)
CLAUSE = re.compile(r"(?:\n *//[^\n]*)*\n *(?:requires|ensures)\b[^{\n]*\{")
LAWS = re.compile(r"^use \w+::laws::(?:\{([^}]*)\}|(\w+));\n", re.M)

# An impl of Keys must say what its keys accept; this replacement says nothing about them.
KEYS = re.compile(r"^(impl\b[^\n]* Keys for [^\n]*\{\n)( *type Error = \w+;\n)", re.M)
SAYS_NOTHING = r"""\1    ghost use Rattle.cwt_keys.specs.Keys.{accept_anything};

\2
    ghost view = { λ keys. accept_anything };
"""


def without(text, pattern, tail=r""):
    """Returns the text without the parts that begin with the pattern. Each ends with its closing brace and the tail."""
    kept, at = [], 0
    while found := pattern.search(text, at):
        kept.append(text[at : found.start()])
        at = re.compile(tail).match(text, closing(text, found.end())).end()
    return "".join(kept) + text[at:]


def broken(head):
    """Returns a function's head in one line, or with one argument a line if it is longer than 100 columns."""
    opened = re.match(r" *(?:pub )?fn \w+(?:<[^(]*>)?\(", head)
    if len(head) <= 100 or not opened:
        return head
    close, margin = to_close(head, opened.end(), "()"), " " * (len(head) - len(head.lstrip()))
    return "\n".join([opened[0], *(f"{margin}    {it}," for it in split(head[opened.end() : close - 1])), f"{margin}){head[close:]}"])


def plain(source):
    """Returns the source without `ghost` items, `requires`, `ensures` and calls of laws, as a caller's own crate may have it."""
    laws = [it for found in LAWS.finditer(source) for it in re.findall(r"\w+", found[1] or found[2])]
    text = LAWS.sub("", GHOST_USE.sub("", source))
    for law in laws:
        text = re.sub(rf"^ *{law}(?:::<\w+>)?\(\);\n", "", text, flags=re.M)
    text = without(without(text, GHOST, r"[;,]?\n"), CLAUSE)
    # A signature without `where` opens its body in the same line.
    text = re.sub(r"((?:^|\n) *(?:pub )?fn (?:(?!\n *(?:where\n|\{\n))[^{;])*[^{;\s])\n *\{\n", r"\1 {\n", text)
    text = re.sub(r"^ *(?:pub )?fn [^\n]{90,} \{$", lambda found: broken(found[0]), text, flags=re.M)
    text = re.sub(r"\{\n\n+", "{\n", re.sub(r"\n\n\n+", "\n\n", text))
    return KEYS.sub(SAYS_NOTHING, text).lstrip("\n")


# ---- the parts of such code that a page shows

HEADED = re.compile(r"^(?:pub(?:\(\w+\))? )?(?:(fn|struct|enum|trait|type|const|mod) (\w+)|(impl\b[^\n{]*))", re.M)
USE = re.compile(r"^(?:pub )?use ([\w:]+?)(?:::\{([^}]*)\})?;\n?", re.M)


def head(part):
    """Returns the name of an item: its kind and name, or the first line of an `impl`."""
    found = HEADED.search(re.sub(r"^(?:///|//|#\[)[^\n]*\n", "", part, flags=re.M))
    return (found[3] or f"{found[1]} {found[2]}").strip() if found else part


def parts(code):
    """Returns the imports of code as pairs of a path and a name, and its items by their heads, both in order."""
    imports, items = [], {}
    for part in re.split(r"\n\n(?=\S)", re.sub(r"^//![^\n]*\n+", "", code, flags=re.M).strip("\n")):
        if part.startswith("use "):
            for path, names in USE.findall(part):
                imports += [(path, it.strip()) for it in names.split(",") if it.strip()] or [(path, "")]
        elif part:
            items[head(part)] = part
    return imports, items


def import_lines(imports):
    """Returns these imports in the layout of `rt fmt`: one `use` for each path."""
    lines = []
    for path in dict.fromkeys(it for it, _ in imports):
        names = [name for it, name in imports if it == path and name]
        line = f"use {path}::{{{', '.join(names)}}};" if len(names) > 1 else f"use {'::'.join([path, *names])};"
        if len(line) > 100:
            filled = [""]
            for name in names:
                if len(f"    {filled[-1]} {name},") > 100:
                    filled.append("")
                filled[-1] = f"{filled[-1]} {name},".strip()
            line = "\n".join([f"use {path}::{{", *(f"    {it}" for it in filled), "};"])
        lines.append(line)
    return "\n".join(lines)


def same_part(one, other):
    """Returns true if the two imports are the same, however path and name are divided."""
    return "::".join(filter(None, one)) == "::".join(filter(None, other))


def shown(source, imports, heads):
    """Returns these imports and items of a source without contracts, or the whole source if there are no items."""
    own, items = parts(plain(source))
    if not heads:
        imports, heads = own, items
    wanted = [it for it in own if any(same_part(it, that) for that in imports)]
    kept = [text for it, text in items.items() if it in heads]
    attributes = [it for it in kept if it.startswith("#!")]
    return "\n\n".join(filter(None, [*attributes, import_lines(wanted), *(it for it in kept if it not in attributes)])) + "\n"


# ---- definitions of specs/, and laws

NAME = re.compile(r"[\w\-']+")
DECLARED = re.compile(r"^ *(?:(?:abbrev|unfoldable|pub|mutual|record|data) )*(?P<name>[◌\w\-'=<>≤≡∷+*/|&×⊎→↦!?~^.]+)(?= *[:({] ?)", re.M)
IMPORT = re.compile(r"^(?:pub )?use Rattle\.(\w+)\.specs\.([\w.]+?)\.\{([^}]*)\}", re.M)


class Definition:
    """A paragraph of a file that declares some words, with their place (crate and file), the comment and the code."""

    def __init__(self, path, line, lines, known):
        self.path, self.line, self.text, self.known = path, line, "\n".join(lines), known
        crate, file = re.match(r"crates/(\w+)/\w+/(.+)\.\w+$", path).groups()
        self.place = (crate, file.replace("/", "."))
        comments = [it for it in lines if it.lstrip().startswith(("--", "///"))]
        self.comment = " ".join(it.strip().lstrip("-/").strip() for it in comments)
        self.code = "\n".join(it for it in lines if it not in comments)
        self.names = []


def imported(text, own):
    """Returns the words of this repository that a file of specs/ or src/ imports by name, each with its place."""
    known = {}
    for crate, file, names in IMPORT.findall(text.replace("ghost use", "use")):
        for it in names.split(","):
            name, _, other = it.strip().partition(" as ")
            known[other or name] = (crate, file)
    return {**known, **own}


def paragraphs(path, text):
    """Yields the paragraphs of a file of specs/, each with the number of its first line. Imports are left out."""
    start, lines = 1, []
    for number, line in enumerate([*text.split("\n"), ""], 1):
        if line.strip():
            lines.append(line)
            continue
        if lines and not lines[0].startswith("use "):
            yield start, lines
        start, lines = number + 1, []


def of_specs(path):
    """Returns the definitions of a file of specs/, with the words that each declares."""
    text, found = read(path), []
    for line, lines in paragraphs(path, text):
        it = Definition(path, line, lines, {})
        it.names = [name.strip("◌") for name in DECLARED.findall(it.code) if name.strip("◌:=") and NAME.search(name)]
        if it.names:
            found.append(it)
    own = {name: it.place for it in found for name in it.names}
    for it in found:
        it.known = imported(text, own)
    return found


LAW = re.compile(r"((?:^///[^\n]*\n)+)(?:^#\[[^\n]*\n)*^pub fn (\w+).*?^\}$", re.M | re.S)


def of_laws(path):
    """Yields the laws of a file laws.rt."""
    text = read(path)
    for law in LAW.finditer(text):
        code = law[0][: law[0].rindex("\n{\n")] if "\n{\n" in law[0] else law[0]
        it = Definition(path, text.count("\n", 0, law.start()) + 1, code.split("\n"), imported(text, {}))
        it.names = [law[2]]
        yield it


def definitions():
    """Returns all definitions and laws of the repository, by each word that they declare."""
    index = {}
    for crate in sorted(os.listdir(f"{HERE}/crates")):
        found = [it for path in files("crates", crate, "specs") if path.endswith(".antt") for it in of_specs(path)]
        if os.path.exists(f"{HERE}/crates/{crate}/src/laws.rt"):
            found += of_laws(f"crates/{crate}/src/laws.rt")
        for it in found:
            for name in dict.fromkeys(it.names):
                index.setdefault(name, []).append(it)
    return index
