"""Makes the page docs/API.md: each public item of the facade, of coset_seen and of the crates for web tokens, as the sources declare it, without contracts."""
import functools
import os
import re
import sys

sys.dont_write_bytecode = True
import common  # noqa: E402
import sources  # noqa: E402

HEADING = """# API

Each public type and function of `coset`, and of `coset_seen`, `cwt_verify`, `cwt_ring`, `cwt_keys`, `cwt_confirm` and `cwt_gate`, by the paths by which they are called, with the first sentence of its comment: `tools/pages --write` makes this page of the sources, where the contracts are too. Where a closure is an argument, its own type is in the place of a type parameter. What a call asks for first (`requires`) is in a table of docs/CALLING.md. Registries are under `coset::iana`, with their numbers and names; each has `EnumI64`, `Named` and `Display`.

A type that has `Codec` is read and written by the calls of `CborSerializable`, `AsCborValue` and `FromPull`, and one that has `TaggedCodec` by those of `TaggedCborSerializable` too.
"""
# The crates over the facade: messages that are seen, and web tokens.
OVER = ("coset_seen", "cwt_verify", "cwt_ring", "cwt_keys", "cwt_confirm", "cwt_gate")
FACADE = ("", "cwt", "cbor", "cbor::value", "cbor::de", "cbor::ser", "cbor::head", "cbor::cursor", "iana")
ITEM = re.compile(r"((?:^ *///[^\n]*\n|^ *#\[[^\n]*\n)*)^( *)pub (struct|enum|trait|type|const fn|fn|const) (\w+)(.*?)$", re.M)
IMPL = re.compile(r"^impl\b(.*?)\s*\{(\}?)\n", re.M | re.S)
METHOD = re.compile(r"((?:^    ///[^\n]*\n|^    #\[[^\n]*\n)*)^    (pub )?(?:(?:const )?fn (\w+)|((?:const|type) \w+: [^\n;=]*);$)", re.M)
FIELD = re.compile(r"((?:^    ///[^\n]*\n|^    #\[[^\n]*\n)*)^    (pub )?(\w+)(?:(?:: (.*)|\((.*)\)|( = -?\w+)|)),$", re.M)
# Traits that every type has, or that no caller writes.
PASSED_OVER = {"Model", "Drop", "Eq", "PartialOrd", "Registry", "InPlace", "MapVisitor", "ValueTryAs"}


@functools.lru_cache(maxsize=None)
def crate_files(crate):
    """Returns the files of a crate without contracts, by their paths."""
    return {path: sources.plain(sources.read(path)) for path in sources.files("crates", crate, "src")}


def sentence(comment):
    """Returns the first sentence of a doc comment in one line. If a block of code ends the sentence, it is included."""
    lines = [line.strip()[3:].strip() for line in comment.split("\n") if line.strip().startswith("///")]
    end = lines.index("") if "" in lines else len(lines)
    text = " ".join(lines[:end])
    if lines[end + 1 : end + 2] and lines[end + 1].startswith("```") and text[-1] not in ".:":
        text += f" `{' '.join(lines[end + 2 : lines.index('```', end + 2)])}`."
    text = re.sub(r"\[(`[^`]*`)\](?:\([^)]*\))?", r"\1", text)
    return re.split(r"(?<=[.]) (?=[A-Z`])", text)[0]


def module_file(crate, module):
    """Returns the file of a module of a crate. The module is a path with `::`."""
    base = f"crates/{crate}/src/"
    for path in (f"{module.replace('::', '/')}.rt", f"{module.replace('::', '/')}/mod.rt") if module else ("lib.rt", "main.rt"):
        if os.path.exists(f"{common.HERE}/{base}{path}"):
            return base + path
    return None


@functools.lru_cache(maxsize=None)
def exports(crate, module=""):
    """Returns the names that a module exports by `pub use`, each with the path that it stands for."""
    found, text = {}, sources.read(module_file(crate, module))
    for path, names in re.findall(r"^pub use ([\w:]+?)(?:::\{([^}]*)\})?;", text, re.M):
        for it in [it.strip() for it in names.split(",") if it.strip()] or [path.rpartition("::")[2]]:
            own = it.partition(" as ")
            found[own[2] or own[0]] = f"{path if names else path.rpartition('::')[0]}::{own[0]}"
    return found


def resolved(crate, module, name):
    """Returns the crate, module and name where an exported name of a module is declared. For a module the name is None."""
    text = sources.read(module_file(crate, module))
    if re.search(rf"^pub (?:struct|enum|trait|type|const fn|fn|const) {name}\b", text, re.M):
        return crate, module, name
    path = exports(crate, module).get(name)
    if path is None:
        inner = "::".join(filter(None, [module, name]))
        return (crate, inner, None) if module_file(crate, inner) else None
    first, *rest = path.split("::")
    if first in ("crate", "self"):
        return resolved(crate, "::".join(rest[:-1]), rest[-1])
    if os.path.isdir(f"{common.HERE}/crates/{first}"):
        return through(first, rest)
    return resolved(crate, "::".join(filter(None, [module, *path.split("::")[:-1]])), path.split("::")[-1])


def through(crate, path):
    """Returns where the item of this path of a crate is declared."""
    at = (crate, "")
    for name in path:
        found = resolved(*at, name)
        if found is None or found[2]:
            return found
        at = found[:2]
    return *at, None


def names_of(crate, module):
    """Returns the public names of a module in alphabetical order, without its modules."""
    text = sources.read(module_file(crate, module))
    own = re.findall(r"^pub (?:struct|enum|trait|type|const fn|fn|const) (\w+)", text, re.M)
    return sorted({*own, *exports(crate, module)})


# ---- signatures


def signature(code, start):
    """Returns the signature of the function whose name begins at `start`, in one line. Types of closures are in place."""
    end = re.compile(r"\s*(?:\{\}?\n|;\n|\n *\{\}?\n)").search(code, start)
    text = re.sub(r"\s+", " ", code[start : end.start()]).replace("( ", "(").replace(", )", ")")
    text, _, where = text.replace("(mut self", "(self").partition(" where ")
    bounds = dict(it.partition(": ")[::2] for it in sources.split(where))
    name, generics = re.match(r"\w+", text)[0], []
    if text[len(name)] == "<":
        close = sources.to_close(text, len(name) + 1)
        generics, text = sources.split(text[len(name) + 1 : close - 1]), name + text[close:]
    kept = []
    for it in generics:
        parameter, _, bound = it.partition(": ")
        bound = bounds.get(parameter, bound)
        bound = " + ".join(part for part in re.split(r" \+ (?=\w+$)", bound) if part != "Drop")
        if bound.startswith("FnOnce") and len(re.findall(rf": {parameter}\b", text)) == 1:
            text = re.sub(rf": {parameter}\b", lambda _, bound=bound: f": {bound}", text)
        elif parameter.startswith("'") or not bound:
            kept.append(parameter)
        else:
            kept.append(f"{parameter}: {bound}")
    rest = f"<{', '.join(kept)}>" if kept else ""
    return name + rest + text[len(name) :]


def line(text, comment):
    """Returns a line of a list: code, and the first sentence of its comment."""
    said = sentence(comment)
    return f"- `{text}`" + (f": {said}" if said else "")


def methods(code, public):
    """Yields the lines of the functions in the body of an impl or a trait."""
    for found in METHOD.finditer(code):
        if not public or found[2]:
            yield line(found[4] or f"fn {signature(code, found.start(3))}", found[1])


def body(code, start):
    """Returns the body that begins at `start`, up to its closing brace."""
    return code[start : sources.closing(code, start) - 1].lstrip("\n")


def without_generics(text):
    """Returns the text of an impl's head after its own parameters."""
    return text[sources.to_close(text, 1) :].strip() if text.startswith("<") else text.strip()


@functools.lru_cache(maxsize=None)
def impls():
    """Returns each impl of the library and the gate: its type's name, its trait or none, its file, and its body."""
    found = []
    for crate in common.below("coset", *OVER):
        for path, code in crate_files(crate).items():
            for it in IMPL.finditer(code):
                head = re.sub(r"\s+", " ", without_generics(it[1])).partition(" where ")[0]
                trait, _, of = head.rpartition(" for ")
                name = re.match(r"&?(?:'\w+ )?(?:mut )?([\w:]+)", of)
                if name and not re.match(r"<?\w+: ", of):
                    found.append((name[1].rpartition("::")[2], trait, path, "" if it[2] else body(code, it.end())))
    return found


@functools.lru_cache(maxsize=None)
def of_one_name():
    """Returns the names that several items of the library and the gate share."""
    names = [it[4] for crate in common.below("coset", *OVER) for code in crate_files(crate).values() for it in ITEM.finditer(code) if not it[2]]
    return {it for it in names if names.count(it) > 1}


def impls_of(name, path):
    """Yields the impls of a type that this file declares. If several types share the name, the impls are in the same file."""
    folder = path.partition("/src/")[0]
    for it, trait, where, inner in impls():
        if it == name and (where == path or name not in of_one_name()) and (trait or where.startswith(folder + "/")):
            yield trait, inner


def members(kind, code, start):
    """Returns the lines of the public fields of a struct, or of the variants of an enum."""
    rest = code[start:]
    if kind == "struct" and (place := re.match(r"[^\n{;]*\((.*)\);\n", rest)):
        return [line(f"{n}: {it.removeprefix('pub ')}", "") for n, it in enumerate(sources.split(place[1])) if it.startswith("pub ")]
    if not (opened := re.match(r"[^{;]*\{\n", rest)):
        return []
    inner = body(code, start + opened.end())
    if kind == "struct":
        found = [line(f"{it[3]}: {it[4]}", it[1]) for it in FIELD.finditer(inner) if it[2]]
    else:
        found = [line(f"{it[3]}({it[5]})" if it[5] else it[3], it[1]) for it in FIELD.finditer(inner)]
    return found


def traits_of(name, path, attributes):
    """Returns the type's traits that callers use, in alphabetical order, and then the types that convert from it."""
    derived = [it for found in re.findall(r"derive\(([^)]*)\)", attributes) for it in sources.split(found)]
    own = {re.sub(r"\b(?:\w+::)+", "", it) for it in (*derived, *(trait for trait, _ in impls_of(name, path) if trait))}
    made = {f"{trait} for {it}" for it, trait, _, _ in impls() if it != name and re.fullmatch(rf"(?:Try)?From<{name}>", trait)}
    return [*sorted(own - PASSED_OVER), *sorted(made)]


def registry(path, code, inner):
    """Returns the table of a registry: numbers, values, names in the registry, and their comments."""
    name = path.rpartition("::")[2]
    names = dict(re.findall(rf'^ *{name}::(\w+) => "([^"]*)",$', code, re.M))
    rows = [(it[6].removeprefix(" = "), it[3], names.get(it[3], ""), sentence(it[1])) for it in FIELD.finditer(inner)]
    return ["| Number | Value | Name | What it is |", "|---|---|---|---|", *(f"| {n} | `{value}` | {named} | {text} |" for n, value, named, text in rows)]


def item(path, crate, module, name):
    """Returns the lines of an item that is declared there and has this path, and whether it is a type with a heading."""
    file = module_file(crate, module)
    code = crate_files(crate)[file]
    found = next(it for it in ITEM.finditer(code) if it[4] == name and not it[2])
    kind, comment = found[3], found[1]
    if kind in ("fn", "const fn"):
        return False, [line(f"fn {signature(code, found.start(4))}", comment)]
    if kind in ("type", "const"):
        text = re.sub(r"\s+", " ", code[found.start(4) : code.index(";", found.start(4))])
        for path_of, known in sources.parts(code)[0]:
            if " as " in known:
                text = re.sub(rf"\b{known.partition(' as ')[2]}\b", f"{path_of}::{known.partition(' as ')[0]}", text)
        return False, [line(f"{kind} {text.replace('coset_iana::', 'iana::')}", comment)]
    lines = [f"### `{path}`", "", sentence(comment), ""]
    if kind == "trait":
        return True, [*lines, *methods(body(code, code.index("{\n", found.start(4)) + 2), False)]
    if crate == "coset_iana":
        return True, [*lines, *registry(path, code, body(code, code.index("{\n", found.start(4)) + 2))]
    lines += members(kind, code, found.end(4))
    for trait, inner in impls_of(name, file):
        if not trait:
            lines += methods(inner, True)
    traits = traits_of(name, file, comment)
    return True, [*lines, *([f"- has `{'`, `'.join(traits)}`"] if traits else [])]


def section(crate, module, path, known):
    """Returns the section of a module: its functions, then its types. An item with another path already is left out."""
    functions, types = [], []
    for name in names_of(crate, module):
        own, found = f"{path}::{name}", resolved(crate, module, name)
        if found is None:
            functions.append(f"{own}: it isn't found in the sources")
        elif found[2] and found in known:
            functions.append(f"- `{name}`: `{known[found]}`")
        elif found[2]:
            known[found] = own
            is_type, lines = item(own, *found)
            (types if is_type else functions).extend(["", *lines] if is_type else lines)
    return [f"## `{path}`", "", *functions, *types, ""]


def laws():
    """Returns the section of the laws."""
    lines = ["## `coset::laws`", "", "Each is an empty function, whose contract is a theorem: a proof calls it.", ""]
    for name, path in sorted(exports("coset", "laws").items()):
        crate, *rest = path.split("::")
        code = crate_files(crate)[module_file(crate, "laws")]
        found = next(it for it in ITEM.finditer(code) if it[4] == rest[-1])
        lines.append(line(name, found[1]))
    return [*lines, ""]


def page():
    """Returns the page."""
    lines, known = [HEADING], {}
    for module in FACADE:
        crate, inner = ("coset", module) if module_file("coset", module) else through("coset", module.split("::"))[:2]
        lines += section(crate, inner, "::".join(filter(None, ["coset", module])), known)
    for crate in OVER:
        lines += section(crate, "", crate, known)
    lines += laws()
    return re.sub(r"\n{3,}", "\n\n", "\n".join(lines)).rstrip("\n") + "\n"
