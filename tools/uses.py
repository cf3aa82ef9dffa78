"""Copies one use of crates/example_uses as a crate of its own, with its contracts, the definitions that they name, and its proofs."""
import os
import re
import sys

sys.dont_write_bytecode = True
import common  # noqa: E402
from sources import files, read  # noqa: E402

CRATE = "example_uses"
OURS = re.compile(rf"Rattle\.{CRATE}\.(specs\.declared|specs|proofs)\.(\w+)")
MODULE = re.compile(r"\bcrate::(\w+)")


def known():
    """Returns the names of the uses."""
    modules = (os.path.basename(it).removesuffix(".rt") for it in files("crates", CRATE, "src"))
    return sorted(it for it in modules if it != "lib")


def of_module(module):
    """Returns the paths of a module's source and of the proofs of its functions, within the crate."""
    proofs = (os.path.relpath(it, f"crates/{CRATE}") for it in files("crates", CRATE, "proofs", module))
    return [f"src/{module}.rt", *(it for it in proofs if it.endswith(".antt"))]


def named_in(text):
    """Yields the paths of the files that a source, a definition or a proof needs, within the crate."""
    for module in MODULE.findall(text):
        yield from of_module(module)
    for kind, name in OURS.findall(text):
        if kind == "specs.declared" or kind == "proofs" and not os.path.exists(f"{common.HERE}/crates/{CRATE}/proofs/{name}.antt"):
            yield from of_module(name)
        else:
            yield f"{kind}/{name}.antt"


def needed(use):
    """Returns the paths of all files that the use needs, within the crate."""
    found, left = set(), of_module(use)
    while left:
        path = left.pop()
        if path not in found:
            found.add(path)
            left += named_in(read("crates", CRATE, path))
    return sorted(found)


def lists(paths, name):
    """Yields the files that list others: their paths and texts."""
    modules = [os.path.basename(it).removesuffix(".rt") for it in paths if it.startswith("src/")]
    yield "src/lib.rt", f"//! The use `{name}` of the crate coset, with its contracts.\n#![tactic(auto)]\n\n" + "".join(f"pub mod {it};\n" for it in modules)
    for folder in ("specs", "proofs"):
        listed = [it.removesuffix(".antt") for it in (os.path.relpath(path, folder) for path in paths if path.startswith(f"{folder}/")) if "/" not in it]
        if listed:
            yield f"{folder}/Lib.antt", "".join(f"pub mod {it}\n" for it in listed)


def crates(use):
    """Returns the crates that a use may name, lowest first."""
    whole = "".join(read("crates", CRATE, it) for it in needed(use))
    return [it for it in common.named()[CRATE] if not it.startswith("cwt_") or it in whole]


def copy(use, to):
    """Copies a use into the folder of a crate of that name. Returns the crates that it may name, lowest first."""
    paths = needed(use)
    texts = {path: read("crates", CRATE, path).replace(f"Rattle.{CRATE}.", f"Rattle.{use}.") for path in paths}
    for path, text in (*texts.items(), *lists(paths, use)):
        os.makedirs(os.path.dirname(f"{to}/{path}"), exist_ok=True)
        with open(f"{to}/{path}", "w", encoding="utf-8") as file:
            file.write(text)
    return crates(use)
