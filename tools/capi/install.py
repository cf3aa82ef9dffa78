"""Installs the files for users of the C interface, for `tools/c --install PREFIX`. They come from c/packaging/ and c/wrappers/:

    include/*.h                 the headers
    LIBDIR                      libcoset.a and libcoset.so, coset.pc for pkg-config, and the files of CMake
    share/coset/python          the source of a package for pip, without the library: `pip install PREFIX/share/coset/python`
    share/coset/go              a package for Go, by cgo and pkg-config
    share/coset/js              a package for npm, if the tools for its module are there (tools/capi/wasm.py)
    share/doc/coset             docs/C.md and the license
    share/coset/installed.txt   the paths of all these files, from PREFIX

`tools/c --uninstall PREFIX` removes the files of that list. LIBDIR is `lib`, or the folder that --libdir names.
"""
import contextlib
import os
import re
import shutil
import sys

from capi import interface
from capi.hints import MODULES
from sources import HERE, read

LIST = "share/coset/installed.txt"
# The characters that have a meaning in coset.pc.
ODD = '"#$\\`\n'


def filled(text, words):
    """Returns the text of a file of c/packaging/ with each @WORD@ replaced."""
    return re.sub(r"@([A-Z_]+)@", lambda it: words[it[1]], text)


def words(prefix, libdir, quick):
    """Returns the text for each @WORD@."""
    return {"PREFIX": prefix, "LIBDIR": libdir, "UP": os.path.relpath(".", f"{libdir}/cmake/coset"),
            "VERSION": interface.version(), "NUMBERS": interface.numbers(), "OLDEST": interface.oldest(),
            "SONAME": interface.soname(), "FILE": interface.file_name(),
            "PYTHON_VERSION": interface.version().replace("-", "+", 1), "PROVED": "no" if quick else "yes",
            "UNPROVED": "; built with --quick, not proved" if quick else ""}


def texts(found):
    """Returns each text that is installed, by its path from the prefix. `found` are the words to fill in."""
    fill = lambda path: filled(read(f"c/packaging/{path}"), found)
    lib, python = found["LIBDIR"], "share/coset/python"
    made = {f"include/{it}": read(f"c/include/{it}") for it in sorted(os.listdir(f"{HERE}/c/include")) if it.endswith(".h")}
    made[f"{lib}/pkgconfig/coset.pc"] = fill("coset.pc.in")
    for name in ("coset-config.cmake", "coset-config-version.cmake"):
        made[f"{lib}/cmake/coset/{name}"] = fill(f"cmake/{name}")
    for name in ("pyproject.toml", "backend.py", "PKG-INFO"):
        made[f"{python}/{name}"] = fill(f"python/{name}")
    for name in MODULES:
        made[f"{python}/coset/{name}.py"] = read(f"c/wrappers/python/coset/{name}.py")
        made[f"{python}/coset/{name}.pyi"] = read(f"c/packaging/python/coset/{name}.pyi")
    made |= {f"{python}/coset/py.typed": "", f"{python}/LICENSE": read("LICENSE")}
    made |= {f"share/coset/go/{name}": read(f"c/wrappers/go/coset/{name}") for name in ("coset.go", "go.mod")}
    made["share/coset/go/LICENSE"] = read("LICENSE")
    return made | {"share/doc/coset/C.md": read("docs/C.md"), "share/doc/coset/LICENSE": read("LICENSE")}


def listed(root):
    """Returns the paths that are installed below a folder, by their list."""
    if not os.path.exists(f"{root}/{LIST}"):
        return []
    with open(f"{root}/{LIST}", encoding="utf-8") as file:
        paths = file.read().splitlines()
    # A list of others must not lead out of the folder.
    return [it for it in paths if not os.path.isabs(it) and ".." not in it.split("/")]


def remove(root, paths):
    """Removes these files, and what Python compiled of them. Removes those of their folders that are only for coset, if they are
    then empty."""
    for path in paths:
        with contextlib.suppress(FileNotFoundError):
            os.remove(f"{root}/{path}")
        if path.endswith(".py"):
            shutil.rmtree(f"{root}/{os.path.dirname(path)}/__pycache__", ignore_errors=True)
        while "coset" in (path := os.path.dirname(path)).split("/"):
            with contextlib.suppress(OSError):
                os.rmdir(f"{root}/{path}")


def place(root, path, put):
    """Calls `put` with a new file's path, and gives the file its name. A running program keeps its old file."""
    os.makedirs(os.path.dirname(f"{root}/{path}"), exist_ok=True)
    put(f"{root}/{path}.new")
    os.replace(f"{root}/{path}.new", f"{root}/{path}")


def write(text):
    """Returns a function that writes the text to a file."""
    def put(to):
        with open(to, "w", encoding="utf-8") as file:
            file.write(text)
    return put


def libdir_in(prefix, libdir):
    """Returns the libraries' folder from the prefix. Ends the script if it isn't below the prefix, or a path is odd."""
    found = os.path.relpath(os.path.join(prefix, libdir), prefix)
    if found.split("/")[0] in ("..", "."):
        sys.exit(f"{libdir} isn't below {prefix}")
    if set(ODD) & set(prefix + found):
        sys.exit(f"pkg-config can't read a path with one of the characters {ODD.strip()}: {prefix}/{found}")
    return found


def install(library, prefix, quick, below="", libdir="lib", more=()):
    """Installs the library (libcoset.a and libcoset.so of a folder) for a prefix. Returns the messages to print.

    `below` precedes the paths during the installation, as in the build of a package. Files of an earlier installation that
    this one doesn't have are removed."""
    prefix = os.path.abspath(prefix)
    libdir, root = libdir_in(prefix, libdir), below + prefix
    puts = {path: write(text) for path, text in texts(words(prefix, libdir, quick)).items()}
    link = lambda to: lambda new: os.symlink(to, new)
    copy = lambda name: lambda new: shutil.copy(f"{library}/{name}", new)
    puts |= {f"{libdir}/libcoset.a": copy("libcoset.a"), f"{libdir}/{interface.file_name()}": copy("libcoset.so")}
    puts |= {f"{libdir}/{name}": link(interface.file_name()) for name in (interface.soname(), "libcoset.so")}
    puts |= dict(more)
    puts[LIST] = write("".join(f"{path}\n" for path in sorted({*puts, LIST})))
    before = set(listed(root))
    for path, put in puts.items():
        place(root, path, put)
    remove(root, sorted(before - puts.keys()))
    return [f"installed in {root}: coset {interface.version()}{', built without a proof' if quick else ''}"]


def uninstall(prefix, below=""):
    """Removes what was installed for a prefix. Returns the messages to print."""
    root = below + os.path.abspath(prefix)
    paths = listed(root)
    if not paths:
        sys.exit(f"there is no list of what was installed: {root}/{LIST}")
    remove(root, paths)
    return [f"removed from {root}: {len(paths)} files"]
