"""Builds the library as a WebAssembly module for JavaScript, and makes the calls from there: in node and in Chromium.

The kit's code has 64-bit addresses. So its LLVM module is compiled for a 64-bit memory (tools/wasm64.py), and linked with the heap of
c/wrappers/c/heap.c, which wipes what it frees. Binaryen's wasm-opt then lowers the memory to 32-bit addresses, which every engine has.
Nothing of this is proved, so the version ends in ` (unproved)`. The results are compared."""
import functools
import http.server
import json
import os
import re
import shutil
import subprocess
import sys
import tempfile
import threading

import browser
import common
import wasm64
from capi import accepting, building, calling, hostile, install, names, trying
from capi.building import WRAPPERS
from capi.kinds import OK, REFUSED
from capi.vectors import named, token
from cbor import decode
from sources import read

HERE = common.HERE
# The parts of C's headers that the library's own files need. The kit has no headers.
HEADERS = {
    "stddef.h": "typedef __SIZE_TYPE__ size_t;\n",
    "stdint.h": "".join(f"typedef __{it.upper()}_TYPE__ {it}_t;\n" for it in ("uint8", "int32", "uint32", "int64", "uint64"))
                + "#define SIZE_MAX __SIZE_MAX__\n",
    "stdlib.h": "#include <stddef.h>\nvoid *malloc(size_t size);\nvoid free(void *block);\n",
    "string.h": "#include <stddef.h>\n#define memcpy __builtin_memcpy\n#define memset __builtin_memset\n",
}
# The largest module: what a page has to load.
LARGEST = 550_000
SCRIPTS = ("calls", "verify", "issue", "accept", "tests")
PAGE = '<!doctype html><script type="importmap">{"imports": {"coset-rattle": "/node_modules/coset-rattle/coset.mjs"}}</script>'


# ---- The module


def exports():
    return sorted(set(re.findall(r"\b(coset_\w+)\(", names.header()))) + ["malloc", "free"]


def must(message):
    if message:
        sys.exit(f"the module isn't compiled: {message}")


def compiled(folder, text):
    """Compiles the module's LLVM IR, the heap and the texts. Returns the paths of the object files."""
    for name, header in HEADERS.items():
        write(f"{folder}/include/{name}", header)
    write(f"{folder}/module.ll", wasm64.for_wasm(text, "minsize optsize nounwind"))
    flags = [*wasm64.WASM, "-ffreestanding", "-Wall", "-Wextra", "-Werror", f"-I{folder}/include", f"-I{HERE}/c/include", "-DCOSET_BLOCKS"]
    flags += ["-DCOSET_UNPROVED"]
    must(wasm64.clang(*wasm64.WASM, "-Oz", "-c", "-x", "ir", f"{folder}/module.ll", "-o", f"{folder}/module.o"))
    for path in (wasm64.HEAP, f"{WRAPPERS}/c/heap.c", f"{WRAPPERS}/c/text.c"):
        must(wasm64.clang(*flags, "-O2", "-c", path, "-o", f"{folder}/{len(os.listdir(folder))}.o"))
    return [f"{folder}/{it}" for it in sorted(os.listdir(folder)) if it.endswith(".o")]


def write(path, text):
    os.makedirs(os.path.dirname(path), exist_ok=True)
    with open(path, "w", encoding="utf-8") as file:
        file.write(text)


def module(quick):
    """Returns the path of the module for a 32-bit memory, which is built first if a source is newer."""
    language = building.module(quick)
    made = f"{os.path.dirname(language)}/coset.wasm"
    sources = [language, wasm64.HEAP, wasm64.__file__, __file__, *(f"{WRAPPERS}/c/{it}.c" for it in ("heap", "text"))]
    sources.append(f"{HERE}/c/include/coset.h")
    if not os.path.exists(made) or os.path.getmtime(made) < max(map(os.path.getmtime, sources)):
        with tempfile.TemporaryDirectory() as folder, common.signs_of_life("building coset.wasm"):
            with open(language, encoding="utf-8") as file:
                objects = compiled(folder, file.read())
            must(wasm64.link(objects, exports(), f"{folder}/wide.wasm"))
            must(wasm64.lowered(f"{folder}/wide.wasm", f"{folder}/coset.wasm"))
            shutil.move(f"{folder}/coset.wasm", made)
    return made


def lacking():
    """Returns a sentence on a tool that is missing for the module, or None."""
    lacks = wasm64.lacking()
    return f"{lacks} for JavaScript" if lacks else None


# ---- The package


def files(quick):
    """Returns the files of the package for npm, each as a function that writes it to a path."""
    copy = lambda path: lambda to: shutil.copy(path, to)
    words = {"UNPROVED": "; made from the proved module, and itself not proved"} if not quick else {}
    about = install.filled(read("c/packaging/js/package.json"), install.words("", "lib", quick) | words)
    return {"package.json": install.write(about), "LICENSE": install.write(read("LICENSE")), "coset.wasm": copy(module(quick)),
            "coset.d.ts": copy(f"{HERE}/c/packaging/js/coset.d.ts"), "coset.mjs": copy(f"{WRAPPERS}/js/coset.mjs")}


def package(folder, quick):
    """Writes the package for npm into a folder."""
    for name, put in files(quick).items():
        install.place(folder, name, put)


def installed(quick):
    """Returns the files below share/coset/js, as `files`, and the messages to print. There are no files if a tool is missing."""
    lacks = lacking()
    return ({}, [lacks]) if lacks else ({f"share/coset/js/{name}": put for name, put in files(quick).items()}, [])


def by_npm(folder, quick, data, payload, check):
    """Packs the package, installs it without a network, and runs the program of c/packaging/try. Returns a line."""
    if not shutil.which("npm"):
        return "there is no npm"
    package(f"{folder}/coset", quick)
    write(f"{folder}/user/package.json", '{"private": true}\n')
    shutil.copy(f"{HERE}/c/packaging/try/try.mjs", f"{folder}/user")
    quiet = ["--offline", "--no-audit", "--no-fund", "--silent", f"--cache={folder}/cache", "--no-update-notifier"]
    packed = trying.run("npm", "pack", f"{folder}/coset", *quiet, cwd=folder).splitlines()[-1]
    told = trying.run("npm", "install", f"{folder}/{packed}", *quiet, cwd=f"{folder}/user")
    got = trying.run("node", "try.mjs", data.hex(), cwd=f"{folder}/user")
    check(got == payload.hex(), f"installed by npm: {told} {got}")
    return "installed for npm"


# ---- Calls


def with_own_ciphers(word):
    """Yields the calls of `accepted` with ciphers of the language: the token of RFC 8392, appendix A.3, and each byte of its signature
    changed."""
    data, message = token()[0], decode(token()[0])[0][2][1]
    keys = [bytes.fromhex(row[1]) for row, _ in named("rfc8392-a.2")]
    words = [accepting.NBF, accepting.AS, bytes([0x80 + len(keys)]) + b"".join(keys), word]
    yield ("accepted", 0, data, words, OK, accepting.accepted())
    start = data.index(message[3][1])
    for place in range(start, start + len(message[3][1])):
        yield ("accepted", 0, data[:place] + bytes([data[place] ^ 1]) + data[place + 1:], words, REFUSED, None)


class Quiet(http.server.SimpleHTTPRequestHandler):
    """Serves files without a report of each."""

    extensions_map = {".mjs": "text/javascript", ".wasm": "application/wasm", ".html": "text/html"}

    def log_message(self, *_):
        pass


def in_chromium(folder, calls, check):
    """Makes the calls in headless Chromium, from a page on localhost. Returns a line."""
    if not browser.program():
        return "there is no Chromium"
    write(f"{folder}/page.html", PAGE)
    lines = calling.lines_for_wrapper(calls)
    with http.server.ThreadingHTTPServer(("127.0.0.1", 0), functools.partial(Quiet, directory=folder)) as server:
        threading.Thread(target=server.serve_forever, daemon=True).start()
        with browser.Browser() as page:
            page.open(f"http://127.0.0.1:{server.server_port}/page.html")
            told = []
            for start in range(0, len(lines), 2000):
                some = json.dumps(lines[start : start + 2000])
                told += page.run(f"import('/calls.mjs').then(it => it.answers({some}))")
        server.shutdown()
    calling.compare("Chromium", calls, lines, told, check)
    return f"from Chromium {len(calls)}"


def by_types(folder, check):
    """Compiles uses of the package with its types. Returns a line."""
    if not shutil.which("tsc"):
        return "there is no tsc"
    shutil.copy(f"{HERE}/c/packaging/try/types.mts", folder)
    words = ["--noEmit", "--strict", "--exactOptionalPropertyTypes", "--target", "es2022", "--module", "node16", "--moduleResolution", "node16"]
    told = trying.run("tsc", *words, "types.mts", cwd=folder)
    check(not told, f"coset.d.ts: {told}")
    return "types tried"


def laid_out(folder, quick):
    """Writes the package into a folder's node_modules, and the scripts that use it next to that."""
    os.makedirs(f"{folder}/node_modules")
    package(f"{folder}/node_modules/coset-rattle", quick)
    for name in SCRIPTS:
        shutil.copy(f"{WRAPPERS}/js/{name}.mjs", folder)


def tested(folder, wrong):
    """Runs the tests of the package. Returns their lines."""
    ran = subprocess.run(["node", "tests.mjs"], cwd=folder, capture_output=True, text=True, check=False)
    wrong.check(ran.returncode == 0, f"c/wrappers/js/tests.mjs: {ran.stderr[-2000:]}")
    return ran.stdout.splitlines()


def with_another_module(folder, check):
    """Checks that coset.mjs refuses a module of another version."""
    at = f"{folder}/node_modules/coset-rattle"
    write(f"{at}/other.mjs", re.sub(r"VERSION_NUMBER = 0x", r"\g<0>1", read("c/wrappers/js/coset.mjs"), count=1))
    told = trying.run("node", f"{at}/other.mjs")
    check("coset.wasm is of version" in told, f"coset.mjs takes a module of another version: {told[-300:]}")
    os.remove(f"{at}/other.mjs")


def tried(given, caller, calls, wrong):
    """Makes the calls from JavaScript, and checks that its texts are those of the program `caller`. Returns the lines to print."""
    lacks = lacking() or (None if shutil.which("node") else "there is no node for JavaScript")
    if lacks:
        return [lacks]
    size, calls, data = os.path.getsize(module(given.quick)), [*calls, *accepting.calls(), *with_own_ciphers("webcrypto")], token()[0]
    wrong.check(size < LARGEST, f"coset.wasm has {size} bytes")
    with tempfile.TemporaryDirectory() as folder:
        laid_out(f"{folder}/page", given.quick)
        node = ["node", f"{folder}/page/calls.mjs"]
        calling.from_wrapper("JavaScript", node, calls, wrong.check)
        texts = [calling.texts(*it, wrong.check) for it in ((given.quick, [([caller], {})]), (True, [(node, {})]))]
        wrong.check(texts[0] == texts[1], "JavaScript tells other texts")
        told = [f"from JavaScript {len(calls)}", *tested(f"{folder}/page", wrong), in_chromium(f"{folder}/page", calls, wrong.check)]
        with_another_module(f"{folder}/page", wrong.check)
        told += [hostile.nest(node, caller, wrong.check), hostile.damage("JavaScript", node, caller, wrong.check), by_types(f"{folder}/page", wrong.check)]
        return [*told, by_npm(folder, given.quick, data, decode(data)[0][2][1][2][1], wrong.check)]
