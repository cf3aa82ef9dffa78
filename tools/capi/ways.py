"""What `tools/c` does with the built library, by its options.

Each function gets the arguments of the command, the folder of the library, its object files, and a list of what is wrong. It
returns the lines to print."""
import glob
import importlib.util
import os
import re
import shutil
import subprocess
import sys
import tempfile

from capi import (accepting, attack, calling, depths, examples, golang, hostile, install, interface, items, limits, memory, messages,
                  misuses, openers, openssl, rows, shapes, targets, tokens, trying, wasm)
from capi.building import HERE, WRAPPERS, archive, build, build_callers, own_heap, run
from capi.vectors import token
from cbor import decode
from sources import read

ATTACKS, TARGET_ATTACKS = 2_000_000, 200_000
# The calls about tokens that are made again with refused allocations.
TOKENS = ("token ", "open ", "fits ")


def kept(given, folder, objects, wrong):
    """Leaves the library in the folder of --keep. Returns the paths of its files."""
    os.makedirs(given.keep, exist_ok=True)
    if given.target:
        return [*targets.kept(given.target, folder, given.keep), *wrong]
    name = "coset_unproved" if given.quick else "coset"
    if given.own_heap:
        own_heap(folder, objects, wrong.check)
        return [shutil.copy(f"{folder}/own/libcoset.a", os.path.join(given.keep, f"lib{name}.a")), *wrong]
    paths = [shutil.copy(f"{folder}/libcoset.{it}", os.path.join(given.keep, f"lib{name}.{it}")) for it in ("a", "so")]
    # The name by which a program finds the shared library when it starts. A name of another interface would be wrong.
    shared = os.path.join(given.keep, interface.soname())
    for old in glob.glob(os.path.join(glob.escape(given.keep), "libcoset.so.*")):
        if old == shared or os.path.islink(old) and os.readlink(old) in ("libcoset.so", "libcoset_unproved.so"):
            os.remove(old)
    os.symlink(f"lib{name}.so", shared)
    return [*paths, shared, *wrong]


def installed(given, folder, _, wrong):
    """Installs the library below the folder of --install."""
    below, is_unproved = os.environ.get("DESTDIR", ""), given.quick or bool(given.target)
    more, lacks = ({}, []) if given.target else wasm.installed(given.quick)
    return [*install.install(folder, given.install, is_unproved, below, given.libdir or "lib", more), *lacks, *wrong]


def attacked(given, folder, objects, wrong):
    """Attacks the library by so many calls as --attack says."""
    is_right, report = attack.attack(folder, objects, given.attack)
    wrong.check(is_right, report)
    return [*([report] if is_right else []), *wrong]


def timed(_, folder, __, wrong):
    """Times the verifier and the issuer in C with the token of RFC 8392, appendix A.3."""
    sources = [f"{WRAPPERS}/c/{name}.c" for name in ("time", "verify", "issue")]
    run(["cc", "-std=c11", "-O2", f"-I{HERE}/c/include", "-o", "time", *sources, "libcoset.a"], cwd=folder)
    return [*run([f"{folder}/time", token()[0].hex()]).splitlines(), *wrong]


def measured(_, folder, objects, wrong):
    """Measures the stack and the memory of calls, and compares the tables with docs/C.md."""
    lines = list(limits.tables(own_heap(folder, objects, wrong.check), token()[0]))
    lacking = [line for line in lines if line not in read("docs", "C.md")]
    wrong.check(not lacking, "\n".join(["docs/C.md doesn't have", *lacking]))
    return [*lines, *wrong]


def tested(given, folder, _, wrong):
    """Makes the calls with the library for a target, and with that of x86-64 Linux."""
    with tempfile.TemporaryDirectory() as here:
        objects = build(here, archive(given.quick), given.quick, wrong.check)
        lines = [line for call in every_call(wrong.check)[1] for line, _ in calling.lines_of(*call)]
        told = targets.tried(given.target, folder, (here, objects), lines, TARGET_ATTACKS, wrong.check)
    return [*told, *(text[:1000] for text in wrong[:20])]


# ---- all calls


def every_call(check):
    """Returns the calls that are made in each language, and all calls from C."""
    of_messages = [*messages.sealed_calls(), *messages.mac_calls(), *messages.index_calls(), *messages.critical_calls(check)]
    calls = [*rows.calls(check), *examples.calls(check), *of_messages, *items.calls(), *tokens.calls()]
    of_tokens = [*tokens.calls_from_c(check), *openers.calls(), *shapes.calls()]
    return calls, [*calls, *of_tokens, *misuses.calls(), *examples.wrong_signers(), *depths.calls(calls)]


def of_library(given, folder, objects, wrong):
    """Attacks the library, installs it, and tries it over a heap of the program's own. Returns the numbers of calls."""
    is_right, report = attack.attack(folder, objects, ATTACKS)
    wrong.check(is_right, report)
    data, check = token()[0], wrong.check
    payload = decode(data)[0][2][1][2][1]
    told = [report, *trying.tried(folder, given.quick, data, payload, check)]
    refused = limits.refusals(own_heap(folder, objects, check), data, check)
    return [*told, f"over a heap of the program's own {refused}"]


def with_memory(given, folder, lines, wanted, wrong):
    """Makes some calls from C with refused allocations, with little stack and under valgrind. Returns the numbers of calls."""
    program, pairs = f"{folder}/calls_c", list(zip(lines, wanted))
    # `room` makes several calls, and `ring` takes a key that can't be read as one that doesn't fit.
    others, of_tokens = ([pair for pair in pairs if pair[0].startswith(TOKENS) == is_of] for is_of in (False, True))
    others = [pair for pair in others if not pair[0].startswith(("room ", "ring "))]
    told = [f"refused {memory.refusals(program, *zip(*few), wrong.check)}"
            for few in (others[:: max(1, len(others) // 400)], of_tokens[::40])]
    if not given.quick:
        with tempfile.TemporaryDirectory() as hostile:
            told.append(f"within 1 MB of stack {memory.within_stack(program, hostile, wrong.check)}")
    if shutil.which("valgrind"):
        some = lines[:: max(1, len(lines) // 300)]
        told.append(f"under valgrind {memory.under_valgrind(program, some, wrong.check)}")
    else:
        told.append("there is no valgrind")
    return told


def with_earlier_library(library, check):
    """Checks that the Python package refuses a library of an earlier version than its own."""
    with tempfile.TemporaryDirectory() as folder:
        shutil.copytree(f"{WRAPPERS}/python/coset", f"{folder}/coset", ignore=shutil.ignore_patterns("__pycache__"))
        later, there = re.subn(r"_VERSION_NUMBER = 0x0", "_VERSION_NUMBER = 0x1", read("c", "wrappers", "python", "coset", "__init__.py"))
        with open(f"{folder}/coset/__init__.py", "w", encoding="utf-8") as file:
            file.write(later)
        ran = subprocess.run([sys.executable, "-c", "import coset"], cwd=folder, capture_output=True, text=True, **library)
    check(there == 1 and "ImportError: the library is of version " in ran.stderr, f"Python takes an earlier library: {ran.stderr[-300:]}")


def python_tests(library, wrong):
    """Runs the tests of the Python package. Returns their lines. Those with signatures need the package `cryptography`."""
    with_earlier_library(library, wrong.check)
    told = []
    for name in ("tests", "nested_tests", "token_tests"):
        if name == "token_tests" and not importlib.util.find_spec("cryptography"):
            told.append("there is no cryptography for Python")
            continue
        ran = subprocess.run([sys.executable, f"{WRAPPERS}/python/{name}.py"], capture_output=True, text=True, **library)
        wrong.check(ran.returncode == 0, f"c/wrappers/python/{name}.py: {ran.stderr[-1000:]}")
        told += ran.stdout.splitlines()
    return told


def by_python(given, folder, calls, wrong):
    """Makes the calls from Python. Returns the numbers of calls."""
    python = [sys.executable, f"{WRAPPERS}/python/calls.py"]
    library = {"env": {**os.environ, "COSET_LIBRARY": f"{folder}/libcoset.so", "PYTHONDONTWRITEBYTECODE": "1", "PYTHONOPTIMIZE": ""}}
    calls = [*calls, *accepting.calls()]
    calling.from_wrapper("Python", python, calls, wrong.check, **library)
    hostile.damage("Python", python, f"{folder}/calls_c", wrong.check, **library)
    memory.wiped(folder, wrong.check)
    told = [f"from Python {len(calls)}", *python_tests(library, wrong)]
    if importlib.util.find_spec("cryptography"):
        told.append(f"with coset.crypto {accepting.by_ciphers(python, wrong.check, **library)}")
    calling.texts(given.quick, [([f"{folder}/calls_c"], {}), (python, library)], wrong.check)
    return told


def called(given, folder, objects, wrong):
    """Makes all calls. Returns the first faults, and a line with the numbers of calls."""
    build_callers(folder, objects)
    calls, every = every_call(wrong.check)
    lines, wanted = calling.from_c(f"{folder}/calls_c", every, wrong.check)
    calling.lengths(f"{folder}/calls_c", wrong.check)
    calling.without_length(f"{folder}/calls_c", wrong.check)
    calling.numbers_said(f"{folder}/calls_c", wrong.check)
    calling.pairs_built(f"{folder}/calls_c", wrong.check)
    told = [f"calls {len(calls)}", f"from C {len(lines)}"]
    told += openssl.tried(folder, objects, wrong.check)
    told += of_library(given, folder, objects, wrong)
    told += with_memory(given, folder, lines, wanted, wrong)
    told += by_python(given, folder, calls, wrong)
    told += wasm.tried(given, f"{folder}/calls_c", calls, wrong)
    told += golang.tried(given, folder, calls, wrong)
    return [*(text[:1000] for text in wrong[:20]), ", ".join([*told, f"wrong {len(wrong)}"])]


# Each way by the option that chooses it.
WAYS = {"keep": kept, "install": installed, "test": tested, "attack": attacked, "time": timed, "limits": measured}


def chosen(given):
    """Returns the way that the options choose."""
    return next((way for option, way in WAYS.items() if getattr(given, option)), called)
