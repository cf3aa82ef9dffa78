"""Checks of tools/pages that run tools/take and tools/release on copies."""
import os
import re
import shutil
import subprocess
import sys
import tempfile

sys.dont_write_bytecode = True
from capi import interface  # noqa: E402
from sources import HERE, files, read  # noqa: E402

# What a copy for tools/release doesn't need.
LEFT_OUT = (*interface.BUILT, "specs", "proofs", "must-fail", "data", "stdin", "stdout")


def ran(*command):
    """Returns the status of a command, and its output with standard error."""
    told = subprocess.run(command, stdin=subprocess.DEVNULL, stdout=subprocess.PIPE, stderr=subprocess.STDOUT, text=True, check=False)
    return told.returncode, told.stdout


def rewrite(path, change):
    with open(path, encoding="utf-8") as file:
        text = file.read()
    with open(path, "w", encoding="utf-8") as file:
        file.write(change(text))


# ---- tools/release


def spelled(version):
    """Returns a pattern for a version, in any of the ways in which numbers are written."""
    first, *rest = interface.numbers(version).split(".")
    parts, number = "".join(rf"[-.+_~](?:rattle[-.+_~])?{it}" for it in rest), interface.number(version)
    return rf"\b{first}{parts}\b|0x[0_]*{'_?'.join(f'{number:x}')}\b|\b{number}\b"


def old_places(folder):
    """Yields the files of a copy that have this repository's version, or that of its packages."""
    old = re.compile("|".join(map(spelled, (interface.version(), interface.of_packages()))))
    for path in files(folder):
        name = os.path.relpath(f"{HERE}/{path}", folder)
        with open(f"{HERE}/{path}", encoding="utf-8", errors="replace") as file:
            found = name not in interface.FIXED and old.search(file.read())
        if found:
            yield f"{name} still has {found[0]}"


def linked(folder, command):
    """Yields what is wrong with tools/release on a copy with a link: it says so in a line, and writes nothing."""
    before = read(folder, "VERSION")
    for to in ("nothing", "../VERSION", "."):
        os.symlink(to, f"{folder}/docs/link")
        status, told = ran(*command)
        if status != 2 or told != "tools/release: docs/link is a link, or no file: nothing is written\n":
            yield f"tools/release with a link to {to}: status {status}, {told}"
        os.remove(f"{folder}/docs/link")
    if read(folder, "VERSION") != before:
        yield "tools/release with a link writes"


def released():
    """Yields what is wrong with tools/release: on a copy of this repository, it makes a later version.

    It is later than that of Cargo's packages too, which may be the next one."""
    new = interface.following(interface.following())
    with tempfile.TemporaryDirectory() as folder:
        shutil.copytree(HERE, folder, dirs_exist_ok=True, ignore=shutil.ignore_patterns(*LEFT_OUT))
        if "\n## Next\n" not in read("CHANGELOG.md"):
            rewrite(f"{folder}/CHANGELOG.md", lambda text: text.replace("\n## ", "\n## Next\n\n- New.\n\n## ", 1))
        yield from linked(folder, [f"{folder}/tools/release", new])
        for command in (["release", new], ["c", "--names"]):
            status, told = ran(f"{folder}/tools/{command[0]}", *command[1:])
            if status:
                yield f"tools/{' '.join(command)} on a copy, where tools/release made {new}: {told}"
        yield from (f"tools/release {new}: {it}" for it in old_places(folder))
        changes, listed = read(folder, "CHANGELOG.md"), read(folder, interface.PATH)
        if read(folder, "VERSION") != f"{new}\n" or "\n## Next\n" in changes or f"\n## {new}\n" not in changes or "\nbegins next\n" in listed:
            yield f"tools/release doesn't name {new} in VERSION, CHANGELOG.md or {interface.PATH}"


# ---- tools/take


def updated(folder, old, commit, total):
    """Returns the lines of an update of a repository that has the crates of that version, commit and sum. A sum that is None stays."""
    line = rf"\1 {old} {commit} " + (total or r"\2")
    rewrite(f"{folder}/crates.taken", lambda text: re.sub(r"^(\w+) \S+ \S+ (\w+)$", line, text, flags=re.M))
    status, told = ran(f"{HERE}/tools/take", folder)
    return told.split("\n") if status == 0 else [f"status {status}", told]


def taken():
    """Yields what is wrong with tools/take: its updates print the entries of CHANGELOG.md since a version, if a crate differs."""
    entries = [it.partition("\n")[0] for it in read("CHANGELOG.md").split("\n## ")[1:]]
    present, oldest = interface.version(), entries[-1]
    with tempfile.TemporaryDirectory() as folder:
        status, told = ran(f"{HERE}/tools/take", folder)
        if status or not os.path.exists(f"{folder}/crates/coset/src/lib.rt"):
            yield f"tools/take into an empty folder: status {status}, {told}"
            return
        for old, total in ((present, "0" * 32), (oldest, "0" * 32), (oldest, None)):
            lines = updated(folder, old, "0" * 10, total)
            there = [it[3:] for it in lines if it.startswith("## ")]
            wanted = entries[: entries.index(old)] if total else []
            says_nothing = "no crate differs" in lines
            if there != wanted or says_nothing == bool(total) or not lines[0].startswith(f"from {old} (0000000000) to {present} ("):
                yield f"tools/take from {old}, of which {'each' if total else 'no'} crate differs, prints the entries {there} after {lines[:1]}"


def wrong():
    """Yields what is wrong by these checks."""
    yield from released()
    yield from taken()
