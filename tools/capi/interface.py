"""The interface of the shared library, as c/interface.txt lists it: functions, structs and constants of coset.h, and two numbers.

The first number is that of the shared library's own name (soname). It rises if a line changes or goes. The second rises if lines
are added. Each line begins with the numbers with which it came, which are also the version of a function's symbol."""
import re

from capi import names
from sources import HERE, read

PATH = "c/interface.txt"
HEAD = """# The interface of the shared library: what a program that is linked with it relies on. `tools/c --names` compares this
# list with coset.h, and `tools/c --interface` writes it. docs/C.md, 'Versions', has the rule for the two numbers. 'begins'
# is the first version with the first number: a version as in VERSION, or `next`.
"""


# The lines that have the version or its number, in the files of programs.
VERSIONED = (("c/include/coset.h", '#define COSET_VERSION "{version}"\n#define COSET_VERSION_NUMBER {number}'),
             ("c/wrappers/python/coset/__init__.py", "_VERSION_NUMBER = {number}"),
             ("c/wrappers/js/coset.mjs", "const VERSION_NUMBER = {number};"),
             ("c/wrappers/go/coset/coset.go", "const versionNumber = {number}"))
# The files whose versions are older ones, or those of tests.
FIXED = ("CHANGELOG.md", "tools/capi/trying.py")
# The packages of Cargo that have the version.
PACKAGES = ("Cargo.toml", "rust/ciborium/Cargo.toml", "rust/cwt/Cargo.toml")
# The folders that have nothing of the repository's own.
BUILT = (".git", "out", "target")


def version():
    return read("VERSION").strip()


def numbers(of=None):
    """Returns the four numbers of a version such as 0.4.2-rattle.N, with points between them. The library's own if `of` is None."""
    return ".".join(re.findall(r"\d+", of or version()))


def number(of=None):
    """Returns the four numbers of a version as one, with a byte for each. The library's own if `of` is None."""
    return int.from_bytes(bytes(map(int, numbers(of).split("."))), "big")


def following(of=None):
    """Returns the version after this one. It is the library's own if `of` is None."""
    head, _, last = (of or version()).rpartition(".")
    return f"{head}.{int(last) + 1}"


def in_cargo(of):
    """Returns a version as Cargo's packages have it."""
    return of.replace("-", "+", 1)


def of_packages():
    """Returns the version of Cargo's packages, as the one at the root has it."""
    return re.search(r'^version = "(.*)"$', read("Cargo.toml"), re.M)[1]


def is_older(one, other):
    """Returns true if the first version is older than the second."""
    first, second = ([int(it) for it in numbers(it).split(".")] for it in (one, other))
    return first < second


# ---- what the header declares


def arguments(text):
    """Returns the types of a function's arguments."""
    return ", ".join(re.sub(r"\s*\w+$", "", it.strip()) if it.strip() != "void" else "void" for it in text.split(","))


def declared():
    """Returns the lines for the header, in its order."""
    pattern = (r"typedef struct (\w+) \{(.*?)\}|typedef (\w+) (\w+);|^(coset_status|(?:const )?\w+ \**)\s*(coset_\w+)\(([^)]*)\);|"
               + names.CONSTANT)
    found = []
    for it in re.finditer(pattern, names.header(), re.S | re.M):
        struct, fields, type_, alias, result, function, given, constant, number = it.groups()
        if struct:
            found.append(f"struct {struct} {{ {' '.join(fields.split())} }}")
        elif alias:
            found.append(f"typedef {type_} {alias}")
        elif function:
            found.append(f"{result.strip()} {function}({arguments(given)})".replace("* ", "*"))
        else:
            found.append(f"{constant} = {int(number, 0)}")
    return found


# ---- what the list has


def listed():
    """Returns the two numbers of the list, the version with which the first began, and each line with the numbers before it."""
    text = read(PATH)
    first, second = map(int, re.search(r"^interface (\d+)\.(\d+)$", text, re.M).groups())
    begins = re.search(r"^begins (\S+)$", text, re.M)[1]
    return (first, second), begins, {line: since for since, line in re.findall(r"^(\d+\.\d+) (.+)$", text, re.M)}


def soname():
    """Returns the shared library's own name, with which a program is linked."""
    return f"libcoset.so.{listed()[0][0]}"


def file_name():
    """Returns the name of the shared library's file."""
    return "libcoset.so.{}.{}".format(*listed()[0])


def oldest():
    """Returns the numbers of the oldest version with this interface. A build before that version counts as one of it."""
    begins = listed()[1]
    return numbers() if begins == "next" or is_older(version(), begins) else numbers(begins)


def function(line):
    """Returns the name of the function that a line declares, or None."""
    found = re.match(r"[^={]*?(coset_\w+)\(", line)
    return found and found[1]


def symbols():
    """Returns the functions by the version of their symbols, the oldest version first."""
    found = {}
    for line, since in listed()[2].items():
        if function(line):
            found.setdefault(since, []).append(function(line))
    return dict(sorted(found.items(), key=lambda it: [*map(int, it[0].split("."))]))


def script():
    """Returns the version script for the linker."""
    nodes, before = [], ""
    for since, functions in symbols().items():
        hidden = "" if before else " local: *;"
        nodes.append(f"COSET_{since} {{ global: {' '.join(f'{it};' for it in functions)}{hidden} }}{before};")
        before = f" COSET_{since}"
    return "\n".join(nodes) + "\n"


# ---- comparing and writing


def compare(check):
    """Compares the list with the header."""
    (first, second), begins, lines = listed()
    there, how = declared(), f"is the interface another one? tools/c --interface writes {PATH}"
    for path, lines_of in VERSIONED:
        wanted = lines_of.format(version=version(), number=f"0x{number():08x}")
        check(f"\n{wanted}\n" in f"\n{read(path)}", f"{path} doesn't have the version of VERSION: {wanted}")
    known = sorted(in_cargo(it) for it in (version(), following()))
    check(of_packages() in known, f"Cargo.toml has the version {of_packages()}, which is none of {', '.join(known)}")
    for path in PACKAGES:
        check(f'\nversion = "{of_packages()}"\n' in read(path), f"{path} doesn't have the version {of_packages()} of Cargo.toml")
    check(f'"{soname()}"' in read("c/wrappers/python/coset/__init__.py"), f"the Python wrapper doesn't load {soname()}")
    check(f"`{soname()}`" in read("docs/C.md"), f"docs/C.md doesn't name {soname()}")
    check(len(set(there)) == len(there), "coset.h declares something twice")
    for line in lines.keys() - set(there):
        check(False, f"interface {first}.{second} has `{line}`, and coset.h doesn't: {how}")
    for line in set(there) - lines.keys():
        check(False, f"interface {first}.{second} doesn't have `{line}` of coset.h: {how}")
    check(begins == "next" or not is_older(version(), begins), f"{PATH} begins with {begins}, after {version()}")
    latest = max([int(part) for part in since.split(".")] for since in lines.values())
    check(latest <= [first, second] and all(since.split(".")[0] == str(first) for since in lines.values()),
          f"a line of {PATH} has other numbers than {first}.{second} has")


def write():
    """Writes the list anew, with the numbers that the rule asks for. If someone raised the first number in the file, because a call
    means something else, it stays so. Returns the lines to print."""
    (first, second), begins, lines = listed()
    there = declared()
    is_raised = any(since.split(".")[0] != str(first) for since in lines.values())
    if is_raised or lines.keys() - set(there):
        first, second, begins, lines = first + (not is_raised), 0, "next", {}
    elif set(there) - lines.keys():
        second += 1
    text = "".join(f"{lines.get(line, f'{first}.{second}')} {line}\n" for line in there)
    with open(f"{HERE}/{PATH}", "w", encoding="utf-8") as file:
        file.write(f"{HEAD}\ninterface {first}.{second}\nbegins {begins}\n\n{text}")
    return [f"{PATH}: interface {first}.{second}, which begins with {begins}"]
