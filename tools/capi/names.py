"""The names, arguments and constants of the interface, which the header, the exports and the wrappers must share."""
import re

from capi.kinds import NAMES
from sources import read

CONSTANT = r"\b(COSET_[A-Z0-9_]+)\s*(?::\s*\w+)?\s*=\s*(0x[0-9a-f]+|\d+)"
# The modules of ffi_c with exports or structs.
SOURCES = ("lib", "countersign", "elements", "making", "message", "numbers", "pairs", "replies", "sign1", "spans", "token")
# The types of C as the exports write them.
WORDS = {"uint32_t": "u32", "int32_t": "i32", "int64_t": "i64", "size_t": "usize", "const uint8_t *": "&[u8]",
         "uint8_t *": "&mut [u8]", "const coset_opened *": "&[Opened]", "const coset_rules *": "&Rules",
         "const coset_pair *": "&[Pair]", "const coset_text *": "&[Text<'_>]", "coset_layer *": "&mut Layer",
         "size_t *": "&mut usize", "int64_t *": "&mut i64", "const int64_t *": "&[i64]",
         "coset_sign1_view *": "&mut View", "coset_message_view *": "&mut Message",
         "coset_message_spans_view *": "&mut Spans", "coset_span *": "&mut Span"}
# The types among them that the next argument, a length, belongs to.
SLICES = ("[u8]", "[i64]", "[Opened]", "[Pair]", "[Text<'_>]")
PROTOTYPE = r"(COSET_CALL\(([\d, ]+)\)\s*)?coset_status (coset_\w+)\(([^)]*)\);"
# The structs by their names in the sources, in C, and in the Python wrapper if that has them.
STRUCTS = (("View", "coset_sign1_view", None), ("Message", "coset_message_view", None), ("Span", "coset_span", "_Span"),
           ("Pair", "coset_pair", "_Pair"), ("Spans", "coset_message_spans_view", "_Spans"), ("Rules", "coset_rules", "_Rules"),
           ("Opened", "coset_opened", "_Opened"), ("Layer", "coset_layer", "_Layer"))


# The structs by their names in the wrapper for JavaScript.
IN_JAVASCRIPT = {"Span": "SPAN", "Pair": "PAIR", "Spans": "SPANS", "Rules": "RULES", "Opened": "OPENED", "Layer": "LAYER"}
# The calls that message_spans takes the place of in JavaScript and Go.
COPYING = {"coset_sign1", "coset_message"}


# ---- what each of them has


def source(name):
    return read("crates", "ffi_c", "src", f"{name}.rt")


def header():
    """Returns coset.h without its comments."""
    return re.sub(r"/\*.*?\*/", "", read("c", "include", "coset.h"), flags=re.S)


def c_arguments(text):
    """Returns the types of a prototype's arguments as Rust writes them. A pointer and the length after it are a slice."""
    found, has_length = [], True
    for argument in text.split(","):
        type_ = re.sub(r"\w+$", "", argument.strip()).strip()
        if type_ == "size_t" and not has_length:
            has_length = True
        else:
            found.append(WORDS[type_])
            has_length = not found[-1].endswith(SLICES)
    return found


def exports():
    """Yields each function that the source exports: its path in the crate, its name and its arguments' types."""
    for file in SOURCES:
        for name, arguments in re.findall(r'extern "C" fn (coset_\w+)\(([^)]*)\)\s*-> i32', source(file)):
            path = name if file == "lib" else f"{file}::{name}"
            yield path, name, [a.split(":")[1].strip() for a in arguments.strip().rstrip(",").split(",")]


def prototypes():
    """Yields each function of the header: its name, its arguments, and the numbers that COSET_CALL names before it."""
    for _, needed, name, arguments in re.findall(PROTOTYPE, header()):
        yield name, arguments, needed


def fields_in(pattern, before, text):
    """Returns the pairs that the pattern finds in a struct, whose fields begin after `before`."""
    return re.findall(pattern, re.search(rf"(?:{before})(.*?)\n *[}}\]]", text, re.S)[1])


# ---- comparing them


def compare_constants(sources, check):
    declared, there = (dict(re.findall(CONSTANT, text)) for text in (header(), sources))
    check(declared == there, "the header's constants aren't those of the source")


def is_never_null(argument):
    """Returns true for a pointer to a result or to rules. The buffer `out` and other input may be NULL."""
    return "*" in argument and ("const" not in argument or "coset_rules" in argument) and not argument.endswith("*out")


def compare_functions(sources, check):
    """Compares the header's functions with the exports."""
    for name, arguments, needed in prototypes():
        never_null = [place for place, it in enumerate(arguments.split(","), 1) if is_never_null(it.strip())]
        said = list(map(int, needed.split(", ")))
        check(said == never_null, f"the header's {name} says which arguments are never NULL: {needed}")
    declared = {name: c_arguments(arguments) for name, arguments, _ in prototypes()}
    exported = {name: [a for a in arguments if a != "Global"] for _, name, arguments in exports()}
    check(len(declared) == sources.count("#[unsafe(no_mangle)]"), "a function isn't declared, or not exported")
    check(declared == exported, f"the header's functions aren't those of the source: {declared} {exported}")


def compare_marks(check):
    """Checks that the compiler warns if a status of the other headers is ignored, or if the place for a number is NULL."""
    for name in ("verify", "items", "pairs"):
        text = read("c", "include", f"coset_{name}.h")
        found = re.findall(r"^(?:COSET_CALL\(([\d, ]+)\)\n)?static inline coset_status (\w+)\((.*?)\) \{$", text, re.M | re.S)
        lacking = [function for needed, function, _ in found if not needed]
        check(found and not lacking, f"coset_{name}.h hasn't COSET_CALL before {', '.join(lacking)}")
        for needed, function, arguments in found:
            last = [place for place, it in enumerate(arguments.split(","), 1) if re.search(r"(size_t|uint32_t|double) \*\w+$", it)]
            check({*map(str, last)} <= {*needed.split(", ")}, f"coset_{name}.h: a number of {function} may be NULL")


# Constants of the header that Python has by other words.
NOT_IN_RANGES = {"FALSE", "TRUE", "NULL"}


def compare_python(check):
    """Compares the constants of the Python wrapper with the header's."""
    numbers = {n: int(v, 0) for n, v in re.findall(CONSTANT, header() + read("c", "include", "coset_items.h"))}
    python, seen = read("c", "wrappers", "python", "coset", "__init__.py"), set()
    for names, first in re.findall(r"^([A-Z0-9_, ]+) = (?:map\(Kind, )?range\((\w+), \w+\)", python, re.M):
        for place, name in enumerate(names.strip().split(", ")):
            parts = [name] if "COSET_" + name in numbers else name.rsplit("_", 1)
            number = sum(numbers.get("COSET_" + part, 0) for part in parts)
            check(number == int(first, 0) + place, f"the Python wrapper's {name}")
            seen |= set(parts)
    unseen = {name.removeprefix("COSET_") for name in numbers} - seen
    check(unseen <= NOT_IN_RANGES, f"the Python wrapper has no {', '.join(sorted(unseen - NOT_IN_RANGES))} in a range")
    uncalled = header_functions() - COPYING - set(re.findall(r"_library\.(coset_\w+)", python))
    check(not uncalled, f"the Python wrapper doesn't call {', '.join(sorted(uncalled))}")


def javascript():
    return read("c", "wrappers", "js", "coset.mjs")


def numbers_in(script, mark):
    """Returns the numbers that a script or its types export, with statuses and major types. `mark` precedes a number."""
    lines = "\n".join(re.findall(r"^export const ([^;(]*);", script, re.M))
    listed = "".join(re.search(rf"export const {name}\b[^{{]*\{{(.*?)\}}", script, re.S)[1] for name in ("Status", "MajorType"))
    numbers = dict(re.findall(rf"\b([A-Z][A-Z0-9_]*){mark} (-?\w+)", lines))
    return {name: int(it, 0) for name, it in {**numbers, **dict(re.findall(r"(\w+): (\d+)", listed))}.items()}


def heads(script):
    """Returns the functions that a script or its types export, each with the names of its parameters."""
    found = re.findall(r"^export (?:async )?function (\w+)\((.*)\)(?:: .*;| \{)$", script, re.M)
    names = lambda text: re.findall(r"(\w+)\??(?=,|$| =)", re.sub(r": [^,]*", "", text))
    return {name: names(text) for name, text in found}


def compare_javascript(check):
    """Compares the wrapper for JavaScript with the header, and its types with the wrapper."""
    script, types = javascript(), read("c", "packaging", "js", "coset.d.ts")
    constants = re.findall(CONSTANT, header() + re.sub("enum {\n  COSET_FALSE.*?}", "", read("c", "include", "coset_items.h"), flags=re.S))
    declared, there = {n.removeprefix("COSET_"): int(v, 0) for n, v in constants}, numbers_in(script, " =")
    check({n: there.get(n) for n in declared} == declared, f"JavaScript's constants aren't the header's: {there}")
    check(there == numbers_in(types, ":"), "the constants in coset.d.ts aren't those of coset.mjs")
    check(heads(script) == heads(types), f"the functions in coset.d.ts aren't those of coset.mjs: {heads(script)} {heads(types)}")
    called = {f"coset_{name}" for name in re.findall(r'\b(?:call|written|writing|spans|int)\("(\w+)"', script)}
    called |= {f"coset_{name}" for name in re.findall(r"\.coset_(\w+)\(", script)}
    functions = header_functions()
    check(functions - COPYING == called, f"JavaScript doesn't call the header's functions: {functions - COPYING ^ called}")


def header_functions():
    return set(re.findall(r"\b(coset_\w+)\(", header()))


def compare_go(check):
    """Checks that Go's package has each constant and each function of the header. cgo compares their types when it is built."""
    package = read("c", "wrappers", "go", "coset", "coset.go")
    there = set(re.findall(r"\bC\.(coset_\w+)\(", package)) | set(re.findall(r"\bC\.(COSET_\w+)", package))
    wanted = header_functions() - COPYING | {name for name, _ in re.findall(CONSTANT, header())}
    check(wanted <= there, f"Go's package hasn't the header's names: {wanted - there}")


def compare_structs(sources, check):
    """Compares the fields of the header's structs with those of the sources and of the wrappers."""
    sources += read("crates", "ffi_token", "src", "opened.rt") + read("crates", "ffi_query", "src", "elements.rt")
    python = read("c", "wrappers", "python", "coset", "__init__.py")
    types = {"int64": "i64", "uint32": "u32", "uint64": "u64", "size_t": "usize"}
    for struct, in_c, in_python in STRUCTS:
        fields = [(name, {**WORDS, "uint64_t": "u64"}[type_]) for type_, name in
                  re.findall(r"(\w+) (\w+);", re.search(rf"typedef struct {in_c} \{{(.*?)\}}", header(), re.S)[1])]
        there = {"source": fields_in(r"pub (\w+): (\w+),", rf"struct {struct} \{{", sources)}
        if in_python:
            before = rf"class {in_python}\(.*?_fields_ = \["
            there["Python wrapper"] = fields_in(r'\("(\w+)", ctypes\.c_(\w+)\)', before, python)
        if struct in IN_JAVASCRIPT:
            there["wrapper for JavaScript"] = fields_in(r'(\w+): "(\w+)"', rf"const {IN_JAVASCRIPT[struct]} = struct\(\{{", javascript())
        for name, found in there.items():
            found = [(field, types.get(type_, type_)) for field, type_ in found]
            check(fields == found, f"the {name}'s {struct}: {found} and not {fields}")



def compare_texts(check):
    """Compares the texts of errors in Python with those of the library."""
    told = dict(re.findall(r'case (?:COSET_)?(\w+): return "(.*?)";', read("c", "wrappers", "c", "text.c")))
    told = {"".join(it.title() for it in name.split("_")): text for name, text in told.items()}
    told["Refused"], told["TooManyKeys"] = told.pop("18"), told.pop("35")  # of coset_verify.h
    python = re.search(r"^_FAULTS = \{(.*?)^\}", read("c", "wrappers", "python", "coset", "__init__.py"), re.M | re.S)[1]
    python = {NAMES[int(number)]: text for number, text in re.findall(r'(\d+): "(.*)",', python)}
    unlike = {name for name, text in python.items() if told.get(name) != text}
    check(python and not unlike, f"the texts in Python aren't those of text.c: {unlike}")


def compare(check):
    """Compares the header with the exports and the wrappers."""
    sources = "".join(map(source, SOURCES))
    compare_constants(sources, check)
    compare_functions(sources, check)
    compare_marks(check)
    compare_python(check)
    compare_javascript(check)
    compare_go(check)
    compare_structs(sources, check)
    compare_texts(check)
