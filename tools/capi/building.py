"""Builds the library, proved or not, and the programs in C that call it."""
import os
import re
import shutil
import subprocess
import sys
import tempfile
import time

import common
from capi import interface, names

HERE = common.HERE
WRAPPERS = f"{HERE}/c/wrappers"
FLAGS = ["-std=c11", "-O2", "-Wall", "-Wextra", "-Werror", "-fPIC", f"-I{HERE}/c/include"]
# The LLVM IR of the proved library, and the library over what `rt ci` left.
OF_PROVED, BUILT_OVER = (f"{HERE}/crates/ffi_c/out/{it}" for it in ("module.ll", "libcoset_c.a"))
# The tools with which the library is put together.
TOOLS = ("cc", "ar", "ld", "objcopy")
# The arguments with which a program calls an export, by type.
CALLED_WITH = {"Global": "alloc", "u32": "0", "i32": "0", "i64": "0", "usize": "0", "&[u8]": 'b""', "&mut [u8]": "&mut out",
               "&mut usize": "&mut len", "&mut i64": "&mut value", "&[i64]": "&[0]", "&Rules": "&rules", "&[Opened]": "&[]",
               "&[Text<'_>]": "&[]", "&mut Layer": "&mut layer", "&mut View": "&mut view", "&mut Message": "&mut message",
               "&[Pair]": "&[pair]", "&mut Spans": "&mut spans", "&mut Span": "&mut ffi_query::Span { at: 0, len: 0 }"}
# The variables among them that are structs: the variable, the module and the struct.
ZEROS = (("view", "sign1", "View"), ("message", "message", "Message"), ("pair", "pairs", "Pair"), ("spans", "spans", "Spans"),
         ("rules", "token", "Rules"), ("layer", "token", "Layer"))


def run(command, **more):
    """Runs a command that is expected to succeed, and returns its output."""
    ran = subprocess.run(command, capture_output=True, text=True, errors="replace", **more)
    if ran.returncode:
        sys.exit(f"{' '.join(command)}\n{ran.stdout[-3000:]}{ran.stderr[-3000:]}")
    return ran.stdout


# ---- the static library


def over(to):
    """Returns the command that proves the static library over the libraries of this checkout, and builds it as `to`."""
    kit = os.path.dirname(run(["rt", "doc"]).strip())
    every, own = common.below("ffi_c")[:-1], common.named()["ffi_c"]
    rlib = lambda name: os.path.join(HERE, "crates", name, "out", "rlib")
    words = [f"{kit}/bin/rattle", "build", "--crate-name", "ffi_c", "src/lib.rt", "--crate-type", "staticlib",
             "--links", "ffi_c=", "--extern", f"std={kit}/rlibs/std.rlib", "-L", f"dependency={kit}/rlibs"]
    words += [word for name in own for word in ("--extern", f"{name}={rlib(name)}/{name}.rlib")]
    words += [word for name in every for word in ("-L", f"dependency={rlib(name)}")]
    return words + ["--antt-project", f"{kit}/rattle/logic/antt-project.json", "--logic-built", f"{kit}/logic_built",
              "--toolchain", f"{kit}/toolchain", "--backend", "llvm", "-o", to]


def built_over():
    """Returns the static library over the libraries of this checkout. Proves and builds it if a source is newer, and leaves its
    LLVM IR for `module`. `rt ci` removes both, so the first step of the gate that needs them makes them."""
    if not all(common.is_fresh(it, "ffi_c") for it in (OF_PROVED, BUILT_OVER)):
        begun = time.time()
        with tempfile.TemporaryDirectory() as folder, common.signs_of_life("proving and building ffi_c"):
            write_module(f"{folder}/libcoset_c.a")
            if not os.path.exists(f"{folder}/libcoset_c.a"):
                sys.exit("ffi_c isn't built")
            shutil.move(f"{folder}/libcoset_c.a", BUILT_OVER)
        # A source that changed in the meantime is then newer.
        os.utime(BUILT_OVER, (begun, begun))
    return BUILT_OVER


def archive(is_quick):
    """Returns the path of the static library, which is built first if a source is newer."""
    if is_quick:
        return common.unproved("ffi_c", "libcoset_c_unproved.a", unproved)
    return common.proved("ffi_c", os.path.join(HERE, "crates", "ffi_c", "out", "libffi_c.a"), ["rt", "lib"])


def module(is_quick):
    """Returns the path of the library's LLVM IR, which is built with the library if a source is newer."""
    if is_quick:
        text = f"{common.QUICK}/ffi_c.ll"
        if not os.path.exists(text) and os.path.exists(f"{common.QUICK}/libcoset_c_unproved.a"):
            # Both files are made together.
            os.remove(f"{common.QUICK}/libcoset_c_unproved.a")
        archive(True)
        return text
    if not common.is_fresh(OF_PROVED, "ffi_c"):
        archive(False)
        with tempfile.TemporaryDirectory() as folder:
            write_module(f"{folder}/libcoset_c.a")
    return OF_PROVED


def write_module(library):
    """Proves and builds the static library over the libraries of this checkout, and writes its LLVM IR."""
    with tempfile.TemporaryDirectory() as folder:
        common.module(f"{HERE}/crates/ffi_c", f"{folder}/module.bc", over(library), b"coset_check")
        os.makedirs(os.path.dirname(OF_PROVED), exist_ok=True)
        read_as_text(f"{folder}/module.bc", f"{folder}/module.ll")
        shutil.move(f"{folder}/module.ll", OF_PROVED)


def read_as_text(module_, to):
    """Writes the text of a module of LLVM IR."""
    common.clang("-Xclang", "-disable-llvm-passes", "-S", "-emit-llvm", module_, "-o", to)


def calling_main():
    """Returns a function `main` in Rattle that calls each export."""
    zeros = []
    for place, name, struct in ZEROS:
        text = re.search(rf"pub struct {struct} \{{(.*?)\n\}}", names.source(name), re.S)[1]
        fields = ", ".join(f"{field}: 0" for field in re.findall(r"pub (\w+): \w+,", text))
        zeros.append(f"    let {'' if place == 'pair' else 'mut '}{place} = {name}::{struct} {{ {fields} }};")
    calls = [f"    let _ = {path}({', '.join(CALLED_WITH[a] for a in arguments)});" for path, _, arguments in names.exports()]
    start = ["fn main(rt: HostRuntime) {", "    let alloc = rt.alloc();",
             "    let (mut out, mut len, mut value) = ([0; 1], 0usize, 0i64);"]
    return "\n".join(["", *start, *zeros, *calls, "}", ""])


def exported(text):
    """Returns the LLVM IR of that program with each export under the name by which C calls it."""
    text = re.sub(r"^define (.*@main\()", r"define internal \1", text, flags=re.M)
    for path, name, _ in names.exports():
        text = text.replace(f'@"ffi_c::{path}"', f"@{name}")
        text = re.sub(rf"^define internal (.*@{name}\()", r"define \1", text, flags=re.M)
    return text


def unproved(to):
    """Builds the static library without a proof.

    `rt try` builds only programs. So the crate becomes a program that calls each export. In its module each export then gets
    the name by which C calls it."""
    with tempfile.TemporaryDirectory() as folder:
        common.copy_crates(folder, "ffi_c")
        source = f"{folder}/crates/ffi_c/src"
        os.rename(f"{source}/lib.rt", f"{source}/main.rt")
        with open(f"{source}/main.rt", "a", encoding="utf-8") as file:
            file.write(calling_main())
        common.module(f"{folder}/crates/ffi_c", f"{folder}/module.bc")
        read_as_text(f"{folder}/module.bc", f"{folder}/module.ll")
        with open(f"{folder}/module.ll", encoding="utf-8") as file:
            text = exported(file.read())
        with open(f"{folder}/module.ll", "w", encoding="utf-8") as file:
            file.write(text)
        common.clang("-c", f"{folder}/module.ll", "-o", f"{folder}/ffi_c.o")
        run(["ar", "rcsD", to, f"{folder}/ffi_c.o"])
        # tools/fuzz compiles it again.
        shutil.move(f"{folder}/module.ll", f"{common.QUICK}/ffi_c.ll")


# ---- the libraries for C, and the programs


def compiled(folder, source, to, *defines):
    """Compiles a file of c/wrappers/c to an object file in the folder, and returns its name."""
    run(["cc", *FLAGS, *defines, "-c", f"{WRAPPERS}/c/{source}.c", "-o", to], cwd=folder)
    return to


def exports(folder):
    """Writes the names of the functions of coset.h into the folder, for objcopy and for a linker of Windows. Returns them."""
    declared = re.findall(r"\b(coset_\w+)\(", names.header())
    for name, first in (("exports", []), ("exports.def", ["EXPORTS"])):
        with open(os.path.join(folder, name), "w", encoding="utf-8") as file:
            file.write("\n".join(first + declared) + "\n")
    return declared


def joined(folder, below, *objects, tools=""):
    """Makes libcoset.a in the folder's folder `below`, of the object file coset.o. In that, only the exports are global.

    `tools` precedes the names of the binutils. Returns the name of that object file."""
    one = f"{below}/coset.o"
    run([f"{tools}ld", "-r", "-o", one, *objects], cwd=folder)
    run([f"{tools}objcopy", "--keep-global-symbols=exports", one], cwd=folder)
    run([f"{tools}ar", "rcsD", f"{below}/libcoset.a", one], cwd=folder)
    return one


def shared(folder, one, compiler="cc"):
    """Makes libcoset.so of that object file."""
    with open(os.path.join(folder, "symbols"), "w", encoding="utf-8") as file:
        file.write(interface.script())
    how = f"-Wl,-z,relro,-z,now,-soname,{interface.soname()},--version-script=symbols"
    run([compiler, "-shared", "-o", "libcoset.so", one, how], cwd=folder)


def build(folder, library, is_quick, check):
    """Makes libcoset.a, whose names are the exports alone, and libcoset.so from the static library.

    Returns the names of its object files."""
    there = os.listdir(folder)
    run(["ar", "x", library], cwd=folder)
    objects = sorted(set(os.listdir(folder)) - set(there))
    declared = exports(folder)
    text = compiled(folder, "text", "text.o", *(["-DCOSET_UNPROVED"] if is_quick else []))
    one = joined(folder, ".", *objects, compiled(folder, "heap", "heap.o"), text)
    shared(folder, one)
    symbols = map(str.split, run(["nm", "-g", "--defined-only", "libcoset.a"], cwd=folder).splitlines())
    given = {words[2] for words in symbols if len(words) == 3}
    check(given == set(declared), f"libcoset.a gives {given}")
    return objects


def own_heap(folder, objects, check):
    """Builds the program that measures calls, with own/libcoset.a, whose heap is the program's. Returns the program's path."""
    os.makedirs(f"{folder}/own", exist_ok=True)
    one = joined(folder, "own", *objects, compiled(folder, "heap", "own/heap.o", "-DCOSET_OWN_HEAP"), "text.o")
    asks = {n.split()[-1] for n in run(["nm", "-u", one], cwd=folder).splitlines()}
    allowed = {"coset_malloc", "coset_free", "memcpy", "memmove", "memset", "_GLOBAL_OFFSET_TABLE_"}
    check({"coset_malloc", "coset_free"} <= asks <= allowed, f"over a heap of the program's own the library asks for {asks}")
    run(["cc", *FLAGS, "-pthread", "-Wl,-z,now", "-o", "limits", f"{WRAPPERS}/c/limits.c", "own/libcoset.a"], cwd=folder)
    return f"{folder}/limits"


def has_openssl():
    """Returns true if the header of OpenSSL 3 is installed."""
    source = "#include <openssl/param_build.h>\n"
    ran = subprocess.run(["cc", "-E", "-x", "c", "-"], input=source, capture_output=True, text=True, check=False)
    return ran.returncode == 0


def compile_headers():
    """Compiles each header by itself, as C99 and as C++. That of OpenSSL's ciphers is left out if OpenSSL's isn't there.

    Of these compilers, clang++ alone reports casts of C in functions of `extern "C"`."""
    warnings = ["-Wall", "-Wextra", "-Wpedantic", "-Werror", "-fsyntax-only"]
    languages = [["cc", "-std=c99", "-x", "c"]]
    languages += [[it, "-x", "c++", "-Wold-style-cast"] for it in ("c++", "clang++") if shutil.which(it)]
    for name in sorted(os.listdir(f"{HERE}/c/include")):
        if name != "coset_openssl.h" or has_openssl():
            for words in languages:
                run([*words, *warnings, "-include", f"{HERE}/c/include/{name}", "/dev/null"])


# A program that the compiler must accept. With one of the changes in REFUSED, it must refuse the program.
PROGRAM = """#include "coset_verify.h"
static int yes(void *context, const coset_question *question) { return !context && !question; }
int main(void) {
  const coset_policy policy = {NULL, 0, NULL, 0, NULL, 0, 0, NULL, 0};
  const char *name = "coap://as.example.com";
  const coset_text text = COSET_LITERAL(@literal@);
  const uint8_t *payload;
  size_t len;
  @if@ (coset_sign1_verify(0, NULL, 0, &policy, @verify@, NULL, NULL, 0, &payload, &len));
  return text.chars == name;
}
"""
ACCEPTED = {"literal": '"coap://as.example.com"', "if": "if", "verify": "yes"}
REFUSED = {"a pointer as a literal": {"literal": "name"}, "an ignored status": {"if": ""}, "no verifier": {"verify": "NULL"}}


def refuse_misuses():
    """Compiles programs that ignore a status, pass no verifier, or give COSET_LITERAL a pointer. The compiler must refuse each."""
    flags = ["-O2", "-Wall", "-Wextra", "-Werror", "-Wno-empty-body", f"-I{HERE}/c/include", "-c", "-o", os.devnull, "-"]
    languages = [["cc", "-std=c99", "-x", "c"], *([["c++", "-x", "c++"]] if shutil.which("c++") else [])]
    for language in languages:
        for name, change in {"the program": {}, **REFUSED}.items():
            text = PROGRAM
            for word, value in {**ACCEPTED, **change}.items():
                text = text.replace(f"@{word}@", value)
            ran = subprocess.run([*language, *flags], input=text, capture_output=True, text=True, check=False)
            if (ran.returncode == 0) != (not change):
                sys.exit(f"{' '.join(language)}: {name} is {'accepted' if change else 'refused'}\n{ran.stderr}")


def build_callers(folder, objects):
    """Builds the program in C that makes calls."""
    sources = [f"{WRAPPERS}/c/{name}.c" for name in ("calls", "token", "verify", "issue")]
    run(["cc", *FLAGS, "-o", "calls_c", *sources, "text.o", *objects], cwd=folder)
    compile_headers()
    refuse_misuses()
