"""Builds the library for other targets than x86-64 Linux, and compares its results there with those here (`tools/c --target`).

The library is one module of LLVM IR for x86-64 Linux. Few of its words belong to that target: the layout, the triple, the
processor, and how some functions return their results. These are replaced, and the kit's clang makes code of the module. LLVM's
optimizer has run before, once for all targets.

Nothing is proved of that, so `--test` makes the same calls with both libraries. The outputs must be the same, byte by byte.
"""
import collections
import os
import re
import shutil
import time

import common
from capi import attack, building, calling, interface, memory
from capi.building import HERE, WRAPPERS, run
from sources import read

WINE = ("env", "WINEDEBUG=-all", f"WINEPREFIX={HERE}/out/wine", "/usr/lib/wine/wine64")
# `tools` is what the names of the target's C compiler and binutils begin with. Mach-O has none here. `runner` is the command
# that runs the target's programs, and `shared` is the end of the shared library's name.
Target = collections.namedtuple("Target", "triple tools runner shared", defaults=((), None))
TARGETS = {
    # The processor is from 2003, and has no instruction of SSE3 or later.
    "x86_64-linux": Target("x86_64-unknown-linux-gnu", "", ("qemu-x86_64", "-cpu", "Opteron_G1"), "so"),
    "aarch64-linux": Target("aarch64-unknown-linux-gnu", "aarch64-linux-gnu-",
                            ("qemu-aarch64", "-L", "/usr/aarch64-linux-gnu"), "so"),
    "riscv64-linux": Target("riscv64-unknown-linux-gnu", "riscv64-linux-gnu-",
                            ("qemu-riscv64", "-L", "/usr/riscv64-linux-gnu"), "so"),
    "x86_64-windows": Target("x86_64-w64-windows-gnu", "x86_64-w64-mingw32-", WINE, "dll"),
    "aarch64-android": Target("aarch64-unknown-linux-android21", "aarch64-linux-gnu-"),
    "arm64-macos": Target("arm64-apple-macosx11.0.0", None),
    "arm64-ios": Target("arm64-apple-ios13.0.0", None),
}
# The C library's functions that each target may call. Windows checks the stack by a function of the compiler.
ASKED = {"malloc", "free", "memcpy", "memmove", "memset"}
CHECKS_STACK = "___chkstk_ms"
# The headers of a C library, as far as heap.c and text.c need them. stdint.h and stddef.h are the C compiler's.
HEADERS = {"stdlib.h": "#include <stddef.h>\nvoid *malloc(size_t);\nvoid free(void *);\n",
           "string.h": "#include <stddef.h>\nvoid *memcpy(void *, const void *, size_t);\nvoid *memset(void *, int, size_t);\n"}
# On Windows a function in C returns a struct of 16 bytes by a pointer. These functions call those of heap.c that way.
BY_POINTER = """
define internal {{ i64, i64 }} @by_pointer_{name}({types}) {{
  %place = alloca {{ i64, i64 }}
  call void @{name}(ptr sret({{ i64, i64 }}) %place, {arguments})
  %result = load {{ i64, i64 }}, ptr %place
  ret {{ i64, i64 }} %result
}}
declare void @{name}(ptr sret({{ i64, i64 }}), {types})
"""
SOURCES = ("calls", "token", "verify", "issue")


def compare_page(check):
    """Checks that the page's table has each target."""
    rows = re.findall(r"^\| (`.*?) \|", read("docs", "C.md").partition("### Other targets")[2].partition("\n## ")[0], re.M)
    check(set(re.findall(r"`(.+?)`", " ".join(rows))) == set(TARGETS), f"docs/C.md has other targets: {rows}")


def errors_in(given):
    """Yields what is wrong with the arguments of tools/c about targets, and which commands aren't installed."""
    if given.test and not given.target:
        yield "--test is for --target"
    if not given.target:
        return
    target = TARGETS[given.target]
    if given.built or given.own_heap or not (given.keep or given.install or given.test):
        yield "--target is for --keep, --install and --test"
    if given.install and target.shared != "so":
        yield f"--install is for targets with libcoset.so, which {given.target} hasn't"
    if given.test and not target.runner:
        yield f"nothing here runs programs for {given.target}"
    needed = [target.tools + it for it in ("gcc", "ld", "ar", "nm", "objcopy")] if target.tools is not None else []
    for tool in [*needed, *[it for it in target.runner if given.test and it.startswith(("/usr/lib/", "qemu"))]]:
        if not shutil.which(tool):
            yield f"there is no {tool}, which {given.target} needs"


# ---- building


def level(is_quick):
    """Returns how much the library for x86-64 Linux is optimized."""
    return "-O1" if is_quick else "-O3"


def optimized(is_quick):
    """Returns the path of the optimized module, which is kept until the library changes."""
    text = building.module(is_quick)
    made = text.replace(".ll", "_optimized.ll")
    if not os.path.exists(made) or os.path.getmtime(made) < os.path.getmtime(text):
        common.say("optimizing the library for all targets, in a minute")
        # Code that isn't position-independent has no tables of distances, which linkers for macOS may refuse.
        common.clang(level(is_quick), "-fno-pic", "-S", "-emit-llvm", text, "-o", f"{made}.new")
        os.replace(f"{made}.new", made)
    return made


def by_pointer(text):
    """Lets the module call the heap's functions as C does on Windows."""
    for name, arguments in re.findall(r"^declare \{ i64, i64 \} @(\w+)\((.*)\)", text, re.M):
        types = [it.split()[0] for it in arguments.split(", ")]
        text = re.sub(rf"^declare .*@{name}\(.*\n", "", text, flags=re.M).replace(f"@{name}(", f"@by_pointer_{name}(")
        arguments = ", ".join(f"{type_} %{place}" for place, type_ in enumerate(types))
        text += BY_POINTER.format(name=name, types=", ".join(types), arguments=arguments)
    return text


def retargeted(text, triple):
    """Returns the module for another target."""
    empty = run([f"{common.kit()}/toolchain/bin/clang", f"--target={triple}", "-S", "-emit-llvm", "-x", "c", "-", "-o", "-"], input="")
    for line in re.findall(r"^target \w+ = .*", empty, re.M):
        text = re.sub("^" + line.partition("=")[0] + "=.*", line, text, count=1, flags=re.M)
    # Windows has its own way to check the stack.
    words = "target-cpu|target-features|tune-cpu" + ("|probe-stack|stack-probe-size" if "windows" in triple else "")
    text = re.sub(rf' "({words})"="[^"]*"', "", text)
    if triple.startswith("riscv64"):
        # A caller in C expects the upper half of such a result to be the sign's.
        text = re.sub(r"^(define [^@\n]*)(i32 @coset_)", r"\1signext \2", text, flags=re.M)
    return by_pointer(text) if "windows" in triple else text


def clang(triple, *words):
    """Calls the kit's compiler for a target. The tables of addresses that it would add confuse the linker for Windows."""
    common.clang(f"--target={triple}", "-fno-addrsig", *words)


def compiled(folder, triple, source, *defines):
    """Compiles a file of c/wrappers/c to an object file in the folder, without a C library's headers. Returns its name."""
    own = run(["cc", "-print-file-name=include"]).strip()
    flags = ["-std=c11", "-O2", "-Wall", "-Wextra", "-Werror", "-ffreestanding", "-nostdinc", f"-I{HERE}/c/include"]
    clang(triple, *flags, f"-I{folder}/headers", "-isystem", own, *defines,
          "-c", f"{WRAPPERS}/c/{source}.c", "-o", f"{folder}/{source}.o")
    return f"{source}.o"


def object_files(folder, triple, is_quick):
    """Makes the object files of the library in the folder. The first is the module's. Returns their names."""
    with open(optimized(is_quick), encoding="utf-8") as file:
        text = retargeted(file.read(), triple)
    os.mkdir(f"{folder}/headers")
    for path, content in [("module.ll", text), *((f"headers/{name}", it) for name, it in HEADERS.items())]:
        with open(f"{folder}/{path}", "w", encoding="utf-8") as file:
            file.write(content)
    clang(triple, level(is_quick), "-Xclang", "-disable-llvm-passes", "-c", f"{folder}/module.ll", "-o", f"{folder}/module.o")
    return ["module.o", compiled(folder, triple, "heap"), compiled(folder, triple, "text", "-DCOSET_UNPROVED")]


def build(folder, name, is_quick, check):
    """Makes the libraries for a target in the folder. Returns the names of their object files without the heap, as
    `building.build` does."""
    target = TARGETS[name]
    objects = object_files(folder, target.triple, is_quick)
    if target.tools is None:
        run([f"{common.kit()}/toolchain/bin/llvm-ar", "rcsD", "libcoset.a", *objects], cwd=folder)
        return objects[:1]
    declared = building.exports(folder)
    one = building.joined(folder, ".", *objects, tools=target.tools)
    symbols = [line.split()[-2:] for line in run([f"{target.tools}nm", "-g", one], cwd=folder).splitlines()]
    asked = {it for kind, it in symbols if kind == "U"} - {"_GLOBAL_OFFSET_TABLE_"}
    check({it for kind, it in symbols if kind != "U"} == set(declared), f"libcoset.a for {name} gives {symbols}")
    check(asked <= ASKED | ({CHECKS_STACK} if "windows" in name else set()), f"libcoset.a for {name} asks for {asked}")
    if target.shared == "so":
        building.shared(folder, one, f"{target.tools}gcc")
    elif target.shared:
        words = ["-shared", "-s", "-o", dll(), one, "exports.def", "-Wl,--out-implib,libcoset.dll.a"]
        run([f"{target.tools}gcc", *words], cwd=folder)
    return objects[:1]


def dll():
    """Returns the name of the library for Windows, which has the number of the soname."""
    return interface.soname().replace(".so.", "-") + ".dll"


def made(name):
    """Returns the names of the libraries for a target: the static one, and the one that a linker takes for the shared one."""
    return {None: ["libcoset.a"], "so": ["libcoset.a", "libcoset.so"], "dll": ["libcoset.a", "libcoset.dll.a"]}[TARGETS[name].shared]


def kept(name, folder, to):
    """Leaves the libraries for a target and the headers in a folder. Returns the paths of the libraries."""
    shutil.copytree(f"{HERE}/c/include", f"{to}/include", dirs_exist_ok=True)
    pairs = [(it, it) for it in made(name)]
    pairs += {"so": [("libcoset.so", interface.soname())], "dll": [(dll(), dll())]}.get(TARGETS[name].shared, [])
    return [shutil.copy(f"{folder}/{it}", f"{to}/{own}") for it, own in pairs]


# ---- comparing


def caller(folder, tools, library):
    """Builds the program that makes calls, with a library of the folder, by the target's own compiler. Returns its path."""
    program = f"{folder}/with_{library}.exe"
    sources = [f"{WRAPPERS}/c/{name}.c" for name in SOURCES]
    flags = [*building.FLAGS, "-D__USE_MINGW_ANSI_STDIO", f"-Wl,-rpath,{folder}"]
    run([f"{tools}gcc", *flags, "-o", program, *sources, library], cwd=folder)
    return program


def compared(name, command, lines, wanted, check):
    """Makes the calls of the lines there, and compares their output with that here. Returns how many differ, in words."""
    begun = time.time()
    told = calling.answers(command, lines, check)
    different = [(asked, got, want) for asked, got, want in zip(lines, told, wanted) if got != want]
    for asked, got, want in different[:3]:
        check(False, f"{name}: {asked}: {got} and not {want}")
    return f"{len(lines)} calls in {time.time() - begun:.0f} s, different {len(different)}"


def attacked(name, folder, here, calls, check):
    """Attacks both libraries by the same calls. Returns the report."""
    begun, target = time.time(), TARGETS[name]
    _, wanted = attack.attack(*here, calls)
    is_right, told = attack.attack(folder, ["module.o"], calls, f"{target.tools}gcc", target.runner)
    check(is_right and told == wanted, f"{name}: {told} and not {wanted}")
    return f"{name}: {told}, in {time.time() - begun:.0f} s"


def tried(name, folder, here, lines, calls, check):
    """Makes the same calls with the libraries of the folder and with that of x86-64 Linux, and compares the outputs.

    `here` is the folder of the library of x86-64 Linux and its object files. Returns the lines to print."""
    target, left = TARGETS[name], f"{folder}/left"
    if target.runner is WINE:
        # Wine makes no folder above its own.
        os.makedirs(f"{HERE}/out/wine", exist_ok=True)
    kept(name, folder, left)
    wanted = calling.answers([caller(here[0], "", "libcoset.a")], lines, check)
    few, told = slice(None, None, max(1, len(lines) // 2000)), []
    for library, some in zip(made(name), ((lines, wanted), (lines[few], wanted[few]))):
        command, size = [*target.runner, caller(left, target.tools, library)], os.path.getsize(f"{left}/{library}")
        told.append(f"{name}: {library}, {size:,} bytes: {compared(name, command, *some, check)}")
    if "windows" not in name:
        # The program asks for the size of a block, as glibc says it.
        memory.wiped(folder, check, f"{target.tools}gcc", target.runner)
    return [*told, attacked(name, folder, here, calls, check)]
