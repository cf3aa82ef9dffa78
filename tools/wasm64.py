"""Compiles LLVM modules for x86-64 to WebAssembly with a 64-bit memory, by the kit's own clang. Binaryen's wasm-opt lowers the
memory to 32-bit addresses, which every engine has."""
import re
import shutil
import subprocess
import tempfile

import common

LAYOUT = "e-m:e-p:64:64-p10:8:8-p20:8:8-i64:64-i128:128-n32:64-S128-ni:1:10:20"
WASM = ["--target=wasm64-unknown-unknown", "--no-default-config", "-ffunction-sections", "-fdata-sections"]
STACK = 4 << 20  # bytes, enough for the deepest input in an unproved build too
HEAP = f"{common.HERE}/tools/viewer/heap.c"
FEATURES = ("memory64", "bulk-memory", "sign-ext", "mutable-globals", "nontrapping-float-to-int", "multivalue", "reference-types")


def clang(*words, called="clang"):
    """Calls the kit's clang, which is a different tool under a different name. Returns its error messages."""
    ran = subprocess.run([called, *words], executable=f"{common.kit()}/toolchain/bin/clang", capture_output=True, text=True, check=False)
    return ran.stderr[-3000:] if ran.returncode else ""


def lacking():
    """Returns a sentence on a tool that is missing for a module, or None."""
    if not shutil.which("wasm-opt"):
        return "there is no wasm-opt (binaryen)"
    with tempfile.TemporaryDirectory() as folder:
        made = not clang(*WASM, "-c", "-x", "c", "/dev/null", "-o", f"{folder}/empty.o")
        return None if made else "the kit's clang has no wasm64"


def as_text(bitcode, to):
    """Writes a module of bitcode as LLVM IR. Returns clang's error messages."""
    return clang("--target=x86_64-unknown-linux-gnu", "--no-default-config", "-Wno-override-module", "-S", "-emit-llvm", "-Xclang",
                 "-disable-llvm-passes", "-x", "ir", bitcode, "-o", to)


def for_wasm(text, attributes="nounwind"):
    """Returns the LLVM IR of a module for wasm64: with that layout, and with these attributes in place of those of x86-64."""
    text = re.sub(r"^target datalayout = .*", f'target datalayout = "{LAYOUT}"', text, flags=re.M)
    text = re.sub(r"^target triple = .*", 'target triple = "wasm64-unknown-unknown"', text, flags=re.M)
    text = re.sub(r'"(frame-pointer|probe-stack|stack-probe-size|target-cpu|target-features)"="[^"]*" ?', "", text)
    text = text.replace(" sanitize_address", "").replace(" nounwind", "")
    return re.sub(r"^(attributes #\d+ = \{)", rf"\1 {attributes}", text, flags=re.M)


def link(objects, exports, to):
    """Links object files to a module with these exports. Returns the linker's error messages."""
    return clang("-mwasm64", "--no-entry", "--gc-sections", "--strip-all", "--stack-first", "-z", f"stack-size={STACK}",
                 *(f"--export={it}" for it in exports), *objects, "-o", to, called="wasm-ld")


def lowered(wide, to):
    """Lowers a module to a 32-bit memory, and makes it small. Returns the error messages of wasm-opt."""
    ran = subprocess.run(["wasm-opt", *(f"--enable-{it}" for it in FEATURES), wide, "--memory64-lowering", "-Oz", "-o", to],
                         capture_output=True, text=True, check=False)
    return ran.stderr[-3000:] if ran.returncode else ""
