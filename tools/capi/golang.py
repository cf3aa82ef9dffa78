"""Makes the calls from Go, and runs the tests of its package, if the command `go` is installed."""
import os
import shutil
import subprocess
import tempfile

from capi import accepting, calling, hostile, install
from capi.building import WRAPPERS, run
from capi.wasm import with_own_ciphers
from sources import read


def environment(prefix, folder):
    """Returns the variables for a build against an installed library, without a network."""
    return {**os.environ, "PKG_CONFIG_PATH": f"{prefix}/lib/pkgconfig", "CGO_LDFLAGS": f"-Wl,-rpath,{prefix}/lib", "GOFLAGS": "-mod=mod",
            "GOPROXY": "off", "GOTOOLCHAIN": "local", "GOCACHE": f"{folder}/cache", "GOPATH": f"{folder}/path"}


def built(prefix, folder, env):
    """Builds the program that makes calls, over the installed package. Returns its path."""
    shutil.copytree(f"{WRAPPERS}/go/calls", f"{folder}/calls")
    run(["go", "mod", "edit", f"-replace=coset={prefix}/share/coset/go"], cwd=f"{folder}/calls", env=env)
    run(["go", "build", "-o", f"{folder}/calls_go", "."], cwd=f"{folder}/calls", env=env)
    return f"{folder}/calls_go"


def with_earlier_library(program, folder, env, check):
    """Checks that the package refuses a library with an earlier version's number."""
    with open(f"{folder}/earlier.c", "w", encoding="utf-8") as file:
        file.write("unsigned coset_version_number(void) { return 0x00040206; }\n")
    run(["cc", "-shared", "-fPIC", "-o", "earlier.so", "earlier.c"], cwd=folder)
    ran = subprocess.run([program], input="", capture_output=True, text=True, check=False, env={**env, "LD_PRELOAD": f"{folder}/earlier.so"})
    check(ran.returncode and "earlier than this package" in ran.stderr, f"Go takes an earlier library: {ran.stderr[-300:]}")


def tested(prefix, folder, env, check):
    """Runs the tests of the package. Returns a line."""
    shutil.copytree(f"{prefix}/share/coset/go", f"{folder}/tested")
    shutil.copy(f"{WRAPPERS}/go/coset/coset_test.go", f"{folder}/tested")
    ran = subprocess.run(["go", "test", "-v", "."], cwd=f"{folder}/tested", env=env, capture_output=True, text=True, check=False)
    check(ran.returncode == 0, f"coset_test.go: {ran.stdout[-2000:]}{ran.stderr[-1000:]}")
    passed, there = ran.stdout.count("--- PASS: Test"), read("c", "wrappers", "go", "coset", "coset_test.go").count("func Test")
    check(passed == there, f"coset_test.go: {passed} of {there} tests pass")
    return f"Go's tests {passed}"


def tried(given, library, calls, wrong):
    """Installs the library of a folder and the package, and makes the calls from Go. Returns the lines to print."""
    lacks = next((it for it in ("go", "pkg-config") if not shutil.which(it)), None)
    if lacks:
        return [f"there is no {lacks} for Go"]
    calls = [*calls, *accepting.calls(), *with_own_ciphers("ecdsa")]
    with tempfile.TemporaryDirectory() as prefix, tempfile.TemporaryDirectory() as folder:
        install.install(library, prefix, given.quick)
        env = environment(prefix, folder)
        program = built(prefix, folder, env)
        calling.from_wrapper("Go", [program], calls, wrong.check)
        hostile.damage("Go", [program], f"{library}/calls_c", wrong.check)
        with_earlier_library(program, folder, env, wrong.check)
        calling.texts(given.quick, [([f"{library}/calls_c"], {}), ([program], {})], wrong.check)
        return [f"from Go {len(calls)}", tested(prefix, folder, env, wrong.check)]
