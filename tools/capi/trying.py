"""Tries the installation: builds a program in each way, and compares its output for a token."""
import glob
import os
import re
import shlex
import shutil
import subprocess
import sys
import tempfile

from capi import hints, install, interface
from sources import read

# The folder of the libraries, as Debian names it.
LIBDIR = "lib/x86_64-linux-gnu"
# For version 0.4.2.9, if its interface began with 0.4.2.7: whether it meets a request to CMake, by the rule of docs/C.md.
REQUESTS = {"0": True, "0.4": True, "0.4.2": True, "0.4.2.7": True, "0.4.2.8": True, "0.4.2.9": True, "0.4.2.6": False,
            "0.4.2.10": False, "0.4.1": False, "0.4.3": False, "0.5": False, "1": False, "0.4.20": False,
            "0.4...<0.5": True, "0.4.2.6...0.4.2.9": True, "0.4.2.7...0.4.2.8": False, "0.4.2.7...<0.4.2.9": False}


def run(*command, **more):
    """Returns the command's output, or a message if it fails."""
    ran = subprocess.run(command, capture_output=True, text=True, errors="replace", check=False, **more)
    return ran.stdout.strip() if ran.returncode == 0 else f"{' '.join(command)}: {ran.stdout[-1000:]}{ran.stderr[-1000:]}"


def has(tool):
    return shutil.which(tool) if tool != "pip" else not run(sys.executable, "-c", "import pip")


def write_try(prefix, folder, path):
    """Writes a file of c/packaging/try into the folder."""
    text = install.filled(read(f"c/packaging/try/{path}"), install.words(prefix, LIBDIR, True))
    install.place(folder, path, install.write(text))


# ---- a program in each way. Each function returns the outputs of its programs


def by_pkg_config(prefix, folder, token):
    where = {**os.environ, "PKG_CONFIG_PATH": f"{prefix}/{LIBDIR}/pkgconfig"}
    told = run("pkg-config", f"--exact-version={interface.numbers()}", "coset", env=where)
    flags = shlex.split(run("pkg-config", "--cflags", "--libs", "coset", env=where))
    told += run("cc", "-Wall", "-Wextra", "-Werror", "try.c", *flags, f"-Wl,-rpath,{prefix}/{LIBDIR}", "-o", "try_pc", cwd=folder)
    return [told or run(f"{folder}/try_pc", token)]


def found_by_cmake(prefix, folder, built, token):
    """Returns the outputs of the two programs, built in this folder, if CMake looks below the prefix."""
    told = run("cmake", "-S", folder, "-B", built, f"-DCMAKE_PREFIX_PATH={prefix}", "-DCMAKE_LIBRARY_ARCHITECTURE=x86_64-linux-gnu")
    told += run("cmake", "--build", built)
    return [run(it, token) if os.path.exists(it) else told for it in (f"{built}/try_shared", f"{built}/try_static")]


def by_cmake(prefix, folder, token):
    told = found_by_cmake(prefix, folder, f"{folder}/built", token)
    # As /lib, which may be a link to /usr/lib.
    os.makedirs(f"{folder}/linked")
    os.symlink(f"{prefix}/lib", f"{folder}/linked/lib")
    told += found_by_cmake(f"{folder}/linked", folder, f"{folder}/built_linked", token)
    # The prefix's own folder may be a link, next to whose files there are no headers.
    os.makedirs(f"{folder}/apart")
    os.rename(f"{prefix}/lib", f"{folder}/apart/lib")
    os.symlink(f"{folder}/apart/lib", f"{prefix}/lib")
    told += found_by_cmake(prefix, folder, f"{folder}/built_apart", token)
    os.remove(f"{prefix}/lib")
    os.rename(f"{folder}/apart/lib", f"{prefix}/lib")
    # A moved installation.
    os.rename(prefix, f"{folder}/moved")
    told += found_by_cmake(f"{folder}/moved", folder, f"{folder}/built_moved", token)
    os.rename(f"{folder}/moved", prefix)
    return told


def packed(prefix, folder, library):
    """Returns what pip installs: the package's source, a source distribution, a wheel, and a wheel without the library."""
    source, pip = f"{prefix}/share/coset/python", [sys.executable, "-m", "pip", "wheel", "--quiet", "--no-index"]
    made = run(sys.executable, "-c", "import backend, sys; print(backend.build_sdist(sys.argv[1]))", folder, cwd=source)
    told = run(*pip, "--wheel-dir", f"{folder}/wheel", f"{folder}/{made}", env={**os.environ, "COSET_LIB_DIR": library})
    told += run(*pip, "--wheel-dir", f"{folder}/bare", "--config-settings", "library=system", source)
    wheels = glob.glob(f"{folder}/wheel/*-linux_x86_64.whl") + glob.glob(f"{folder}/bare/*-none-any.whl")
    return [source, f"{folder}/{made}", *(wheels if len(wheels) == 2 else [told])]


def of_version(library, folder, numbers):
    """Returns a folder with copies of the libraries, and a file for pkg-config with that version."""
    at = f"{folder}/versions/{numbers}"
    os.makedirs(f"{at}/pkgconfig")
    for name in ("libcoset.a", "libcoset.so"):
        shutil.copy(f"{library}/{name}", at)
    with open(f"{library}/pkgconfig/coset.pc", encoding="utf-8") as file:
        about = file.read().replace(f"Version: {interface.numbers()}\n", f"Version: {numbers}\n")
    install.place(at, "pkgconfig/coset.pc", install.write(about))
    return at


def versions():
    """Returns versions, each with whether it is earlier than this one. The last of four numbers may have more digits."""
    numbers = list(map(int, interface.numbers().split(".")))
    others = {(*numbers[:3], numbers[3] - 1): True, (*numbers[:3], 10 * numbers[3]): False, (numbers[0], numbers[1] + 1, 0, 0): False,
              (numbers[0], numbers[1] - 1, 99, 99): True}
    return {".".join(map(str, it)): is_earlier for it, is_earlier in others.items()}


WHEEL = "import backend, sys; print(backend.build_wheel(sys.argv[1]))"


def wheels_refused(prefix, folder, library):
    """Returns what the package's backend should have refused: no library where COSET_LIB_DIR says, another library, and none that
    is only next to a source distribution."""
    source, told = f"{prefix}/share/coset/python", []
    os.makedirs(f"{folder}/wrong/lib")
    os.makedirs(f"{folder}/wrong/empty")
    with open(f"{library}/libcoset.so", "rb") as file:
        contents = file.read()
    number = interface.soname().encode()
    apart = f"{folder}/wrong/a/b/c"
    shutil.copytree(source, apart)
    os.makedirs(f"{folder}/wrong/{LIBDIR}")
    shutil.copy(f"{library}/libcoset.so", f"{folder}/wrong/{LIBDIR}")
    where = {**os.environ, "PKG_CONFIG_PATH": f"{folder}/wrong", "PKG_CONFIG_LIBDIR": f"{folder}/wrong"}
    for home, more, changed in ((source, {"COSET_LIB_DIR": "lib"}, contents), (source, {"COSET_LIB_DIR": ""}, contents),
                                (source, {"COSET_LIB_DIR": f"{folder}/wrong/empty"}, contents), (apart, {}, contents),
                                (source, {"COSET_LIB_DIR": f"{folder}/wrong/lib"}, contents.replace(number, number[:-1] + b"0")),
                                (source, {"COSET_LIB_DIR": f"{folder}/wrong/lib"}, contents[:18] + b"\x08" + contents[19:])):
        with open(f"{folder}/wrong/lib/libcoset.so", "wb") as file:
            file.write(changed)
        got = run(sys.executable, "-c", WHEEL, f"{folder}/wrong", cwd=home, env={**where, **more})
        told += [] if "RuntimeError" in got else [f"a wheel with {more} in {home}: {got}"]
    with open(f"{folder}/wrong/lib/libcoset.so", "wb") as file:
        file.write(contents[:18] + b"\xb7" + contents[19:])
    got = run(sys.executable, "-c", WHEEL, f"{folder}/wrong", cwd=source, env={**where, "COSET_LIB_DIR": f"{folder}/wrong/lib"})
    told += [] if got.endswith("-linux_aarch64.whl") else [f"a wheel for another processor: {got}"]
    for numbers, is_earlier in versions().items():
        got = run(sys.executable, "-c", WHEEL, f"{folder}/wrong", cwd=source,
                  env={**where, "COSET_LIB_DIR": of_version(library, f"{folder}/wrong", numbers)})
        told += [] if is_earlier == ("earlier than this package" in got) == ("RuntimeError" in got) else [f"a wheel with {numbers}: {got}"]
    for setting in ("System", "", f"{library}/libcoset.so"):
        made = WHEEL.replace("argv[1]", "argv[1], {'library': sys.argv[2]}")
        got = run(sys.executable, "-c", made, f"{folder}/wrong", setting, cwd=source, env={**where, "COSET_LIB_DIR": library})
        told += [] if "RuntimeError" in got else [f"a wheel with the library {setting}: {got}"]
    return told


def by_pip(prefix, folder, token):
    library = f"{prefix}/{LIBDIR}"
    told = wheels_refused(prefix, folder, library)
    where = {name: value for name, value in os.environ.items() if name != "COSET_LIBRARY"}
    for place, given in enumerate(packed(prefix, folder, library)):
        site = f"{folder}/site{place}"
        pip = [sys.executable, "-m", "pip", "install", "--quiet", "--disable-pip-version-check", "--no-index", "--target", site]
        # From the last one the package loads the library that the system finds.
        has_none = {"LD_LIBRARY_PATH": library} if place == 3 else {}
        failed = run(*pip, given, env={**where, "COSET_LIB_DIR": library})
        told.append(failed or run(sys.executable, f"{folder}/try.py", token, env={**where, "PYTHONPATH": site, **has_none}))
        about = run(sys.executable, f"{folder}/about.py", env={**where, "PYTHONPATH": site, **has_none})
        told += [] if about == wanted_about() else [about]
    return told


def wanted_about():
    """Returns the lines of about.py: the package's metadata, and its public names."""
    names = sorted(name for name in hints.public(read("c/packaging/python/coset/__init__.pyi")) if "." not in name)
    version = f"{interface.version().replace('-', '+', 1)} 0x{interface.number():08x}"
    return "\n".join([version, "COSE and CBOR web tokens, read and made (RFC 8152, RFC 8392)", "Apache-2.0 >=3.9", " ".join(names)])


WAYS = {"pkg-config": by_pkg_config, "cmake": by_cmake, "pip": by_pip}


# ---- the installation itself


def try_symbols(prefix, check):
    """Checks that the shared library has its name, and gives the functions alone, each with its version."""
    shared = f"{prefix}/{LIBDIR}/libcoset.so"
    given = run("nm", "-D", "--defined-only", "--format=just-symbols", shared).split()
    wanted = [f"{name}@@COSET_{since}" for since, functions in interface.symbols().items() for name in functions]
    check(sorted(given) == sorted([*wanted, *(f"COSET_{since}" for since in interface.symbols())]), f"libcoset.so gives {given}")
    told = run("objdump", "-p", shared)
    check(re.findall(r"SONAME +(\S+)", told) == [interface.soname()], f"libcoset.so isn't {interface.soname()}: {told}")


def try_requests(folder, check):
    """Checks which versions meet a request to CMake."""
    if not shutil.which("cmake"):
        return
    with open(f"{folder}/requested.cmake", "w", encoding="utf-8") as file:
        text = read("c/packaging/cmake/coset-config-version.cmake")
        file.write(install.filled(text, {"NUMBERS": "0.4.2.9", "OLDEST": "0.4.2.7"}))
        file.write('message(STATUS "${PACKAGE_VERSION_COMPATIBLE}")\n')
    for request, is_met in REQUESTS.items():
        least, _, most = request.partition("...")
        asked = {"": least, "_COUNT": least.count(".") + 1, "_MIN": least, "_RANGE": request if most else "",
                 "_MAX": most.strip("<"), "_RANGE_MAX": "EXCLUDE" if "<" in most else "INCLUDE"}
        given = [f"-DPACKAGE_FIND_VERSION{name}={value}" for name, value in asked.items()]
        told = run("cmake", *given, "-P", f"{folder}/requested.cmake")
        check(told == f"-- {str(is_met).upper()}", f"0.4.2.9 for the request {request}: {told}")


def found_below(folder, without=""):
    """Returns the paths of all files below a folder, from there. Files in folders named `without` are left out."""
    return {os.path.relpath(f"{place}/{name}", folder) for place, _, names in os.walk(folder) for name in names
            if os.path.basename(place) != without}


def try_list(library, prefix, quick, check):
    """Checks the list of installed files, that a new installation removes old files, and that nothing remains at the end."""
    stale = "share/coset/old/stale"
    compiled = "__pycache__"
    check(set(install.listed(prefix)) == found_below(prefix, compiled), "the list of installed files isn't what there is")
    install.place(prefix, stale, install.write(""))
    with open(f"{prefix}/{install.LIST}", "a", encoding="utf-8") as file:
        file.write(f"{stale}\n../outside\n")
    install.install(library, prefix, quick, libdir=LIBDIR)
    check(set(install.listed(prefix)) == found_below(prefix, compiled), "a file of an earlier installation remains")
    install.uninstall(prefix)
    check(not found_below(prefix), f"after --uninstall there remain {found_below(prefix)}")
    check(not glob.glob(f"{prefix}/share/coset*"), "after --uninstall a folder of coset remains")


def tried(library, quick, token, payload, check):
    """Installs the library in a temporary folder with a space in its name, and builds a program in each way for which the tool is
    installed.

    Checks that each program prints the payload of the token. Returns which ways were tried."""
    with tempfile.TemporaryDirectory() as above, tempfile.TemporaryDirectory() as folder:
        prefix = f"{above}/pre fix"
        install.install(library, prefix, quick, libdir=LIBDIR)
        check(not hints.unlike(), f"the type hints of {', '.join(hints.unlike())} aren't those of the wrapper")
        try_symbols(prefix, check)
        try_requests(folder, check)
        for path in ("try.c", "try.py", "about.py", "CMakeLists.txt"):
            write_try(prefix, folder, path)
        there = [tool for tool in WAYS if has(tool)]
        for tool in there:
            told = WAYS[tool](prefix, folder, token.hex())
            check(set(told) == {payload.hex()}, f"installed for {tool}: {told}")
        try_list(library, prefix, quick, check)
    return [f"installed for {', '.join(there)}", *(f"there is no {tool}" for tool in WAYS if tool not in there)]
