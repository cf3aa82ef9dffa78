"""Builds the wheel and the source distribution of the folder `coset` next to this file (PEP 517), with Python alone.

The wheel has a copy of the shared library. It is the one in the folder that the environment's COSET_LIB_DIR names. Without that
it is the one that was installed with this file, else the one that pkg-config finds. A library with another name than @SONAME@
is an error. So is a library whose pkgconfig/coset.pc, if it has one, has an earlier version than @NUMBERS@. With the setting `library=system` the wheel has no copy, and the package loads the system's @SONAME@.
"""
import base64
import hashlib
import io
import os
import re
import subprocess
import tarfile
import zipfile

HERE = os.path.dirname(os.path.abspath(__file__))
NAME = "coset_rattle-@PYTHON_VERSION@"
INFO = f"{NAME}.dist-info"
SONAME = b"@SONAME@"
# The processors of wheels, by their numbers in a file of ELF.
MACHINES = {62: "x86_64", 183: "aarch64", 243: "riscv64"}


def _read(path):
    with open(os.path.join(HERE, path), "rb") as file:
        return file.read()


def _package():
    """Returns the paths of the package's files."""
    names = sorted(os.listdir(os.path.join(HERE, "coset")))
    return [f"coset/{name}" for name in names if name.endswith((".py", ".pyi", ".typed"))]


def _folders():
    """Yields the folders in which the shared library may be. A folder that COSET_LIB_DIR names is the only one."""
    if "COSET_LIB_DIR" in os.environ:
        folder = os.environ["COSET_LIB_DIR"]
        if not os.path.isabs(folder):
            raise RuntimeError(f"COSET_LIB_DIR is no absolute path: {folder}")
        yield folder
        return
    if HERE.endswith(os.path.join(os.sep, "share", "coset", "python")):
        # Only where this file was installed. A source distribution may be unpacked in a folder of anyone.
        yield os.path.join(HERE, "../../..", "@LIBDIR@")
    try:
        asked = subprocess.run(["pkg-config", "--variable=libdir", "coset"], capture_output=True, text=True, check=False)
    except OSError:
        return
    if os.path.isabs(asked.stdout.strip()):
        yield asked.stdout.strip()


def _numbers(version):
    return tuple(map(int, version.split(".")))


def _check_version(path):
    """Raises an error if this file, which is installed with a library, has an earlier version than the package."""
    found = re.search(r"^Version: *(\d+(?:\.\d+)*)\s*$", _read(path).decode(errors="replace"), re.M) if os.path.exists(path) else None
    if found and _numbers(found[1]) < _numbers("@NUMBERS@"):
        raise RuntimeError(f"{path} is of version {found[1]}, earlier than this package, which is of version @NUMBERS@")


def _library():
    """Returns the shared library's contents."""
    for folder in _folders():
        path = os.path.abspath(os.path.join(folder, "libcoset.so"))
        if not os.path.exists(path):
            continue
        library = _read(path)
        if library[:4] != b"\x7fELF" or b"\0" + SONAME + b"\0" not in library:
            raise RuntimeError(f"{path} isn't {SONAME.decode()}")
        _check_version(os.path.join(folder, "pkgconfig", "coset.pc"))
        return library
    raise RuntimeError("there is no libcoset.so: name its folder in COSET_LIB_DIR, or give the setting library=system")


def _platform(library):
    """Returns the wheel's platform for the library."""
    machine = int.from_bytes(library[18:20], "little")
    if machine not in MACHINES:
        raise RuntimeError(f"libcoset.so is for the processor {machine} of ELF, for which there is no wheel")
    return f"linux_{MACHINES[machine]}"


def _digest(data):
    return base64.urlsafe_b64encode(hashlib.sha256(data).digest()).rstrip(b"=").decode()


def _about(tag):
    """Returns the wheel's files with metadata."""
    is_pure = str(tag.endswith("any")).lower()
    wheel = f"Wheel-Version: 1.0\nGenerator: coset\nRoot-Is-Purelib: {is_pure}\nTag: {tag}\n"
    return {f"{INFO}/METADATA": _read("PKG-INFO"), f"{INFO}/WHEEL": wheel.encode(), f"{INFO}/licenses/LICENSE": _read("LICENSE")}


def build_wheel(wheel_directory, config_settings=None, metadata_directory=None):
    wanted = (config_settings or {}).get("library")
    if wanted not in (None, "system"):
        raise RuntimeError(f"the setting library is system, or isn't given, and not {wanted}")
    library = _library() if wanted is None else None
    tag = f"py3-none-{'any' if library is None else _platform(library)}"
    files = {path: _read(path) for path in _package()}
    if library is not None:
        files["coset/libcoset.so"] = library
    files |= _about(tag)
    lines = [f"{path},sha256={_digest(data)},{len(data)}\n" for path, data in files.items()]
    files[f"{INFO}/RECORD"] = "".join([*lines, f"{INFO}/RECORD,,\n"]).encode()
    with zipfile.ZipFile(os.path.join(wheel_directory, f"{NAME}-{tag}.whl"), "w") as wheel:
        for path, data in files.items():
            info = zipfile.ZipInfo(path)
            info.external_attr = 0o644 << 16
            wheel.writestr(info, data, zipfile.ZIP_DEFLATED)
    return f"{NAME}-{tag}.whl"


def build_sdist(sdist_directory, config_settings=None):
    with tarfile.open(os.path.join(sdist_directory, f"{NAME}.tar.gz"), "w:gz") as sdist:
        for path in ["PKG-INFO", "LICENSE", "pyproject.toml", "backend.py", *_package()]:
            data, info = _read(path), tarfile.TarInfo(f"{NAME}/{path}")
            info.size = len(data)
            sdist.addfile(info, io.BytesIO(data))
    return f"{NAME}.tar.gz"
