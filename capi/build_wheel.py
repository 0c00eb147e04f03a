"""Packs the module, its shell and the built library into a wheel, for pip (pyproject.toml) and for `make wheel`."""
from __future__ import annotations

import base64
import hashlib
import os
import re
import sys
import zipfile

HERE = os.path.dirname(os.path.abspath(__file__))
TOP = os.path.join(HERE, os.pardir)
LIBRARIES = [os.path.join(TOP, "release", "libredo-x86_64-linux.so"), os.path.join(HERE, "build", "libredo.so.1")]
LICENSES = ["LICENSE-MIT", "LICENSE-APACHE", "THIRD-PARTY"]
NAME = "redo_store"
OLDEST = (2, 17)        # the C library of manylinux2014


def _read(path: str) -> bytes:
    with open(path, "rb") as file:
        return file.read()


def _version() -> str:
    """That of the program."""
    try:
        with open(os.path.join(TOP, "release", "start")) as file:
            return next(line[len("version="):].strip() for line in file if line.startswith("version="))
    except FileNotFoundError:
        return "0"


def _library() -> bytes:
    library = next((path for path in LIBRARIES if os.path.exists(path)), None)
    if library is None:
        raise FileNotFoundError("release/ has no library, and capi/make has made none")
    return _read(library)


def _tag(library: bytes) -> str:
    """For which systems the wheel is: those whose C library has the versions that are named in this one, which needs no other."""
    needed = set(re.findall(rb"\0(lib[\w+-]+\.so[.\d]*)(?=\0)", library)) - {b"libredo.so.1", b"libc.so.6", b"libpthread.so.0"}
    versions = [(int(major), int(minor)) for major, minor in re.findall(rb"\0GLIBC_(\d+)\.(\d+)", library)]
    if needed or not versions:
        return "py3-none-linux_x86_64"
    major, minor = max(OLDEST, *versions)
    old = ".manylinux2014_x86_64" if (major, minor) == OLDEST else ""
    return f"py3-none-manylinux_{major}_{minor}_x86_64{old}"


def _package() -> dict[str, bytes]:
    """The files of the package."""
    files = {}
    for folder, _, names in os.walk(os.path.join(HERE, "redo")):
        for name in sorted(names):
            if name.endswith((".py", ".typed")):
                path = os.path.join(folder, name)
                files[os.path.relpath(path, HERE)] = _read(path)
    return files


def _write(folder: str, files: dict[str, bytes], tag: str) -> str:
    """Writes a wheel of these files, and answers its name."""
    version = _version()
    info = f"{NAME}-{version}.dist-info"
    metadata = ["Metadata-Version: 2.4", "Name: redo-store", f"Version: {version}",
                "Summary: A recoverable store of objects within a process", "Requires-Python: >=3.9",
                "License-Expression: MIT OR Apache-2.0", *(f"License-File: {name}" for name in LICENSES)]
    python, abi, systems = tag.split("-")
    tags = "".join(f"Tag: {python}-{abi}-{system}\n" for system in systems.split("."))
    files = {
        **files,
        f"{info}/METADATA": "".join(f"{line}\n" for line in metadata).encode(),
        **{f"{info}/licenses/{name}": _read(os.path.join(TOP, name)) for name in LICENSES},
        f"{info}/entry_points.txt": b"[console_scripts]\nredo-shell = redo.shell.main:main\n",
        f"{info}/WHEEL": f"Wheel-Version: 1.0\nGenerator: redo\nRoot-Is-Purelib: false\n{tags}".encode(),
    }
    record = "".join(
        f"{name},sha256={base64.urlsafe_b64encode(hashlib.sha256(data).digest()).rstrip(b'=').decode()},{len(data)}\n"
        for name, data in files.items()
    )
    files[f"{info}/RECORD"] = f"{record}{info}/RECORD,,\n".encode()
    wheel = f"{NAME}-{version}-{tag}.whl"
    with zipfile.ZipFile(os.path.join(folder, wheel), "w", zipfile.ZIP_DEFLATED) as archive:
        for name, data in files.items():
            archive.writestr(zipfile.ZipInfo(name, (2026, 1, 1, 0, 0, 0)), data, zipfile.ZIP_DEFLATED)
    return wheel


def build_wheel(wheel_directory: str, config_settings: object = None, metadata_directory: object = None) -> str:
    library = _library()
    return _write(wheel_directory, {**_package(), "redo/libredo.so.1": library}, _tag(library))


def build_editable(wheel_directory: str, config_settings: object = None, metadata_directory: object = None) -> str:
    """For `pip install -e`: the package is that of this folder, and finds the library in build/ or release/."""
    return _write(wheel_directory, {f"{NAME}.pth": f"{HERE}\n".encode()}, "py3-none-any")


if __name__ == "__main__":
    print(build_wheel(*sys.argv[1:] or ["."]))
