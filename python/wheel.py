#!/usr/bin/env python3
"""Writes the wheel of the Python package. Its module in C contains the static library of a release:

    SOURCE_DATE_EPOCH=SECONDS wheel.py RELEASE FOLDER

RELEASE is the folder that the archive of dist.sh holds. FOLDER gets the wheel, and its name is
printed. Two runs give the same bytes, with the same Python and C compiler: names are sorted, and
times are SOURCE_DATE_EPOCH. It needs Python 3.10 or later with its `Python.h`, and a C compiler
`cc` with GNU ld. For aarch64 the compiler is AARCH64_CC, and the header is in AARCH64_ROOT, which
tests/cross.sh sets.
"""

from __future__ import annotations

import base64
import hashlib
import os
import re
import subprocess
import sys
import sysconfig
import tempfile
import time
import zipfile
from pathlib import Path

SOURCES = Path(__file__).resolve().parent
MODULE = "cesu8/_native.abi3.so"

WHEEL = """\
Wheel-Version: 1.0
Generator: wheel.py
Root-Is-Purelib: false
Tag: {tag}
"""

# The second MIT license is that of `simdutf8`, of which the library contains parts.
METADATA = """\
Metadata-Version: 2.4
Name: cesu8
Version: {version}
Summary: CESU-8 and Modified UTF-8 (MUTF-8), as codecs, and Java strings
License-Expression: (Apache-2.0 OR MIT) AND MIT
{licences}
Classifier: Private :: Do Not Upload
Classifier: Operating System :: POSIX :: Linux
Classifier: Programming Language :: Python :: 3
Classifier: Typing :: Typed
Requires-Python: >=3.10
Requires-External: glibc (>={c_library})
Description-Content-Type: text/markdown

{description}"""


def is_for_aarch64(release: Path) -> bool:
    """Whether the release is for aarch64: e_machine in the shared object's ELF header is 183."""
    shared = next((release / "lib").glob("libcesu8.so.*"))
    return int.from_bytes(shared.read_bytes()[18:20], "little") == 183


def x86_64() -> list[str]:
    """The C compiler with its flags. The module requires x86-64-v2, which the loader checks."""
    return ["cc", "-Wl,-z,x86-64-v2", "-isystem", sysconfig.get_path("include")]


def aarch64() -> list[str]:
    """The compiler for aarch64. Debian's pyconfig.h includes another one, relative to usr/include."""
    folder = Path(os.environ["AARCH64_ROOT"], "usr", "include")
    header = next(folder.glob("python3.*/Python.h"))
    return [os.environ["AARCH64_CC"], "-isystem", str(header.parent), "-idirafter", str(folder)]


def module(release: Path, compiler: list[str]) -> bytes:
    """Compiles the module in C."""
    with tempfile.TemporaryDirectory() as folder:
        path = Path(folder, "module.so")
        command = [*compiler, "-std=c11", "-O2", "-fPIC", "-falign-functions=32", "-DNDEBUG"]
        command += ["-Wall", "-Wextra", "-Werror"]
        command += ["-shared", "-s", "-o", str(path), str(SOURCES / "native.c")]
        command += ["-I", str(release / "include")]
        command += [str(release / "lib" / "libcesu8.a"), "-Wl,--exclude-libs,ALL,--fatal-warnings"]
        command += ["-Wl,-z,relro,-z,now,-z,noexecstack"]
        subprocess.run(command, check=True)
        return path.read_bytes()


def c_library(module: bytes) -> str:
    """The newest version of the GNU C library whose symbols the module uses."""
    versions = re.findall(rb"GLIBC_([0-9.]+)\0", module)
    return max(versions, key=lambda version: [int(part) for part in version.split(b".")]).decode()


def tag(is_aarch64: bool, needed: str) -> str:
    """The wheel's tag. Every Python from 3.10 on loads the module. manylinux_2_17 means every C
    library from 2.17 on. The tag for x86-64 is not manylinux, which promises any x86-64 processor."""
    if not is_aarch64:
        return "cp310-abi3-linux_x86_64"
    is_old = [int(part) for part in needed.split(".")] <= [2, 17]
    return "cp310-abi3-manylinux_2_17_aarch64" if is_old else "cp310-abi3-linux_aarch64"


def licences(release: Path) -> dict[str, bytes]:
    return {path.name: path.read_bytes() for path in release.glob("LICENSE-*")}


def package(release: Path) -> dict[str, bytes]:
    """The files of the package, by their names in the wheel."""
    files = {MODULE: module(release, aarch64() if is_for_aarch64(release) else x86_64())}
    files["cesu8/BUILT-FROM"] = (release / "BUILT-FROM").read_bytes()
    for path in (SOURCES / "cesu8").iterdir():
        if path.suffix in (".py", ".pyi") or path.name == "py.typed":
            files[f"cesu8/{path.name}"] = path.read_bytes()
    return files


def metadata(version: str, needed: str, names: list[str]) -> bytes:
    return METADATA.format(
        version=version,
        c_library=needed,
        licences="\n".join(f"License-File: {name}" for name in names),
        description=(SOURCES / "README.md").read_text(encoding="utf-8"),
    ).encode()


def record(files: dict[str, bytes], name: str) -> bytes:
    """The list of all files with their hashes. The line for the list itself has none."""
    lines = []
    for path, content in sorted(files.items()):
        digest = base64.urlsafe_b64encode(hashlib.sha256(content).digest()).rstrip(b"=")
        lines.append(f"{path},sha256={digest.decode()},{len(content)}\n")
    return "".join([*lines, f"{name},,\n"]).encode()


def write(path: Path, files: dict[str, bytes], seconds: int) -> None:
    date = time.gmtime(seconds)[:6]
    with zipfile.ZipFile(path, "w") as wheel:
        for name, content in sorted(files.items()):
            entry = zipfile.ZipInfo(name, date)
            entry.create_system = 3  # Unix
            entry.external_attr = 0o100644 << 16
            entry.compress_type = zipfile.ZIP_DEFLATED
            wheel.writestr(entry, content)


def main() -> None:
    if len(sys.argv) != 3 or not os.environ.get("SOURCE_DATE_EPOCH"):
        sys.exit("usage: SOURCE_DATE_EPOCH=SECONDS wheel.py RELEASE FOLDER")
    release, folder = Path(sys.argv[1]), Path(sys.argv[2])
    built_from = (release / "BUILT-FROM").read_text(encoding="utf-8")
    version = re.match(r"cesu8 (\S+)\n", built_from)[1]
    information = f"cesu8-{version}.dist-info"
    files = package(release)
    given = licences(release)
    for licence, content in given.items():
        files[f"{information}/licenses/{licence}"] = content
    needed = c_library(files[MODULE])
    files[f"{information}/METADATA"] = metadata(version, needed, sorted(given))
    name = tag(is_for_aarch64(release), needed)
    files[f"{information}/WHEEL"] = WHEEL.format(tag=name).encode()
    files[f"{information}/RECORD"] = record(files, f"{information}/RECORD")
    path = folder / f"cesu8-{version}-{name}.whl"
    write(path, files, int(os.environ["SOURCE_DATE_EPOCH"]))
    print(path.name)


main()
