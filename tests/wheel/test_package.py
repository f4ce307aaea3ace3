"""What the wheel installs, and the examples on its pages."""

from __future__ import annotations

import codecs
import doctest
import importlib
import importlib.metadata
import inspect
import os
import re
import shutil
import subprocess
import sys
import tempfile
import unittest
from pathlib import Path

import cesu8

FOLDER = Path(cesu8.__file__).parent


# A program for mypy, which must find an error in each line that ends in `# wrong`, and no other.
PROGRAM = """\
import array
import functools
import mmap
import cesu8

def read(data: cesu8.Data) -> str:
    return cesu8.decode(data, "mutf-8", lenient=True)

mapped = mmap.mmap(-1, 2)
numbers = array.array("B", [0, 0])
for data in (b"", bytearray(), memoryview(b"")):
    read(data)
read(mapped)
read(numbers)
text, place = cesu8.read_utf(mapped, 0, errors="replace")
length = cesu8.decoded_len(numbers, "cesu-8") or 0
written: bytes = cesu8.write_utf(text) + cesu8.encode(text, encoding="cesu-8")
texts = sorted([text], key=functools.cmp_to_key(cesu8.compare_as_utf16))
count: int = cesu8.utf16_len(text) + place + length
version: str = cesu8.__version__
cesu8.decode("text", "cesu-8")  # wrong
cesu8.encode(b"data", "cesu-8")  # wrong
cesu8.decode(b"data")  # wrong
"""


class Package(unittest.TestCase):
    def test_version(self) -> None:
        self.assertEqual(cesu8.__version__, os.environ["CESU8_VERSION"])
        self.assertEqual(importlib.metadata.version("cesu8"), cesu8.__version__)

    def test_installed(self) -> None:
        self.assertIn("site-packages", FOLDER.parts)
        self.assertTrue((FOLDER / "py.typed").exists())
        self.assertTrue((FOLDER / "BUILT-FROM").read_text().startswith("cesu8 "))
        for name in set(cesu8.__all__) - {"Data"}:
            self.assertTrue(getattr(cesu8, name).__doc__)

    def test_examples(self) -> None:
        self.assertEqual(doctest.testmod(cesu8).failed, 0)
        description = importlib.metadata.metadata("cesu8").get_payload()
        test = doctest.DocTestParser().get_doctest(description, {}, "description", None, 0)
        self.assertGreater(len(test.examples), 7)
        self.assertEqual(doctest.DocTestRunner().run(test).failed, 0)

    def test_names(self) -> None:
        """The names are those of the page's table, and the type of the calls' data."""
        calls = ["compare_as_utf16", "decode", "decoded_len", "encode", "read_utf", "utf16_len"]
        self.assertEqual(sorted(cesu8.__all__), ["Data", *calls, "write_utf"])
        self.assertEqual(dir(cesu8), sorted(cesu8.__all__))
        for call in (*calls, "write_utf"):
            # The functions are built in, so a call adds no Python frame.
            self.assertIs(type(getattr(cesu8, call)), type(len))
            self.assertTrue(inspect.signature(getattr(cesu8, call)).parameters)
        for encoding in ("cesu-8", "mutf-8"):
            info = codecs.lookup(encoding)
            self.assertIs(type(info.encode), type(len))
            self.assertIs(type(info.decode), type(len))

    @unittest.skipUnless(shutil.which("mypy"), "mypy is missing")
    def test_types(self) -> None:
        with tempfile.TemporaryDirectory() as folder:
            Path(folder, "program.py").write_text(PROGRAM)
            found = subprocess.run(
                ["mypy", "--strict", "--cache-dir", os.devnull, "program.py"],
                cwd=folder,
                env={**os.environ, "MYPYPATH": str(FOLDER.parent)},
                capture_output=True,
                text=True,
            )
        lines = PROGRAM.splitlines()
        wrong = [str(lines.index(line) + 1) for line in lines if line.endswith("# wrong")]
        places = re.findall(r"^program\.py:(\d+): error", found.stdout, re.MULTILINE)
        self.assertEqual(places, wrong, found.stdout + found.stderr)
        self.assertEqual(found.stdout.count("error: "), len(wrong), found.stdout)

    def test_interpreters(self) -> None:
        """An interpreter with its own lock, which exists from Python 3.12 on."""
        try:
            interpreters = importlib.import_module("_interpreters")
        except ImportError:
            interpreters = importlib.import_module("_xxsubinterpreters")
        options = {"isolated": True} if sys.version_info[:2] == (3, 12) else {}
        program = f"""if True:
            import sys
            sys.path[:] = {sys.path!r}
            import cesu8
            assert b"\\xff\\xc0\\x80".decode("mutf-8", "replace") == "\\ufffd\\0"
            assert cesu8.encode("\\ud800", "mutf-8", "ignore") == b""
        """
        for _ in range(2):
            interpreter = interpreters.create(**options)
            try:
                self.assertIsNone(interpreters.run_string(interpreter, program))
            finally:
                interpreters.destroy(interpreter)

    def test_a_module_that_cannot_be_loaded(self) -> None:
        with tempfile.TemporaryDirectory() as folder:
            shutil.copytree(FOLDER, Path(folder, "cesu8"))
            Path(folder, "cesu8", "_native.abi3.so").write_bytes(b"no shared object")
            program = "import sys; sys.path.insert(0, sys.argv[1]); import cesu8"
            found = subprocess.run(
                [sys.executable, "-c", program, folder], capture_output=True, text=True
            )
        last = found.stderr.splitlines()[-1]
        said = r"^ImportError: cesu8 cannot load .* the wheel's platform: /.*_native\.abi3\.so: "
        self.assertRegex(last, said)
