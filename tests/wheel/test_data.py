"""The caller's own data: a call copies it once, and no more than it reads, and other threads may
change it meanwhile."""

from __future__ import annotations

import array
import codecs
import ctypes
import itertools
import mmap
import subprocess
import sys
import threading
import tracemalloc
import unittest
from collections.abc import Callable

import cesu8
import model
from test_codecs import HANDLERS

# A Java string of four bytes, of which the second and the last are damaged.
STRING = b"\0\x04a\xffb\xed"


def by_threads(change: Callable[[], None], call: Callable[[], None], seconds: float) -> None:
    """Makes calls in a second thread for some seconds, while this thread changes the data."""
    interval = sys.getswitchinterval()
    is_over = threading.Event()
    failures = []

    def go_on() -> None:
        try:
            while not is_over.is_set():
                call()
        except BaseException as error:
            failures.append(error)
            is_over.set()

    thread = threading.Thread(target=go_on)
    timer = threading.Timer(seconds, is_over.set)
    sys.setswitchinterval(1e-6)
    try:
        thread.start()
        timer.start()
        while not is_over.is_set():
            change()
    finally:
        is_over.set()
        timer.cancel()
        thread.join()
        sys.setswitchinterval(interval)
    if failures:
        raise failures[0]


class Copies(unittest.TestCase):
    def test_a_string_that_gets_shorter(self) -> None:
        """`read_utf` returns, however the data changes."""
        # A comparison with the name of the handler, a `Changes`, clears the data.
        program = """if True:
            import cesu8
            for errors in ("ignore", "surrogateescape", "backslashreplace", "strict"):
                data = bytearray(b"\\0\\3a\\xffb")
                class Changes(str):
                    __eq__ = lambda self, other: bool(data.clear())
                    __hash__ = str.__hash__
                try:
                    print(*map(ascii, cesu8.read_utf(data, 0, Changes(errors))))
                except UnicodeDecodeError as error:
                    print(error.object[error.start])
        """
        command = [sys.executable, "-c", f"import sys; sys.path[:] = {sys.path!r}\n{program}"]
        found = subprocess.run(command, capture_output=True, text=True, timeout=60)
        said = ["'ab' 5", "'a\\udcffb' 5", "'a\\\\xffb' 5", "255"]
        self.assertEqual(found.stdout.splitlines(), said, found.stderr)

    def test_data_that_changes_between_calls_of_a_handler(self) -> None:
        data = bytearray(STRING)

        def change(error: UnicodeError) -> tuple[str, int]:
            data.clear()
            return "?", error.end

        codecs.register_error("cesu8.change", change)
        self.assertEqual(cesu8.read_utf(data, 0, "cesu8.change"), ("a?b?", 6))
        data.extend(STRING[2:])
        self.assertEqual(cesu8.decode(data, "mutf-8", "cesu8.change"), "a?b?")

    def test_data_that_changes_in_other_threads(self) -> None:
        data = bytearray(STRING)
        escaped = ("a\udcffb\udced", 6)
        wanted = {"strict": [255], "ignore": [("ab", 6)], "surrogateescape": [escaped]}
        found: dict[str, list[object]] = {errors: [] for errors in wanted}

        def change() -> None:
            data.clear()
            data.extend(STRING)

        def read() -> None:
            for errors in wanted:
                try:
                    found[errors].append(cesu8.read_utf(data, 0, errors))
                except UnicodeDecodeError as error:
                    found[errors].append(error.object[error.start])
                except EOFError:
                    pass
            for results in found.values():
                del results[:-1]

        by_threads(change, read, 1)
        self.assertEqual(found, wanted)

    def test_only_the_string_is_copied(self) -> None:
        with mmap.mmap(-1, 1 << 23) as mapped:
            mapped[: len(STRING)] = STRING
            mapped[-1:] = b"\1"
            row = bytearray(mapped)
            wide = memoryview(array.array("I", bytes(row)))
            for data in (mapped, row, memoryview(row), wide, bytes(row)):
                for errors in HANDLERS:
                    self.assertLess(self.peak(self.outcome, data, 0, errors), 50_000)
                self.assertLess(self.peak(self.outcome, data, (1 << 23) - 1, "strict"), 50_000)

    @staticmethod
    def outcome(data: cesu8.Data, start: int, errors: str) -> None:
        try:
            cesu8.read_utf(data, start, errors)
        except (EOFError, UnicodeDecodeError):
            pass

    @staticmethod
    def peak(call: Callable[..., None], *arguments: object) -> int:
        """The most memory that a call uses at one time, in bytes."""
        call(*arguments)
        tracemalloc.start()
        try:
            call(*arguments)
            return tracemalloc.get_traced_memory()[1]
        finally:
            tracemalloc.stop()

    def test_places_in_a_string_of_other_data(self) -> None:
        """An error has only the string, and the offset in it."""
        for start in (0, 7):
            data = bytearray(start * b"-" + STRING + b"rest")
            with self.assertRaises(UnicodeDecodeError) as caught:
                cesu8.read_utf(data, start)
            error = caught.exception
            self.assertEqual((error.object, error.start, error.end), (STRING[2:], 1, 2))

    def test_data_in_any_order(self) -> None:
        row = b"\0\3abc\0\1z"
        spread = b"".join(bytes([byte, 45]) for byte in row)
        wide = memoryview(b"".join(row[place : place + 2] + b"--" for place in range(0, 8, 2)))
        for data in (
            row,
            memoryview(row),
            array.array("H", row),
            ctypes.create_string_buffer(row),
            (ctypes.c_uint32 * 2).from_buffer_copy(row),
            memoryview(row[::-1])[::-1],
            memoryview(spread)[::2],
            memoryview(row).cast("B", [8, 1]),
            memoryview(row).cast("B", [4, 2]),
            wide.cast("H")[::2],
        ):
            self.assertEqual(cesu8.read_utf(data), ("abc", 5))
            self.assertEqual(cesu8.read_utf(data, 5), ("z", 8))
            self.assertEqual(cesu8.decode(data, "cesu-8")[:8], row.decode())
            self.assertEqual(codecs.decode(data, "cesu-8")[:8], row.decode())

    def test_a_view_that_is_released(self) -> None:
        with memoryview(b"data") as view:
            self.assertEqual(codecs.decode(view, "mutf-8"), "data")
        for call in (codecs.decode, cesu8.decode):
            with self.assertRaises(ValueError):
                call(view, "mutf-8")

    def test_subclasses(self) -> None:
        class Bytes(bytes):
            def __len__(self) -> int:
                return 1

            def __getitem__(self, place: object) -> bytes:  # type: ignore[override]
                return b"wrong"

        class Text(str):
            def __len__(self) -> int:
                return 1

            def __getitem__(self, place: object) -> str:
                return "wrong"

        codecs.register_error("cesu8.own", lambda error: (type(error.object).__name__, error.end))
        codecs.register_error("cesu8.other", self.with_other(Bytes(b"ab\xffcd")))
        text = "a\udcffb\0"
        for encoding, errors in itertools.product(model.ENCODINGS, (*HANDLERS, "cesu8.own")):
            outcomes = [
                (self.called(call, subclass), self.called(call, plain))
                for call, subclass, plain in (
                    (lambda data: cesu8.decode(data, encoding, errors), Bytes(STRING), STRING),
                    (lambda data: bytes.decode(data, encoding, errors), Bytes(STRING), STRING),
                    (lambda data: cesu8.encode(data, encoding, errors), Text(text), text),
                    (lambda data: str.encode(data, encoding, errors), Text(text), text),
                    (lambda data: cesu8.write_utf(data, errors), Text(text), text),
                )
            ]
            outcomes.append((self.called(cesu8.read_utf, Bytes(STRING), 0, errors),
                             self.called(cesu8.read_utf, bytearray(STRING), 0, errors)))
            for found, wanted in outcomes:
                self.assertEqual(found, wanted)
        self.assertEqual(cesu8.decode(b"\xff", "mutf-8", "cesu8.other"), "!ab!")
        self.assertEqual(cesu8.utf16_len(Text(text[2:])), 2)

    @staticmethod
    def with_other(data: bytes) -> Callable[[UnicodeError], tuple[str, int]]:
        def handler(error: UnicodeError) -> tuple[str, int]:
            is_first = len(error.object) == 1
            error.object = data
            return "!", 0 if is_first else 5

        return handler

    @staticmethod
    def called(call: Callable[..., object], *arguments: object) -> object:
        try:
            return call(*arguments)
        except UnicodeError as error:
            return error.args


class Threads(unittest.TestCase):
    def test_a_bytearray_may_grow_while_it_is_decoded(self) -> None:
        """It may with Python's own encodings too."""
        long = bytearray(70_000 * b"a" + b"\xc0\x80")
        damaged = bytearray(70_000 * b"a" + b"\xff\xed\xa0\x80")
        string = bytearray(b"\xf0\0" + 0xF000 * b"a")

        def change() -> None:
            for data in (long, damaged, string):
                data.append(97)
                del data[-1:]

        def decode() -> None:
            long.decode("mutf-8")
            cesu8.decode(long, "mutf-8")
            cesu8.decoded_len(long, "mutf-8")
            damaged.decode("cesu-8", "backslashreplace")
            damaged.decode("cesu-8", "surrogateescape")
            damaged.decode("cesu-8", "replace")
            try:
                damaged.decode("cesu-8")
            except UnicodeDecodeError:
                pass
            cesu8.decode(damaged, "cesu-8", "ignore")
            cesu8.read_utf(string)
            cesu8.read_utf(string, 0, "ignore")

        by_threads(change, decode, 2)
