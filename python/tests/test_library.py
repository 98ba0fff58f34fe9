"""The structures, as a C compiler lays them out, the calls, and the words by which numbers go in Python."""
from __future__ import annotations

import ctypes
import re
import unittest
from typing import Any
from unittest import mock

import irig
from irig import _library
from irig.faults import MEANINGS
from irig.words import CAUSES, LOCKS


def laid_out(name: str, structure: Any) -> str:
    """The line of c/layout.txt, without the types of fields."""
    places = ((field, getattr(structure, field)) for field, *_ in structure._fields_)
    fields = ",".join(f" {field} {place.offset} {place.size}" for field, place in places)
    return f"{name} {ctypes.sizeof(structure)}:{fields}"


class Layout(unittest.TestCase):
    def test_layout(self) -> None:
        """That of the list which tools/repo/versions compares with the headers."""
        listed = [re.sub(r"\w+ (\w+ \d+ \d+)", r"\1", line) for line in _library.LINES if ": " in line]
        self.assertEqual([laid_out(*structure) for structure in _library.STRUCTURES.items()], listed)

    def test_a_library_of_another_layout(self) -> None:
        wrong = f"{_library.IRIG} has no irig_width_us_layout_1: take it and this package of one version"
        with mock.patch.object(_library, "LAYOUT", 1), self.assertRaisesRegex(ImportError, wrong):
            _library.__getattr__("width_us")


class Texts(unittest.TestCase):
    def test_names(self) -> None:
        """By their numbers, each with a text; what stands beside a fault does not count, as 77 here."""
        for kind, names in (
            ("fault", {number: meaning.name for number, meaning in MEANINGS.items()}),
            ("lock", dict(enumerate(LOCKS))), ("cause", dict(enumerate(CAUSES))),
        ):
            for number in range(256):
                answer = number | 77 << 8 if kind == "fault" else number
                name, text = (getattr(_library, f"{kind}_{what}")(answer) for what in ("name", "text"))
                self.assertEqual((name.decode(), bool(text)), (names.get(number, ""), number in names))
        library = _library._loaded(_library.IRIG)
        library.irig_version.restype = ctypes.c_char_p
        self.assertEqual(library.irig_version().decode(), irig.__version__)


class Widths(unittest.TestCase):
    def test_of_each_symbol(self) -> None:
        """2, 5 and 8 ms of a zero, a one and a marker, by IRIG Standard 200-16, and nothing of any other byte."""
        widths = (ctypes.c_uint32 * 100)(*[1] * 100)
        _library.widths_us((ctypes.c_uint8 * 100)(*range(100)), widths)
        self.assertEqual(list(widths), [2000, 5000, 8000, *[0] * 97])


POINTER = ctypes.c_void_p


def as_passed(kind: Any) -> Any:
    """A number as itself, all else as a pointer."""
    is_number = issubclass(kind, ctypes._SimpleCData) and kind is not ctypes.c_char_p
    return kind if is_number else POINTER


def address_of(library: str, name: str) -> int | None:
    call = getattr(_library._loaded(library), _library.symbol(name))
    return ctypes.cast(call, POINTER).value


# What a call answers to a null pointer, if it is no fault.
ANSWERS = {"has_parity": 0, "sync_pulse": 0, "timekeeper_wait": 0, "reader_hear": 255, "timekeeper_hear": 255}


def called(name: str, *words: Any) -> Any:
    """What a call of the library answers, where Python would refuse a null pointer itself."""
    library, answer, *kinds = _library.CALLS[name]
    call = ctypes.CFUNCTYPE(answer, *map(as_passed, kinds))(address_of(library, name))
    is_number = (int, type(None))
    return call(*(word if isinstance(word, is_number) else ctypes.addressof(word) for word in words))


class Null(unittest.TestCase):
    def test_with_all_else_in_order(self) -> None:
        """Beside what the library itself has filled, so that nothing else is refused before the pointer."""
        reader, keeper = irig.Reader(lock_after=1), irig.Timekeeper(lock_after=1, drift_us=10)
        for name, *words in (
            ("reader_tick", reader._held, None), ("timekeeper_tick", keeper._held, 0, None),
            ("timekeeper_stamp", keeper._held, 0, None), ("second_write", _library.Utc(6209, 86_400), None),
        ):
            with self.subTest(name):
                self.assertEqual(called(name, *words), 26)

    def test_each_pointer(self) -> None:
        """One of them null: it is answered, or nothing happens. The others lead to zeros."""
        for name, (library, answer, *kinds) in _library.CALLS.items():
            words = [ctypes.create_string_buffer(2000) if as_passed(kind) is POINTER else 1 for kind in kinds]
            for place in (n for n, kind in enumerate(kinds) if as_passed(kind) is POINTER):
                with self.subTest(name, place=place):
                    answered = called(name, *words[:place], None, *words[place + 1 :])
                    fault = None if answer is None else 2 if library == _library.SCENE else 26
                    self.assertEqual(answered, ANSWERS.get(name, fault))


if __name__ == "__main__":
    unittest.main()
