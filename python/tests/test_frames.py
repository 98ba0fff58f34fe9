"""Frames, control bits and parity, by the cases of the program and the tables of the pages."""
from __future__ import annotations

import unittest
from datetime import datetime, timedelta, timezone
from typing import Any, Optional

import irig
from program import cases

PLAIN = "2016-12-31T23:59:59Z"


NUMBERS = "local", "quality"


def taken(words: list[str], known: tuple[str, ...]) -> Optional[tuple[str, dict[str, Any]]]:
    """The word of a command line that is no option, and its options as arguments; None if the command
    line itself is wrong."""
    found: dict[str, Any] = {}
    others, rest = [], list(words)
    while rest:
        word = rest.pop(0)
        name, is_set, value = word[2:].partition("=")
        if not word.startswith("--"):
            others.append(word)
        elif name in found or name not in known or (name == "dst" and is_set):
            return None
        elif name == "dst":
            found[name] = True
        elif is_set:
            found[name] = value
        elif not rest or rest[0].startswith("-"):
            return None
        else:
            found[name] = rest.pop(0)
    return (others[0], found) if len(others) == 1 else None


class OfSeconds(unittest.TestCase):
    """`irig frame`."""

    def test_cases(self) -> None:
        count = 0
        for case in cases("frame"):
            words = taken(case.words, ("local", "pending", "dst", "quality", "parity", "sense"))
            if words is None:
                continue
            with self.subTest(case.name):
                count += 1
                time, options = words
                try:
                    numbers = {name: int(options[name]) for name in NUMBERS if name in options}
                    made = irig.frame(time, **{**options, **numbers})
                except ValueError:
                    made = ""
                self.assertEqual(made, case.printed.rstrip("\n"))
        self.assertGreater(count, 25)

    def test_datetimes(self) -> None:
        time = datetime(2016, 12, 31, 23, 59, 59, tzinfo=timezone.utc)
        self.assertEqual(irig.frame(time), irig.frame(PLAIN))
        self.assertEqual(irig.encode(time), irig.frame(PLAIN))
        zone = timezone(timedelta(hours=5, minutes=30))
        self.assertEqual(irig.frame(time.astimezone(zone)), irig.frame(PLAIN))

    def test_profiles(self) -> None:
        made = irig.frame(PLAIN, local=-7, pending="delete", parity="odd", sense="subtract")
        self.assertEqual(str(irig.read(made)), "fault 17 Parity")
        told = irig.read(made, parity="odd", sense="subtract")
        self.assertEqual(str(told), "fault 10 DeletedSecond")
        self.assertEqual(irig.Control.unpack(irig.decode(made).control).offset_half_hours, -7)

    def test_what_is_out_of_range(self) -> None:
        # 256 and 258 in a byte are 0 and 2.
        for local in (32, -32, 256, -254):
            says = f"26 Value: local is {local}; -31 to 31 may stand here"
            for call in (irig.frame, irig.coded):
                with self.subTest(local), self.assertRaises(irig.Fault) as caught:
                    call(PLAIN, local)
                self.assertEqual((caught.exception.number, caught.exception.name), (26, "Value"))
                self.assertEqual(str(caught.exception), says)
        for wrong in ({"parity": "none"}, {"sense": ""}, {"pending": "no"}):
            with self.subTest(wrong), self.assertRaises(irig.Fault):
                irig.frame(PLAIN, **wrong)


class Read(unittest.TestCase):
    """`irig read`."""

    def test_cases(self) -> None:
        count = 0
        for case in cases("read"):
            words = taken(case.words, ("parity", "sense", "sbs"))
            if words is None:
                continue
            with self.subTest(case.name):
                count += 1
                frame, options = words
                lines = case.printed.splitlines()
                if case.status:
                    with self.assertRaises(ValueError):
                        irig.read(frame, **options)
                    continue
                told = irig.read(frame, **options)
                self.assertEqual(str(told), lines[-1])
                self.codes(frame, lines[:-1], told)
        self.assertGreater(count, 45)

    def codes(self, frame: str, lines: list[str], told: irig.Told) -> None:
        """The frame codes what the first line says, or its fault is that of the frame's form."""
        try:
            coded = irig.decode(frame)
        except irig.Fault as fault:
            self.assertEqual(lines, [])
            self.assertLess(fault.number, 7)
            if told != irig.Faulty(17):  # parity goes before digits and ranges
                self.assertIn(told, (irig.Faulty(fault.number, fault.detail), irig.Silence()))
            return
        self.assertEqual([str(coded)], lines)
        self.assertEqual(irig.symbols(irig.encode(coded)), self.fields(frame))

    def fields(self, frame: str) -> bytes:
        """The symbols, with a 0 at the elements without a field (docs/FRAME.md)."""
        numbers = bytearray(irig.symbols(frame))
        for element in (5, 14, 18, 24, 27, 28, *range(42, 49), 54, 98):
            numbers[element] = 0
        return bytes(numbers)

    def test_forms_of_a_frame(self) -> None:
        frame = irig.frame(PLAIN)
        for form in (frame.replace(" ", ""), irig.symbols(frame), list(irig.symbols(frame))):
            self.assertEqual(irig.decode(form), irig.decode(frame))
        with self.assertRaisesRegex(ValueError, "bad frame numbers"):
            irig.decode(frame.encode())

    def test_faults_say_where(self) -> None:
        frame = irig.frame(PLAIN)
        with self.assertRaises(irig.Fault) as caught:
            irig.decode("?" + frame[1:])
        self.assertEqual((caught.exception.name, caught.exception.detail), ("Pulse", 0))
        with self.assertRaises(irig.Fault) as caught:
            irig.decode(frame[:54])
        self.assertEqual((caught.exception.name, caught.exception.detail), ("Short", 50))
        with self.assertRaises(irig.Fault) as caught:
            irig.decode("P01010000P" + frame[10:])
        self.assertEqual(str(caught.exception)[:15], "5 Digit second:")


class Bits(unittest.TestCase):
    """Control bits and parity, by the tables of docs/FRAME.md."""

    def test_control(self) -> None:
        table = {
            1 << 0: irig.Control(leap_pending=True),
            1 << 1: irig.Control(leap_delete=True),
            1 << 2: irig.Control(dst_pending=True),
            1 << 3: irig.Control(dst=True),
            1 << 4 | 1 << 5 | 1 << 9: irig.Control(offset_half_hours=-3),
            1 << 6 | 1 << 8: irig.Control(offset_half_hours=20),
            1 << 10 | 1 << 13: irig.Control(quality=9),
        }
        for word, control in table.items():
            with self.subTest(word):
                self.assertEqual(control.pack(), word)
                self.assertEqual(irig.Control.unpack(word), control)
        # -254, 256 and 258 are small numbers again where a byte holds them.
        offsets = [irig.Control(offset_half_hours=count) for count in (-32, 32, -254, 256, 258)]
        flags = [irig.Control(**{name: 256}) for name in ("leap_pending", "leap_delete", "dst_pending", "dst")]
        for wrong in (irig.Control(quality=16), irig.Control(quality=256), *offsets, *flags):
            self.assertRaises(irig.Fault, wrong.pack)
        self.assertRaisesRegex(irig.Fault, "quality is 16; 0 to 15 may", irig.Control(quality=16).pack)
        self.assertRaisesRegex(irig.Fault, "word is 262144; 0 to 262143", irig.Control.unpack, 1 << 18)
        self.assertRaises(irig.Fault, irig.Control.unpack, 1 << 32)

    def test_parity(self) -> None:
        frame = irig.frame(PLAIN)
        ones = sum(number == 1 for number in irig.symbols(frame)[1:76])
        self.assertEqual(ones % 2, 0)
        self.assertTrue(irig.has_parity(frame))
        self.assertFalse(irig.has_parity(frame, "odd"))
        odd = irig.with_parity(frame, "odd")
        differ = [place for place, two in enumerate(zip(odd, frame)) if two[0] != two[1]]
        self.assertEqual(differ, [75 + 7])  # element 75, behind seven blanks
        self.assertEqual(irig.with_parity(odd), frame)
        self.assertRaises(irig.Fault, irig.has_parity, frame + "0")
        self.assertRaises(irig.Fault, irig.with_parity, frame[:-1])

    def test_coded(self) -> None:
        for wrong, says in (
            (irig.Coded(61, 0, 0, 1, 0), "second is 61; 0 to 60 may stand here"),
            (irig.Coded(0, 0, 0, 0, 0), "day is 0; 1 to 366 may stand here"),
            (irig.Coded(0, 0, 0, 1, 0, sbs=1 << 17), "sbs is 131072; 0 to 131071 may stand here"),
        ):
            self.assertRaisesRegex(irig.Fault, says, irig.encode, wrong)
        self.assertRaises(irig.Fault, irig.encode, irig.Coded(256, 0, 0, 1, 0))
        self.assertRaises(irig.Fault, irig.encode, irig.Coded(0, 0, 0, 65537, 0))
        coded = irig.coded(PLAIN, local=2)
        self.assertEqual(str(coded), "coded 2017-001 00:59:59 control 0 sbs 3599")

    def test_widths(self) -> None:
        firsts = {0: "?", 500: "0", 3500: "1", 6500: "P", 9500: "?"}
        self.assertEqual({width: irig.classify(width) for width in firsts}, firsts)
        lasts = {499: "?", 3499: "0", 6499: "1", 9499: "P", (1 << 32) - 1: "?"}
        self.assertEqual({width: irig.classify(width) for width in lasts}, lasts)
        self.assertRaisesRegex(irig.Fault, "width_us is 4294969296; 0 to", irig.classify, (1 << 32) + 2000)
        self.assertEqual(irig.widths("P01"), [8000, 2000, 5000])
        self.assertEqual("".join(map(irig.classify, irig.widths("?P01"))), "?P01")


if __name__ == "__main__":
    unittest.main()
