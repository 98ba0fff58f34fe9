"""Lines: pulses with their times, as docs/WIRES.md and c/irig.h have them."""
from __future__ import annotations

import copy
import pickle
import unittest
from typing import Iterator

import irig
from irig import Reader, Sync, Timekeeper

ELEMENT_US = 10_000
WRAP = 1 << 32
FRAME = irig.frame("2016-12-31T23:59:60Z")


def pulses(frame: str, start_us: int) -> Iterator[tuple[int, int]]:
    """When each pulse of a frame rises, and how wide it is."""
    for element, width in enumerate(irig.widths(frame)):
        yield start_us + ELEMENT_US * element, width


class Lines(unittest.TestCase):
    def test_the_places_of_a_frame(self) -> None:
        for start_us in (0, 123_456, WRAP - 500_000, 7 * WRAP - 10):
            sync = Sync()
            places = [sync.pulse(*pulse) for pulse in pulses(FRAME, start_us)]
            self.assertEqual(places, list(range(1, 101)))
            # Behind the hundredth comes the first of the next.
            self.assertEqual(sync.pulse(start_us + 100 * ELEMENT_US, 8000), 1)

    def test_an_idle_line(self) -> None:
        # 2^32 us late is on time by a clock that wraps, unless the line was seen to be idle.
        for idles, place in (((), 2), ((1_000_000,), 0), ((999_999,), 2)):
            sync = Sync()
            sync.pulse(0, 8000)
            for now_us in idles:
                sync.idle(now_us)
            self.assertEqual(sync.pulse(WRAP + ELEMENT_US, 2000), place)

    def test_what_is_no_number(self) -> None:
        self.assertRaisesRegex(TypeError, "rise_us is '5'; a whole number", Sync().pulse, "5", 2000)
        self.assertRaisesRegex(TypeError, "now_us is 2.5; a whole number", Sync().idle, 2.5)
        self.assertRaisesRegex(TypeError, "now_us is None; a whole number", Reader().idle, None)



class Hearing(unittest.TestCase):
    def test_a_reader_hears_three_lines(self) -> None:
        reader = Reader(lock_after=1)
        for port, late_us in enumerate((0, 300, 700)):
            for rise_us, width_us in pulses(FRAME, 5_000_000 + late_us):
                place = reader.hear(port, rise_us, width_us)
            self.assertEqual(place, 100)
        reader.idle(6_000_000)
        self.assertEqual(str(reader.tick()), "2017-01-01T00:00:00Z locked voted")

    def test_words_of_another_kind(self) -> None:
        self.assertRaises(TypeError, Reader().hear, 0, 8000)
        self.assertRaises(TypeError, Reader().hear, 0, FRAME, 8000)
        self.assertRaises(TypeError, Reader().hear, 0, 5000.5, 8000)
        self.assertRaises(TypeError, Reader().hear, 0)
        self.assertRaises(TypeError, Reader().idle, 1.0)
        self.assertRaises(TypeError, Sync().pulse, 0.5, 8000)
        self.assertEqual(Reader().hear(0, rise_us=5, width_us=8000), 1)

    def test_one_line(self) -> None:
        reader = Reader(lock_after=1, ports=1)
        for pulse in pulses(FRAME, 0):
            reader.hear(0, *pulse)
        self.assertRaises(irig.Fault, reader.hear, 1, 0, 8000)
        self.assertEqual(str(reader.tick()), "2017-01-01T00:00:00Z locked voted")


class Copies(unittest.TestCase):
    """A reader, a timekeeper and a line are their numbers, and go on alone."""

    def test_each(self) -> None:
        for made in (lambda: Reader(ports=1), lambda: Timekeeper(drift_us=10), Sync):
            held = made()
            hear = Sync.pulse if isinstance(held, Sync) else lambda of, *pulse: of.hear(0, *pulse)
            for pulse in list(pulses(FRAME, 0))[:60]:
                hear(held, *pulse)
            form, numbers = held.__getstate__()
            twins = [copy.copy(held), copy.deepcopy(held), pickle.loads(pickle.dumps(held))]
            for twin in twins:
                self.assertEqual((twin, repr(twin)), (held, repr(held)))
                self.assertEqual(hear(twin, 60 * ELEMENT_US, 2000), 61)
                self.assertNotEqual(twin, held)
            self.assertNotEqual(held, "another")
            for state in (("another", numbers), (form, numbers[:-1])):
                self.assertRaises(irig.Fault, held.__setstate__, state)
            if not isinstance(held, Sync):
                for wrong in (bytes([255]) * len(numbers), bytes([numbers[0] ^ 1]) + numbers[1:]):
                    self.assertRaises(irig.Fault, held.__setstate__, (form, wrong))
            self.assertEqual(held.__getstate__(), (form, numbers))


if __name__ == "__main__":
    unittest.main()
