"""Readers, beside those of the program: the same pulses give the same log."""
from __future__ import annotations

import copy
import json
import random
import unittest
from datetime import date
from typing import Optional

import irig
from irig import Claim, Control, Leap, Reader, Second, Zone
from program import printed

LEAPS = [{"day": "2016-12-31", "kind": "insert"}]


def plant(reader: dict, ports: int = 3, **words: str) -> dict:
    """The plant line of a scenario with this reader."""
    return {
        "version": 3,
        "start": "2016-12-31T23:58:00Z",
        "leaps": LEAPS,
        "parity": "even",
        "sense": "add",
        "sbs": "check",
        "generators": [{"local": 0}] * ports,
        "readers": [{"name": "relay", "lock_after": 2, "holdover": 20, **reader}],
        **words,
    }


def seconds_from(second: Second, count: int) -> list[Second]:
    """So many seconds in a row, over the leap second of 2016."""
    found = [second]
    while len(found) < count:
        following = found[-1].next("insert" if found[-1].day == 6209 else "no-leap")
        assert following is not None
        found.append(following)
    return found


def frame_in(
    zone: Zone, second: Second, quality: int = 0, parity: str = "even", sense: str = "add"
) -> str:
    """The frame of a second in a zone."""
    control = Control(
        leap_pending=str(second)[:17] == "2016-12-31T23:59:",
        dst=zone.dst,
        offset_half_hours=-zone.local if sense == "add" else zone.local,
        quality=quality,
    )
    return irig.with_parity(irig.encode(irig.coded(second, zone.local, control)), parity)


def zone_of(heard: list[Control], enough: int, sense: str) -> Optional[Zone]:
    """The zone of at least so many of these frames."""
    sign = -1 if sense == "add" else 1
    zones = [Zone(sign * control.offset_half_hours, control.dst) for control in heard]
    return next((zone for zone in zones if zones.count(zone) >= enough), None)


def control_of(widths: list[int]) -> Control:
    """What the control bits say of a frame that has no fault."""
    return Control.unpack(irig.decode("".join(map(irig.classify, widths))).control)


class BesideTheProgram(unittest.TestCase):
    """What a reader hears is random: true frames, none, old ones, poor ones and damaged ones."""

    def pulses(self, source: random.Random, second: Second, **words: str) -> list[int]:
        """The widths that come to a port in a second, mostly those of its frame."""
        if source.random() < 0.2:
            return []
        if source.random() < 0.1:
            second = Second(second.day, source.randrange(86_340))
        zone = Zone(source.choice((0, 2, -7)), source.random() < 0.2)
        frame = frame_in(zone, second, source.choice((0, 0, 0, 0, 4, 9, 10)), **words)
        widths = irig.widths(frame)
        if source.random() < 0.2:
            widths[source.randrange(100)] = source.randrange(12_000)
        return widths[: source.randrange(102)] if source.random() < 0.05 else widths

    def try_voices(
        self, report: irig.Report, told: list[irig.Told], heard: list[list[int]], sense: str
    ) -> None:
        """What a report says of ports that told this and heard these widths."""
        enough = len(told) // 2 + 1
        voted = [claim for claim in told if isinstance(claim, Claim) and told.count(claim) >= enough]
        agreed = [port for port, claim in enumerate(told) if voted and claim == voted[0]]
        claims = [port for port, claim in enumerate(told) if isinstance(claim, Claim)]
        self.assertEqual(list(report.agreed), agreed)
        self.assertEqual(list(report.differed), [port for port in claims if port not in agreed])
        for ports, kind in ((report.faulty, irig.Faulty), (report.poor, irig.Poor)):
            self.assertEqual(list(ports), [p for p, one in enumerate(told) if type(one) is kind])
        controls = [control_of(heard[port]) for port in agreed]
        worst = max((control.quality for control in controls), default=15)
        self.assertEqual(report.quality, worst)
        self.assertEqual(report.zone, zone_of(controls, enough, sense))

    def compare(self, seed: int, setup: dict, words: dict, reader: Reader) -> None:
        """The log of a plant and the reports of a reader, for the same pulses. What one port hears
        comes to three of the plant."""
        source = random.Random(seed)
        times = 3 if reader.ports == 1 else 1
        lines: list[dict] = [plant(setup, reader.ports * times, **words)]
        said = []
        parity, sense = words.get("parity", "even"), words.get("sense", "add")
        for edge, second in enumerate(seconds_from(Second.read("2016-12-31T23:58:00Z"), 150), 1):
            heard = []
            for port in range(reader.ports):
                heard.append(self.pulses(source, second, parity=parity, sense=sense))
                reader.pulses(port, heard[port])
            for port, widths in enumerate(heard * times):
                lines.append({"do": "raw", "g": port, "r": "relay", "widths": widths})
            lines.append({"do": "tick", "r": "relay"})
            told = [reader.port(port) for port in range(reader.ports)]
            report = reader.tick()
            self.try_voices(report, told, heard, sense)
            said.append(f"{edge} relay {report}")
        log = printed("run", "-", "--all", text="\n".join(map(json.dumps, lines)))
        self.assertEqual(said, log.splitlines()[:-1])
        causes = {line.split()[-1] for line in said}
        self.assertLessEqual({"voted", "held"}, causes)

    def test_three_ports(self) -> None:
        for seed in range(10):
            with self.subTest(seed):
                self.compare(seed, {}, {}, Reader(2, 20))

    def test_five_ports(self) -> None:
        for seed in range(5):
            with self.subTest(seed):
                setup = {"lock_after": 3, "holdover": 1}
                self.compare(seed, setup, {}, Reader(3, 1, ports=5))

    def test_one_port(self) -> None:
        for seed in range(5):
            with self.subTest(seed):
                self.compare(seed, {}, {}, Reader(2, 20, ports=1))

    def test_profiles(self) -> None:
        words = {"parity": "odd", "sense": "subtract", "sbs": "ignore"}
        for seed in range(3):
            with self.subTest(seed):
                self.compare(seed, {"lock_after": 1}, words, Reader(1, 20, **words))

    def test_tables(self) -> None:
        setup = {"lock_after": 1, "holdover": 100, "table": {"until": "2017-06-30", "leaps": LEAPS}}
        reader = Reader(1, 100, until="2017-06-30", leaps=[Leap("2016-12-31")])
        self.compare(3, setup, {}, reader)

    def test_a_deleted_second(self) -> None:
        """Nothing is heard of it: the table alone says that 23:59:59 does not come."""
        reader = Reader(1, 100, until="2029-06-30", leaps=[Leap("2029-06-30", "delete")])
        for port in range(3):
            reader.hear(port, irig.frame("2029-06-30T23:59:00Z"))
        said = [str(reader.tick()) for _ in range(59)]
        self.assertEqual(said[-2:], [
            "2029-06-30T23:59:58Z holdover:57 held", "2029-07-01T00:00:00Z holdover:58 held",
        ])



class Calls(unittest.TestCase):
    """What a reader takes, and what it is."""

    def test_pulse_by_pulse(self) -> None:
        frame = irig.frame("2020-02-29T12:00:00Z")
        one, all_at_once = Reader(), Reader()
        for width in irig.widths(frame):
            one.pulse(1, width)
        all_at_once.pulses(1, irig.widths(frame))
        self.assertEqual(one.port(1), irig.read(frame))
        self.assertEqual(all_at_once.port(1), irig.Claim(Second.read("2020-02-29T12:00:00Z")))
        self.assertEqual(one.port(0), irig.Silence())
        one.pulses(0, bytes([200] * 4))  # four widths, not one of four bytes
        self.assertEqual(one.port(0), irig.Faulty(1, 4))
        one.restart()
        self.assertEqual(one.port(1), irig.Silence())

    def test_what_is_out_of_range(self) -> None:
        reader = Reader()
        for port in (3, -1, 256):
            with self.subTest(port):
                self.assertRaises(irig.Fault, reader.pulse, port, 2000)
                self.assertRaises(irig.Fault, reader.pulses, port, [2000])
                self.assertRaises(irig.Fault, reader.pulses, port, [])
                self.assertRaises(irig.Fault, reader.port, port)
        for width in (-1, 1 << 32):
            self.assertRaises(irig.Fault, reader.pulse, 0, width)
            self.assertRaises(irig.Fault, reader.pulses, 0, [width])
        self.assertEqual([reader.port(port) for port in range(3)], [irig.Silence()] * 3)

    def test_messages_name_the_argument(self) -> None:
        reader, most = Reader(), "0 to 4294967295 may stand here"
        for call, says in (
            (lambda: reader.pulse(7, 2000), "port is 7; 0 to 2 may stand here"),
            (lambda: Reader(ports=1).port(1), "port is 1; 0 to 0 may stand here"),
            (lambda: reader.pulse(0, -1), f"width_us is -1; {most}"),
            (lambda: reader.pulses(0, [2000, 1 << 32]), f"widths_us[1] is 4294967296; {most}"),
            (lambda: reader.hear(3, 5, 2000), "port is 3; 0 to 2 may stand here"),
            (lambda: reader.hear(0, 5, -1), f"width_us is -1; {most}"),
            (lambda: irig.Sync().pulse(5, -1), f"width_us is -1; {most}"),
        ):
            with self.subTest(says), self.assertRaises(irig.Fault) as caught:
                call()
            self.assertEqual(caught.exception.reason, says)
        for call, says in (
            (lambda: reader.pulse("0", 2000), "port is '0'; a whole number may stand here"),
            (lambda: reader.pulses(0, [2000, 2.5]), r"widths_us\[1\] is 2.5; a whole number"),
            (lambda: Reader("2"), "lock_after is '2'; a whole number may stand here"),
        ):
            with self.subTest(says):
                self.assertRaisesRegex(TypeError, says, call)

    def test_setups(self) -> None:
        for ports in (1, 3, 5):
            self.assertEqual(repr(Reader(60, 1_000_000, ports=ports)),
                             f"Reader(lock_after=60, holdover=1000000, ports={ports})")
            self.assertRaises(irig.Fault, Reader(ports=ports).port, ports)
        for words, says in (
            ({"lock_after": 0}, "lock_after is 0; 1 to 60 may stand here"),
            ({"lock_after": 61}, "lock_after is 61; 1 to 60 may stand here"),
            ({"lock_after": 258}, "lock_after is 258; 1 to 60 may stand here"),
            ({"holdover": 1_000_001}, "holdover is 1000001; 0 to 1000000 may stand here"),
            ({"holdover": -1}, "holdover is -1; 0 to 1000000 may stand here"),
            ({"holdover": 1 << 32}, "holdover is 4294967296; 0 to 1000000 may stand here"),
            ({"ports": 4}, "ports is 4; 1, 3 or 5 may stand here"),
            ({"ports": 0}, "ports is 0; 1, 3 or 5 may stand here"),
            ({"parity": "none"}, "parity is 'none'; even or odd may stand here"),
            ({"sense": "plus"}, "sense is 'plus'; add or subtract may stand here"),
            ({"sbs": "no"}, "sbs is 'no'; check or ignore may stand here"),
            ({"poor_from": 0}, "poor_from is 0; 1 to 10 may stand here"),
            ({"poor_from": 11}, "poor_from is 11; 1 to 10 may stand here"),
        ):
            with self.subTest(words), self.assertRaises(irig.Fault) as caught:
                Reader(**words)
            self.assertEqual(caught.exception.number, 26)
            self.assertEqual(str(caught.exception), f"26 Value: {says}")

    def test_tables(self) -> None:
        known = [Leap(date(2016, 12, 31)), Leap("2029-06-30", "delete")]
        Reader(until=date(2099, 12, 30), leaps=known)
        ends = [date(2017 + month // 12, month % 12 + 1, 1) for month in range(66)]
        many = [Leap(date.fromordinal(day.toordinal() - 1)) for day in ends]
        Reader(until="2030-01-01", leaps=many[:64])
        for number, until, leaps in (
            (31, "2099-12-31", []),
            (32, "2030-01-01", many[:65]),
            (33, "2030-01-01", [Leap("2016-12-30")]),
            (33, "2016-12-30", [Leap("2016-12-31")]),
            (33, None, [Leap("2016-12-31")]),
            (34, "2030-01-01", [Leap("2016-12-31"), Leap("2016-12-31", "delete")]),
            (26, "1999-12-31", []),
        ):
            with self.subTest(number), self.assertRaises(irig.Fault) as caught:
                Reader(until=until, leaps=leaps)
            self.assertEqual(caught.exception.number, number)


def without_a_year(frame: str) -> str:
    """What a clock set to code B003 sends instead: neither a year nor control bits."""
    gone = {*range(50, 59), *range(60, 79)}
    symbols = enumerate(frame.replace(" ", ""))
    return "".join("0" if place in gone and symbol == "1" else symbol for place, symbol in symbols)


class Limits(unittest.TestCase):
    """What all clocks of a plant may get wrong at once."""

    def announced(self, **limits: str) -> list[Second]:
        """What a reader announces in ten minutes by three clocks set to code B003."""
        reader, said = Reader(2, 60, **limits), []
        for second in seconds_from(Second.of("2016-06-15T12:00:00Z"), 600):
            for port in range(3):
                reader.pulses(port, irig.widths(without_a_year(irig.frame(second))))
            said.append(reader.tick().second)
        return [second for second in said if second]

    def test_clocks_that_send_no_year(self) -> None:
        years = [str(second)[:4] for second in self.announced()]
        self.assertGreater(years.count("2000"), 100)
        self.assertEqual(len(years), years.count("2000"))
        self.assertEqual(self.announced(not_before="2016-01-01"), [])

    def test_the_first_day(self) -> None:
        for first, faulty in (("2016-06-15", ()), ("2016-06-16", (0, 1, 2))):
            reader = Reader(1, not_before=first)
            for port in range(3):
                reader.pulses(port, irig.widths(irig.frame("2016-06-15T12:00:00Z")))
            if faulty:
                self.assertEqual(str(reader.port(0)), "fault 36 Early")
            self.assertEqual(reader.tick().faulty, faulty)

    def test_the_quality(self) -> None:
        for poor_from, poor in ((5, ()), (4, (0, 1, 2))):
            reader = Reader(1, poor_from=poor_from)
            for port in range(3):
                reader.pulses(port, irig.widths(irig.frame("2016-06-15T12:00:00Z", quality=4)))
            self.assertEqual(reader.tick().poor, poor)


class AgainstTheHold(unittest.TestCase):
    def test_a_liar_has_a_name_without_a_vote(self) -> None:
        reader = Reader(1, 20)
        rows = (
            (("00", "00", "00"), "voted", (0, 1, 2), ()),
            (("01", "01", "02"), "voted", (0, 1), (2,)),
            (("", "02", "03"), "held", (), (2,)),
            (("03", "", "03"), "voted", (0, 2), ()),
            (("59", "58", "04"), "held", (), (0, 1)),
        )
        for seconds, cause, agreed, against in rows:
            for port, second in enumerate(seconds):
                if second:
                    reader.pulses(port, irig.widths(irig.frame(f"2016-06-15T12:00:{second}Z")))
            report = reader.tick()
            self.assertEqual((report.cause, report.agreed), (cause, agreed))
            self.assertEqual(report.against_hold, against)


class Copies(unittest.TestCase):
    """A reader is its numbers; test_lines.py has the rest."""

    def test_a_number_that_something_else_changed(self) -> None:
        reader = Reader()
        reader._held.state.age += 1
        for _ in range(2):
            self.assertRaisesRegex(irig.Fault, "something else", reader.tick)
            reader.restart()
        self.assertRaisesRegex(irig.Fault, "something else", copy.copy, reader)


if __name__ == "__main__":
    unittest.main()
