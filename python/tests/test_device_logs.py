"""Logs of plants with devices: what their lines say, and runs of the cases and examples that have devices."""
from __future__ import annotations

import pickle
import unittest
from pathlib import Path
from typing import Iterator, Tuple
from unittest import mock

import irig
from irig import DeviceBroken, DeviceTableBroken, DriftBroken, Second, Stamp, Stamped, ToldSecond
from irig.logs import RefusedLine, read_lines
from irig.scenarios import has_devices
from program import ROOT, Case, cases

# Worked out by hand: by its counter, relay told edge 6 and held edge 7; it was asked of 6.3 s and of 0.
LINES = """\
1 relay - acquiring:1 acquiring +349 -
6 relay 2016-12-31T23:59:60Z locked voted +349 450
@6.300000 relay 2016-12-31T23:59:60Z 299657 450
@0.000000 relay - - -
7 relay 2017-01-01T00:00:00Z holdover:1 held -12 490
"""
KEPT = "premises kept\n"
LEAP = Second.read("2016-12-31T23:59:60Z")


def with_devices() -> Iterator[Tuple[Case, bytes]]:
    """The runs of cases and examples whose plant has devices, with their scenarios."""
    for case in cases("run"):
        scenario = (ROOT / case.scenario).read_bytes() if case.scenario else b""
        if has_devices(scenario):
            yield case, scenario


class Lines(unittest.TestCase):
    """What a line says."""

    def test_entries(self) -> None:
        said = list(read_lines(LINES.splitlines()))
        self.assertEqual(said, [
            ToldSecond(1, "relay", None, "acquiring", 1, "acquiring", 349, None),
            ToldSecond(6, "relay", LEAP, "locked", 0, "voted", 349, 450),
            Stamped(6_300_000, "relay", Stamp(LEAP, 299_657, 450)),
            Stamped(0, "relay", None),
            ToldSecond(7, "relay", Second.read("2017-01-01T00:00:00Z"), "holdover", 1, "held", -12, 490),
        ])
        self.assertEqual("".join(f"{line}\n" for line in said), LINES)

    def test_last_lines(self) -> None:
        for line, said in (
            ("premises broken: edge 5 device relay", DeviceBroken(5, "relay")),
            ("premises broken: table of device relay", DeviceTableBroken("relay")),
            ("premises broken: drift of device relay", DriftBroken("relay")),
            ("refused: line 9: 37 BeforeStart", RefusedLine(9, 37, "BeforeStart")),
        ):
            self.assertEqual((list(read_lines([line])), str(said)), ([said], line))

    def test_lines_that_are_none(self) -> None:
        for line in (
            "6 relay 2016-12-31T23:59:60Z locked voted 349 450",  # no sign
            "6 relay 2016-12-31T23:59:60Z locked voted +349 -",  # no bound
            "6 relay - unlocked no-vote +349 450",  # the bound of nothing
            "6 relay 2016-12-31T23:59:61Z locked voted +349 450",
            "@6.3 relay - - -",
            "@6.300000 relay 2016-12-31T23:59:60Z 299657 -",
            "@6.300000 relay 2016-12-31T23:59:61Z 299657 450",
            "premises broken: drift of reader relay",
        ):
            with self.subTest(line), self.assertRaisesRegex(ValueError, "^line 1 is no line of a log: "):
                list(read_lines([line]))

    def test_lines_of_readers(self) -> None:
        """They stand in no log of devices, and those of devices in none of readers."""
        of_readers = (
            "6 relay 2016-12-31T23:59:60Z locked voted", " 6 relay ok ok ok",
            "premises broken: edge 5 reader relay", "premises broken: table of reader relay",
        )
        of_devices = LINES.splitlines()[1], LINES.splitlines()[2], "premises broken: drift of device relay"
        for line in of_readers:
            with self.assertRaisesRegex(ValueError, "^line 2 is of readers, in a log of devices$"):
                list(read_lines([of_devices[0], line]))
        for line in of_devices:
            with self.assertRaisesRegex(ValueError, "^line 2 is of devices, in a log of readers$"):
                list(read_lines([of_readers[0], line]))


class Logs(unittest.TestCase):
    """A whole log."""

    def test_names(self) -> None:
        log = irig.read_log(LINES + KEPT)
        self.assertEqual((log.devices, log.readers, log.ports, log.kept), (("relay",), (), (), True))
        self.assertEqual((log.text, len(log), log[0].asked), (LINES + KEPT, 5, None))
        self.assertEqual(pickle.loads(pickle.dumps(log)), log)

    def test_what_is_asked_of_readers(self) -> None:
        """Nothing of it is answered, as if there were no ticks."""
        scenario = (ROOT / "examples/leap_stamped.jsonl").read_bytes()
        for log in (
            irig.read_log(LINES + KEPT), irig.read_log("premises broken: drift of device relay\n"),
            irig.read_log(KEPT, scenario), irig.run(scenario),
        ):
            for call in (log.ticks, log.to_rows):
                with self.subTest(log, call=call.__name__), self.assertRaisesRegex(ValueError, "has devices$"):
                    call()

    def test_what_its_scenario_says(self) -> None:
        """It is asked for, if it is not there."""
        log = irig.read_log(LINES + KEPT)
        for call in (log.blame, log.lanes):
            with self.subTest(call=call.__name__), self.assertRaisesRegex(ValueError, "is said by the scenario"):
                call()


# Generator 1 sends the frames of edges 4 and 5 with the time of five seconds later.
LIAR = """\
{"version":4,"start":"2016-06-15T12:00:00Z","leaps":[],"parity":"even","sense":"add","sbs":"check","generators":\
[{"local":0},{"local":0},{"local":0}],"devices":[{"name":"relay","lock_after":2,"holdover":3600,"drift":10}]}
{"do":"seconds","n":4}
{"do":"fault","g":1,"kind":"skew","by":5}
{"do":"seconds","n":2}
{"do":"repair","g":1}
{"do":"seconds","n":3}
"""


class Lanes(unittest.TestCase):
    """What the lines of a device told, worked out by hand: c/test_scene.py has the lanes of all cases."""

    def test_lanes(self) -> None:
        lanes = irig.run(LIAR).lanes()
        stood = [(it.first, it.last, it.state, it.cause) for it in lanes if it.kind == "stood"]
        self.assertEqual(stood, [(1, 1, "acquiring", "acquiring"), (2, 8, "locked", "voted")])
        lied = [(it.first, it.last, it.state) for it in lanes if it.port == 1]
        self.assertEqual(lied, [(1, 4, "agreed"), (5, 6, "another second"), (7, 8, "agreed")])
        for port in (0, 2):
            self.assertEqual([(it.first, it.last, it.state) for it in lanes if it.port == port], [(1, 8, "agreed")])

    def test_blame(self) -> None:
        self.assertEqual([str(it) for it in irig.run(LIAR).blame()], [
            "2016-06-15T12:00:01Z, edge 1: relay announced nothing: acquiring, not yet enough votes in a row",
            "2016-06-15T12:00:04Z to 2016-06-15T12:00:05Z, edges 5 to 6: port 1 of relay told another second, 5 s"
            " ahead, first 2016-06-15T12:00:09Z; relay announced 2 seconds",
        ])

    def test_ticked_seldom(self) -> None:
        """A device that is ticked each three seconds tells each third second alone, and stands on."""
        text = LIAR.replace('"drift":10', '"drift":10,"poll":3000000').replace('"n":3', '"n":10')
        log = irig.run(text, all=True)
        edges = [entry.edge for entry in log if isinstance(entry, ToldSecond)]
        agreed = [(it.first, it.last) for it in log.lanes() if it.port == 0]
        self.assertGreater(max(later - edge for edge, later in zip(edges, edges[1:])), 1)
        self.assertEqual(sum(1 for _ in agreed), 1)
        self.assertEqual(agreed[0], (edges[0], edges[-1]))


class Runs(unittest.TestCase):
    """Runs of the library."""

    def test_logs(self) -> None:
        """Of each case and example: the program's log, whatever room there is for it at first."""
        count = 0
        for case, scenario in with_devices():
            count += 1
            has_all, has_ports = ("--all" in case.words, "--ports" in case.words)
            with self.subTest(case.name):
                if case.status == 3:
                    with self.assertRaises(irig.Refused) as caught:
                        irig.run(scenario, has_all, has_ports)
                    why = caught.exception
                    last = f"refused: line {why.line}: {why.number} {why.name}\n"
                    self.assertEqual(why.log.text + last, case.printed)
                    self.check_reason(why, ROOT / case.name / "stderr")
                    continue
                log = irig.run(scenario, has_all, has_ports)
                self.assertEqual((log.text, log), (case.printed, irig.read_log(case.printed)))
        self.assertGreater(count, 150)

    def check_reason(self, why: irig.Refused, told: Path) -> None:
        """That it is what the program writes on its standard error, and has its parts."""
        if told.exists():
            self.assertEqual(f"{why}\nmore: irig explain {why.number}\n", told.read_text())
        for part in filter(None, (why.place, why.key, why.value, why.allowed)):
            self.assertIn(part, str(why.reason))

    def test_all(self) -> None:
        """Seconds that were not announced are shown where all are, and nothing else is added."""
        scenario = (ROOT / "examples/leap_stamped.jsonl").read_bytes()
        some, every = irig.run(scenario), irig.run(scenario, all=True, ports=True)
        announced = [said for said in every if not isinstance(said, ToldSecond) or said.second is not None]
        self.assertEqual(list(some), announced)
        self.assertLess(len(some), len(every))

    def test_without_room(self) -> None:
        scenario = (ROOT / "examples/leap_stamped.jsonl").read_bytes()
        wanted = (ROOT / "examples/leap_stamped.log").read_text()
        for name in ("irig.scenes.LOG_ROOM", "irig.scenes.REASON_ROOM"):
            with self.subTest(name), mock.patch(name, 1):
                self.assertEqual(irig.run(scenario).text, wanted)
                with self.assertRaises(irig.Refused) as caught:
                    irig.run(scenario + b"{}\n")
                self.assertEqual(caught.exception.log.text, wanted.rpartition("premises")[0])
                self.assertGreater(len(caught.exception.reason or ""), 1)


if __name__ == "__main__":
    unittest.main()
