"""Building scenarios: edges and UTC seconds, the lines, and what the program makes of them."""
from __future__ import annotations

import subprocess
import sys
import tempfile
import unittest
from datetime import date, datetime, timezone
from pathlib import Path
from typing import List

from irig import Second, _library
from irig.scenarios import (
    Change, Damage, Generator, Leap, Lost, Raw, Reader, Replay, Scenario, Table, Timeline,
    readers_in,
)
from program import ROOT, printed

INSERTED = [Leap("2016-12-31")]

# Builds a scenario and reads a log where no shared library is.
ALONE = """import sys
sys.path.insert(0, sys.argv[1])
import irig.logs, irig.scenarios
plant = irig.scenarios.Scenario("2016-12-31T23:59:50Z", [irig.scenarios.Reader("relay")])
plant.until("2016-12-31T23:59:58Z")
print(plant.edge, irig.logs.read_log("1 relay - unlocked no-vote\\npremises kept\\n")[0])
try:
    irig.classify(2000)
except ImportError as error:
    print(error)
"""


def example(name: str) -> str:
    return (ROOT / "examples" / name).read_text()


def log_of(scenario: str, *options: str) -> List[str]:
    """What the program prints of a scenario."""
    return printed("run", "-", *options, text=scenario).splitlines()


class Seconds(unittest.TestCase):
    """Edges and UTC seconds."""

    def test_inserted(self) -> None:
        timeline = Timeline("2016-12-31T23:59:50Z", INSERTED)
        self.assertEqual(timeline.second_at(10), "2016-12-31T23:59:60Z")
        self.assertEqual(timeline.second_at(11), "2017-01-01T00:00:00Z")
        self.assertEqual(timeline.edge_of("2016-12-31T23:59:50Z"), 0)
        self.assertEqual(timeline.edge_of("2016-12-31T23:59:60Z"), 10)
        self.assertEqual(timeline.edge_of("2017-01-02T00:00:00Z"), 11 + 86400)

    def test_deleted(self) -> None:
        timeline = Timeline("2029-06-30T23:59:50Z", [Leap("2029-06-30", "delete")])
        self.assertEqual(timeline.second_at(8), "2029-06-30T23:59:58Z")
        self.assertEqual(timeline.second_at(9), "2029-07-01T00:00:00Z")
        with self.assertRaises(ValueError):
            timeline.edge_of("2029-06-30T23:59:59Z")

    def test_no_second(self) -> None:
        timeline = Timeline("2016-06-15T12:00:00Z")
        for time in ("2016-06-15T11:59:59Z", "2016-06-15 12:00:00Z", "2016-06-30T23:59:60Z"):
            with self.subTest(time), self.assertRaises(ValueError):
                timeline.edge_of(time)


class Lines(unittest.TestCase):
    """The lines of a scenario, and what the program makes of them."""

    def test_a_generator(self) -> None:
        self.assertEqual(Generator(local=2, dst=True).value(), {"local": 2, "dst": True})
        self.assertEqual(Generator(local=-1).value(), {"local": -1})

    def test_replays(self) -> None:
        plant = Scenario("2016-06-15T12:00:00Z", [Reader("relay")])
        plant.seconds(6)
        for edge in range(3):
            plant.second({(2, "relay"): Replay(edge)})
        self.assertEqual(plant.edge, 9)
        self.assertTrue(example("replay_attack.jsonl").startswith(plant.text()))

    def test_until_a_leap_second(self) -> None:
        plant = Scenario("2016-12-31T23:58:00Z", [Reader("relay", 1)], leaps=INSERTED)
        plant.until("2016-12-31T23:59:60Z")
        self.assertEqual((plant.edge, plant.at), (120, "2016-12-31T23:59:60Z"))
        self.assertEqual(
            log_of(plant.text())[-2:],
            ["120 relay 2016-12-31T23:59:60Z locked voted", "premises kept"],
        )
        with self.assertRaises(ValueError):
            plant.until("2016-12-31T23:59:59Z")

    def test_versions(self) -> None:
        table = Table("2017-06-30")
        for generators, reader, version in (
            (3, Reader("relay"), 1), (3, Reader("relay", table=table), 2), (5, Reader("relay"), 3)
        ):
            plant = Scenario("2016-06-15T12:00:00Z", [reader], generators)
            plant.seconds(2)
            self.assertEqual(plant.values[0]["version"], version)
            self.assertEqual(log_of(plant.text())[-1], "premises kept")

    def test_zones(self) -> None:
        summer = [Change("2016-06-15T12:00:00Z", 4, True)]
        zones = [Generator(2, changes=summer), Generator(0), Generator(11, True)]
        plant = Scenario("2016-06-15T11:59:58Z", [Reader("relay")], zones)
        plant.seconds(4)
        self.assertEqual(
            log_of(plant.text())[-2:], ["4 relay 2016-06-15T12:00:02Z locked voted", "premises kept"]
        )

    def test_what_a_port_hears(self) -> None:
        plant = Scenario("2016-06-15T12:00:00Z", [Reader("relay")])
        plant.second({(0, "relay"): Damage(17, 300), (1, "relay"): Raw([8000]), (2, "relay"): Lost()})
        self.assertEqual(
            log_of(plant.text(), "--ports"),
            [" 1 relay fault:3:Pulse:17 fault:1:Short:1 silence", "premises kept"],
        )

    def test_some_readers_lose_frames(self) -> None:
        plant = Scenario("2016-06-15T12:00:00Z", [Reader("relay"), Reader("recorder")])
        plant.seconds(2)
        plant.lose(1, readers=["recorder"])
        self.assertEqual(
            log_of(plant.text())[-3:],
            [
                "3 relay 2016-06-15T12:00:03Z locked voted",
                "3 recorder 2016-06-15T12:00:03Z holdover:1 held",
                "premises kept",
            ],
        )

    def test_a_restart(self) -> None:
        """What the reader counts begins anew, so that it announces nothing at edge 4."""
        plant = Scenario("2016-06-15T12:00:00Z", [Reader("relay")])
        plant.seconds(3)
        plant.restart("relay")
        plant.seconds(2)
        self.assertEqual([line.split()[0] for line in log_of(plant.text())], ["2", "3", "5", "premises"])

    def test_more_seconds_than_a_line_holds(self) -> None:
        plant = Scenario("2016-06-15T12:00:00Z", [Reader("relay")])
        plant.seconds(250_000)
        self.assertEqual([value.get("n") for value in plant.values[1:]], [100_000, 100_000, 50_000])
        self.assertEqual(plant.edge, 250_000)

    def test_times_in_other_forms(self) -> None:
        start = datetime(2016, 12, 31, 23, 59, 50, tzinfo=timezone.utc)
        made = Scenario(start, [Reader("relay")], leaps=[Leap(date(2016, 12, 31))])
        made.until(Second(6209, 86_398))
        text = Scenario("2016-12-31T23:59:50Z", [Reader("relay")], leaps=INSERTED)
        text.until("2016-12-31T23:59:58Z")
        self.assertEqual(made.text(), text.text())
        self.assertRaisesRegex(ValueError, "'noon' is no second", Scenario, "noon", [Reader("relay")])

    def test_a_file(self) -> None:
        plant = Scenario("2016-06-15T12:00:00Z", [Reader("relay", 5, 10)])
        plant.seconds(8)
        plant.dark(3600)
        plant.seconds(8)
        with tempfile.TemporaryDirectory() as folder:
            path = Path(folder) / "mine.jsonl"
            plant.write(path)
            self.assertEqual(path.read_text(), example("dark_hour.jsonl"))


class Said(unittest.TestCase):
    """What is read of a scenario."""

    def test_a_plant_line(self) -> None:
        text = "\n  \n" + example("leap_inserted.jsonl")
        for scenario in (text, text.encode()):
            self.assertEqual(readers_in(scenario), ["relay", "recorder"])
        for text in ("", "{", "[]", '{"start":"noon","leaps":[]}', '{"readers":[5]}', "[" * 100_000):
            self.assertEqual(readers_in(text), [])


class Alone(unittest.TestCase):
    def test_no_library_is_needed(self) -> None:
        """The sources and their lists alone, in a folder without libraries."""
        with tempfile.TemporaryDirectory() as folder:
            (Path(folder) / "irig").mkdir()
            for path in (*ROOT.glob("python/irig/*.py"), ROOT / "c/layout.txt", ROOT / "docs/FAULTS.md"):
                (Path(folder) / "irig" / path.name).write_bytes(path.read_bytes())
            words = [sys.executable, "-c", ALONE, folder]
            ran = subprocess.run(words, capture_output=True, text=True, cwd=folder)
        self.assertEqual(ran.stderr, "")
        self.assertEqual(ran.stdout.splitlines(), [
            "8 1 relay - unlocked no-vote",
            f"there is no {_library.IRIG}: in a folder of irig's sources that one may write, `make -C c` makes it",
        ])


if __name__ == "__main__":
    unittest.main()
