#!/usr/bin/env python3
"""Tests of leaps: the list of the IERS of July 2025 with its own hash line, lists that were changed, and
a run of the program that was built with what it makes."""
import json
import subprocess
import tempfile
import unittest

from loading import ROOT, loaded
from irig.scenarios import Leap, Reader, Scenario, Table

PROGRAM = ROOT / "crates/irig_main/out/irig_main"

# When TAI - UTC became 10 s, 11 s, 12 s .., in seconds since 1900.
STEPS = """
2272060800 2287785600 2303683200 2335219200 2366755200 2398291200 2429913600 2461449600 2492985600
2524521600 2571782400 2603318400 2634854400 2698012800 2776982400 2840140800 2871676800 2918937600
2950473600 2982009600 3029443200 3076704000 3124137600 3345062400 3439756800 3550089600 3644697600
3692217600
""".split()
ROWS = "".join(f"{step}\t{offset}\t# a leap second\n" for offset, step in enumerate(STEPS, 10))
LIST = f"#$\t3960835200\n#@\t3991593600\n{ROWS}#h\t49db2447 571e5e1b 2f002a53 9c8da8e4 39b8e49e\n"
FAR = loaded(ROOT / "tools/leaps").hashed("1", "1" + "0" * 20, [])

SINCE_2000 = ["2005-12-31", "2008-12-31", "2012-06-30", "2015-06-30", "2016-12-31"]


def run(text: str, *options: str) -> subprocess.CompletedProcess:
    """What the tool makes of a list."""
    with tempfile.NamedTemporaryFile("w", suffix=".list") as file:
        file.write(text)
        file.flush()
        words = [ROOT / "tools/leaps", file.name, *options]
        return subprocess.run(words, capture_output=True, text=True)


def values(text: str, *options: str) -> dict:
    """The keys that it prints, as an object."""
    return json.loads("{" + run(text, *options).stdout.replace("\n", ",").rstrip(",") + "}")


class Beside(unittest.TestCase):
    """A scenario from 2016-06-15 on, and the list, which has one leap second from then to 2026-06-28."""

    def beside(self, leaps: list) -> tuple:
        return self.beside_line(json.dumps({"version": 1, "start": "2016-06-15T12:00:00Z", "leaps": leaps}))

    def beside_line(self, plant: str) -> tuple:
        with tempfile.NamedTemporaryFile("w", suffix=".jsonl") as file:
            file.write(plant + "\n")
            file.flush()
            ran = run(LIST, f"--beside={file.name}")
        self.assertNotIn("Traceback", ran.stderr)
        return ran.returncode, ran.stdout

    def test_the_same(self) -> None:
        self.assertEqual(self.beside([{"day": "2016-12-31", "kind": "insert"}]), (0, ""))

    def test_forgotten(self) -> None:
        self.assertEqual(self.beside([]), (1, "2016-12-31: the list has insert, the scenario none\n"))

    def test_other(self) -> None:
        leaps = [{"day": "2016-12-31", "kind": "delete"}, {"day": "2017-06-30", "kind": "insert"},
                 {"day": "2026-12-31", "kind": "insert"}]
        self.assertEqual(self.beside(leaps), (
            1, "2016-12-31: the list has insert, the scenario delete\n"
            "2017-06-30: the list has none, the scenario insert\n"))

    def test_no_plant_lines(self) -> None:
        plants = ['{"leaps":[],"start":[1]}', '{"leaps":[{"day":5,"kind":1}],"start":"2000"}', "[" * 200_000]
        for plant in plants:
            self.assertEqual(self.beside_line(plant), (2, ""))

    def test_what_a_terminal_obeys(self) -> None:
        leaps = [{"day": "2020-01-0\n\33[31m", "kind": "\x9b1m\u202e\udcff"}]
        self.assertEqual(self.beside(leaps), (
            1, "2016-12-31: the list has insert, the scenario none\n"
            "2020-01-0\\n\\x1b[31m: the list has none, the scenario \\x9b1m\\u202e\\udcff\n"))


class Leaps(unittest.TestCase):
    def test_the_list(self) -> None:
        inserted = [{"day": day, "kind": "insert"} for day in SINCE_2000]
        self.assertEqual(
            values(LIST), {"leaps": inserted, "table": {"until": "2026-05-31", "leaps": inserted}}
        )

    def test_since(self) -> None:
        leaps = values(LIST, "--since", "2015-06-30")["leaps"]
        self.assertEqual([leap["day"] for leap in leaps], SINCE_2000[3:])

    def test_a_full_disk(self) -> None:
        with tempfile.NamedTemporaryFile("w") as file, open("/dev/full", "w") as full:
            file.write(LIST)
            file.flush()
            ran = subprocess.run([ROOT / "tools/leaps", file.name], stdout=full, stderr=subprocess.PIPE, text=True)
        self.assertEqual((ran.returncode, ran.stderr.splitlines()[2:]), (2, [
            "leaps: standard output took no more: is the disk full, or has its reader ended?"]))

    def test_expired(self) -> None:
        self.assertIn("expired on 2026-06-28", run(LIST).stderr)

    def test_changed(self) -> None:
        for name, text in {
            "a second": LIST.replace("3692217600", "3692217601"),
            "an offset": LIST.replace("\t36\t", "\t37\t"),
            "the expiry": LIST.replace("3991593600", "4991593600"),
            "a line less": LIST.replace("3692217600\t37\t# a leap second\n", ""),
            "far in the future": "#$\t1\n#@\t1" + "0" * 20 + f"\n#h\t{FAR}\n",
            "no hash": LIST.replace("#h", "#"),
            "nothing": "",
        }.items():
            with self.subTest(name):
                ran = run(text)
                self.assertEqual((ran.returncode, ran.stdout), (2, ""))
                self.assertIn("newer: ", ran.stderr)

    def test_the_program_takes_them(self) -> None:
        made = values(LIST)
        leaps = [Leap(**leap) for leap in made["leaps"]]
        table = Table(made["table"]["until"], leaps)
        plant = Scenario("2016-12-31T23:58:59Z", [Reader("relay", 1, 3600, table)], leaps=leaps)
        plant.seconds(2)
        plant.dark(62)
        ran = subprocess.run([PROGRAM], input=plant.text(), capture_output=True, text=True)
        self.assertEqual(
            ran.stdout.splitlines()[-5:],
            [
                "61 relay 2016-12-31T23:59:60Z holdover:59 held",
                "62 relay 2017-01-01T00:00:00Z holdover:60 held",
                "63 relay 2017-01-01T00:00:01Z holdover:61 held",
                "64 relay 2017-01-01T00:00:02Z holdover:62 held",
                "premises kept",
            ],
        )


if __name__ == "__main__":
    unittest.main()
