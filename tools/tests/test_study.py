#!/usr/bin/env python3
"""Tests of study: days made by hand, for which docs/EXACTLY_WHEN.md says what a reader does; random
days; tables by hand; the committed tables played once more; and what is said of mistakes."""
import shutil
import subprocess
import unittest
from pathlib import Path

from loading import ROOT, InAFolder, loaded
from parts.random_day import Day, Fault, Model, Spell, SILENT, play, random_day, scenario_of
from irig.scenarios import Reader, Scenario

STUDY = ROOT / "tools/study"
START = "2016-06-15T12:00:00Z"


study = loaded(STUDY)


def ran(*words: object) -> subprocess.CompletedProcess:
    words = [STUDY, *map(str, words)]
    return subprocess.run(words, capture_output=True, text=True, timeout=300, cwd=ROOT)


def skip(case: unittest.TestCase, what: str, package: str) -> None:
    print(f"skipped: {what}; Debian's package {package} is missing")
    case.skipTest(package)


def outage(begin: int, length: int) -> Spell:
    return Spell(begin, begin + length, range(3), SILENT)


class Days(unittest.TestCase):
    """Days as lines of a scenario."""

    def lines(self, day: Day) -> list[dict]:
        plant = Scenario(START, [Reader("relay")])
        play(plant, day)
        self.assertEqual(plant.edge, day.edges)
        return plant.values[1:]

    def test_an_outage_and_a_restart(self) -> None:
        silent = [{"do": "fault", "g": g, "kind": "silent"} for g in range(3)]
        repaired = [{"do": "repair", "g": g} for g in range(3)]
        self.assertEqual(
            self.lines(Day(10, [outage(2, 3)], restarts=[7])),
            [
                {"do": "seconds", "n": 2}, *silent, {"do": "seconds", "n": 3}, *repaired,
                {"do": "seconds", "n": 2}, {"do": "restart", "r": "relay"}, {"do": "seconds", "n": 3},
            ],
        )

    def test_a_lie_goes_on_behind_an_outage(self) -> None:
        lie = Spell(1, 9, [1], Fault("skew", "by", 5))
        told = {"do": "fault", "g": 1, "kind": "skew", "by": 5}
        lines = [line for line in self.lines(Day(10, [outage(3, 2), lie])) if line.get("g", 1) == 1]
        self.assertEqual(
            lines,
            [
                {"do": "seconds", "n": 1}, told, {"do": "seconds", "n": 2},
                {"do": "fault", "g": 1, "kind": "silent"}, {"do": "seconds", "n": 2}, told,
                {"do": "seconds", "n": 4}, {"do": "repair", "g": 1}, {"do": "seconds", "n": 1},
            ],
        )

    def test_a_burst(self) -> None:
        lines = self.lines(Day(1000, bursts=[Spell(100, 900)]))
        dos = [line["do"] for line in lines]
        self.assertEqual((dos.count("tick"), dos.count("step")), (800, 2400))
        self.assertEqual([line["n"] for line in lines if line["do"] == "seconds"], [100, 100])
        self.assertAlmostEqual(dos.count("carry") / 2400, 0.5, delta=0.05)

    def test_what_goes_on_past_the_end(self) -> None:
        self.assertEqual(self.lines(Day(5, [outage(4, 100)]))[-1], {"do": "seconds", "n": 1})


class RandomDays(unittest.TestCase):
    """Days of seeds."""

    def test_rates_and_lengths(self) -> None:
        model = Model(dark=4, lies=8, bursts=24, restarts=2, longest=1000)
        days = [random_day(model, seed) for seed in range(300)]
        dark = [spell for day in days for spell in day.faults if spell.fault == SILENT]
        lies = [spell for day in days for spell in day.faults if spell.fault != SILENT]
        for found, rate in (
            (len(dark), 4), (len(lies), 8), (sum(len(day.bursts) for day in days), 24),
            (sum(len(day.restarts) for day in days), 2),
        ):
            self.assertAlmostEqual(found / 300 / rate, 1, delta=0.15)
        for spells, least, most in (
            (dark + lies, 10, 1000), ([spell for day in days for spell in day.bursts], 1, 10)
        ):
            lengths = [spell.end - spell.begin for spell in spells]
            self.assertTrue(least <= min(lengths) < 2 * least and most / 2 < max(lengths) <= most)
        below = sum(spell.end - spell.begin < 100 for spell in dark) / len(dark)
        self.assertAlmostEqual(below, 0.5, delta=0.06)  # 100 s is as far from 10 s as from 1,000 s

    def test_a_rate_leaves_the_others(self) -> None:
        def parts(model: Model) -> dict[str, list]:
            day = random_day(model, 5)
            return {
                "dark": [spell for spell in day.faults if spell.fault == SILENT],
                "lies": [spell for spell in day.faults if spell.fault != SILENT],
                "bursts": list(day.bursts),
                "restarts": list(day.restarts),
            }

        usual = parts(Model())
        for rate in usual:
            wild = parts(Model(**{rate: 40.0}))
            self.assertNotEqual(wild.pop(rate), usual[rate])
            self.assertEqual(wild, {name: part for name, part in usual.items() if name != rate})

    def test_settings_leave_the_day(self) -> None:
        one, other = (list(scenario_of(Model(), *some, 3).lines()) for some in ((1, 0), (60, 3600)))
        self.assertEqual(one[1:], other[1:])
        self.assertNotEqual(one[1:], list(scenario_of(Model(), 1, 0, 4).lines())[1:])

    def test_a_table(self) -> None:
        model = Model(start="2016-12-31T23:00:00Z", leap="2016-12-31", hours=1)
        readers = [
            scenario_of(Model(**{**vars(model), "table": table}), 1, 0, 1).values[0]["readers"][0]
            for table in ("", "2016-11-30", "2016-12-31")
        ]
        leap = [{"day": "2016-12-31", "kind": "insert"}]
        self.assertEqual(
            [reader.get("table") for reader in readers],
            [None, {"until": "2016-11-30", "leaps": []}, {"until": "2016-12-31", "leaps": leap}],
        )


class Measured(unittest.TestCase):
    """What a log comes to."""

    def test_a_log(self) -> None:
        log = """1 relay - acquiring:1 acquiring
2 relay - acquiring:2 acquiring
3 relay 2016-06-15T12:00:03Z locked voted
4 relay 2016-06-15T12:00:04Z holdover:7 held
5 relay - unlocked expired
6 relay - unlocked no-vote
7 relay - acquiring:1 acquiring
8 relay 2016-06-15T12:00:08Z locked voted
9 relay - unlocked leap-guard
premises kept
"""
        self.assertEqual(
            study.measured(log),
            {
                "edges": 9, "announced": 3, "worst_silence": 3, "first": 3, "expired": 1, "guard": 1,
                "alone": 7,
            },
        )

    def test_silent_throughout(self) -> None:
        found = study.measured("1 relay - unlocked no-vote\n2 relay - unlocked no-vote\npremises kept\n")
        self.assertEqual((found["announced"], found["first"], found["worst_silence"]), (0, 0, 2))

    def played(self, lock_after: int, holdover: int, day: Day, start: str = START) -> dict[str, int]:
        plant = Scenario(start, [Reader("relay", lock_after, holdover)])
        play(plant, day)
        return study.measured(study.log_of(plant.text()))

    def test_outages_of_the_page(self) -> None:
        """docs/EXACTLY_WHEN.md: silent edges at power-up, and after an outage of so many seconds."""
        for lock_after, holdover, length, silent in (
            (1, 0, 1, 1), (1, 0, 60, 60), (2, 10, 1, 0), (2, 10, 60, 51), (2, 10, 3600, 3591),
            (5, 10, 60, 54), (5, 60, 60, 0), (5, 60, 3600, 3544), (5, 3600, 3600, 0),
        ):
            with self.subTest(lock_after=lock_after, holdover=holdover, length=length):
                found = self.played(lock_after, holdover, Day(length + 200, [outage(100, length)]))
                self.assertEqual(found["first"], lock_after)
                self.assertEqual(found["edges"] - found["announced"], lock_after - 1 + silent)
                self.assertEqual(found["worst_silence"], max(lock_after - 1, silent))
                self.assertEqual(found["expired"], int(silent > 0))
                self.assertEqual(found["alone"], min(holdover, length))

    def test_a_restart(self) -> None:
        found = self.played(7, 60, Day(100, restarts=[50]))
        self.assertEqual(found["edges"] - found["announced"], 12)
        self.assertEqual((found["worst_silence"], found["expired"]), (6, 0))

    def test_a_lie_costs_nothing_alone(self) -> None:
        lie = Spell(10, 60, [2], Fault("skew", "by", 3600))
        self.assertEqual(self.played(3, 0, Day(100, [lie]))["announced"], 98)

    def test_a_month_end(self) -> None:
        found = self.played(2, 3600, Day(200, [outage(30, 120)]), "2016-06-30T23:58:30Z")
        self.assertEqual((found["guard"], found["expired"]), (1, 0))


class Tables(InAFolder):
    """Files of runs."""

    def setUp(self) -> None:
        super().setUp()
        self.file = self.folder / "runs.csv"

    def write(self, *rows: str) -> None:
        self.file.write_text("\n".join([",".join(study.COLUMNS), *rows, ""]))

    def test_measures(self) -> None:
        self.write(
            "5,10,,1,1000,900,40,5,2,0,10", "5,10,,2,1000,800,60,6,1,1,9",
            "5,3600,,1,1000,996,4,5,0,0,70", "60,10,2016-12-31,1,1000,0,1000,0,0,0,0",
        )
        for measure, first, second in (
            ("availability", ["85.000", "99.600"], ["0.000", "-"]),
            ("worst", ["80.00", "99.60"], ["0.00", "-"]),
            ("silence", ["60", "4"], ["1,000", "-"]),
            ("first", ["6", "5"], ["inf", "-"]),
            ("expired", ["1.50", "0.00"], ["0.00", "-"]),
            ("guard", ["0.50", "0.00"], ["0.00", "-"]),
            ("alone", ["10", "70"], ["0", "-"]),
        ):
            lines = ran("table", self.file, measure).stdout.splitlines()
            self.assertEqual([line.split() for line in lines[1:]], [
                ["lock_after", "10", "3,600"],
                ["5", *first],
                ["60,", "table", "to", "2016-12-31", *second],
            ])

    def test_files_that_are_none(self) -> None:
        for text, says in (
            ("", "not enough values"), ("a,b\n1,2\n", "no lines below"),
            (",".join(study.COLUMNS), "no lines"),
            (",".join(study.COLUMNS) + "\n5,x,,1,1,1,1,1,1,1,1\n", "'x'"),
            (",".join(study.COLUMNS) + "\n5,1\n", "shorter"),
            (",".join(study.COLUMNS) + "\n5,10,,1,0,0,0,0,0,0,0\n", "a run of no edges"),
            (",".join(study.COLUMNS) + "\n5," + "a" * 200_000, "field larger than field limit"),
        ):
            self.file.write_text(text)
            self.says(ran("table", self.file, "availability"), says)
        self.says(ran("table", self.folder / "none.csv", "silence"), "No such file")

    def says(self, found: subprocess.CompletedProcess, text: str) -> None:
        """It ended with status 2 and one line that has this text."""
        self.assertEqual((found.returncode, found.stdout), (2, ""))
        self.assertEqual(found.stderr.count("\n"), 1, found.stderr)
        self.assertIn("study: ", found.stderr)
        self.assertIn(text, found.stderr)

    def test_a_map(self) -> None:
        self.write(
            "5,10,,1,1000,900,40,5,2,0,10", "5,3600,,1,1000,996,4,5,0,0,70", "2,10,,1,10,9,1,2,0,0,0"
        )
        picture = self.folder / "map.png"
        found = ran("map", self.file, picture)
        if "matplotlib is missing" in found.stderr:
            skip(self, "the heat map", "python3-matplotlib")
        self.assertEqual((found.returncode, found.stderr), (0, ""))
        self.assertEqual(picture.read_bytes()[:8], b"\x89PNG\r\n\x1a\n")
        self.assertEqual(int.from_bytes(picture.read_bytes()[16:20], "big"), 1200)
        self.says(ran("map", self.file, self.folder / "none/map.png"), "No such file")
        self.says(ran("map", self.file, self.folder / "map.none"), "none")


class Runs(unittest.TestCase):
    """Runs of the program that was built."""

    says = Tables.says

    def test_committed_runs(self) -> None:
        """The first, the middle and the last line of each committed table, played once more by the
        command that docs/EXACTLY_WHEN.md has for it."""
        page = (ROOT / "docs/EXACTLY_WHEN.md").read_text()
        files = sorted((ROOT / "docs/study").glob("*.csv"))
        self.assertTrue(files)
        for path in files:
            lines = path.read_text().splitlines()[1:]
            for line in (lines[0], lines[len(lines) // 2], lines[-1]):
                self.assertEqual(self.again(page, path, line), line, path.name)

    def test_more_holdover_and_fewer_votes_lose_nothing(self) -> None:
        """Of one day, by the conditions of docs/EXACTLY_WHEN.md."""
        compared = 0
        for path in (ROOT / "docs/study").glob("*.csv"):
            runs = study.read_runs(str(path))
            by_day = {(run.seed, run.lock_after, run.holdover): run.announced for run in runs}
            for (seed, lock_after, holdover), announced in by_day.items():
                for (day, votes, longer), more in by_day.items():
                    if day == seed and votes <= lock_after and longer >= holdover:
                        self.assertGreaterEqual(more, announced, (path.name, seed))
                        compared += 1
        self.assertGreater(compared, 1000)

    def again(self, page: str, path: Path, line: str) -> str:
        """A line of a table, by the options with which the page has the table made."""
        commands = page.replace("\\\n", " ").splitlines()
        command = next(text for text in commands if f"> docs/study/{path.name}" in text)
        words = command.split("tools/study run")[1].split(">")[0].split()
        options = [word for word in words if word.startswith("--")]
        values = {option: words[words.index(option) + 1] for option in options}
        for option in ("--lock-after", "--holdover", "--seeds"):
            del values[option]
        lock_after, holdover, _, seed = line.split(",")[:4]
        values |= {"--lock-after": lock_after, "--holdover": holdover, "--seed": seed}
        return ran("one", *(word for pair in values.items() for word in pair)).stdout.rstrip("\n")

    def test_list(self) -> None:
        grid = ["--lock-after", "1,5", "--holdover", "0,60,600", "--seeds", 4]
        found = ran("run", *grid, "--dark", 1, "--list")
        commands = found.stdout.splitlines()
        self.assertEqual(len(set(commands)), 24)
        self.assertEqual(
            commands[1], "tools/study one --dark=1.0 --lock-after=1 --holdover=0 --seed=2"
        )

    def test_in_parallel(self) -> None:
        if not shutil.which("parallel"):
            skip(self, "runs side by side", "parallel")
        day = ["--hours", "0.5", "--bursts", "200", "--start", "2016-12-31T23:45:00Z",
               "--leap", "2016-12-31", "--table", "2016-12-31"]
        found = ran("run", "--lock-after", "2,9", "--holdover", "0,60", "--seeds", 2, *day,
                    "--", "--jobs", 2, "--sshlogin", ":")
        self.assertEqual((found.returncode, found.stderr), (0, ""))
        wanted = [
            ran("one", "--lock-after", k, "--holdover", h, "--seed", s, *day).stdout
            for k in (2, 9) for h in (0, 60) for s in (1, 2)
        ]
        self.assertEqual(found.stdout, ",".join(study.COLUMNS) + "\n" + "".join(wanted))
        failed = ran("run", "--lock-after", "61", "--holdover", "0", "--seeds", 2, *day)
        self.assertEqual(failed.returncode, 2)
        self.assertIn("lock_after", failed.stderr)
        self.assertTrue(failed.stderr.splitlines()[-1].startswith("study: a run failed"), failed.stderr)

    def test_mistakes(self) -> None:
        one = ["one", "--seed", 1, "--hours", "0.01"]
        for words, says in (
            ([*one, "--lock-after", 0, "--holdover", 1], '"lock_after" is 0; 1 to 60 may stand here'),
            ([*one, "--lock-after", 1, "--holdover", -1], '"holdover" is -1'),
            ([*one, "--lock-after", 1, "--holdover", 1, "--start", "noon"], "'noon' is no second served"),
            ([*one, "--lock-after", 1, "--holdover", 1, "--generators", 4], "generators"),
            ([*one, "--lock-after", 1, "--holdover", 1, "--hours", 0], "hours is 0"),
            ([*one, "--lock-after", 1, "--holdover", 1, "--hours", "nan"], "hours is nan"),
            ([*one, "--lock-after", 1, "--holdover", 1, "--dark", "inf"], "dark is inf"),
            ([*one, "--lock-after", 1, "--holdover", 1, "--lies", -1], "lies is -1"),
            ([*one, "--lock-after", 1, "--holdover", 1, "--longest", 9], "longest is 9"),
            (["run", "--lock-after", 1, "--holdover", 1, "--seeds", 0], "--seeds is 0"),
        ):
            with self.subTest(says):
                self.says(ran(*words), says)
        self.assertEqual(ran("one").returncode, 2)
        found = ran("run", "--lock-after", "5,x", "--holdover", 1)
        self.assertEqual(found.returncode, 2)
        self.assertIn("5,x is no list of whole numbers", found.stderr.splitlines()[-1])
        self.assertEqual(ran("table", "x.csv", "colour").returncode, 2)

    def test_scenario(self) -> None:
        words = ["--lock-after", 2, "--holdover", 10, "--seed", 7, "--hours", 2]
        plant = scenario_of(Model(hours=2.0), 2, 10, 7)
        self.assertEqual(ran("scenario", *words).stdout, plant.text())


if __name__ == "__main__":
    unittest.main()
