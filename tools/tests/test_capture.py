#!/usr/bin/env python3
"""Tests of capture: the wires of examples and cases, recorded and captured, have the log of the
scenario itself; recorders that are bad do no harm, and lines that are no B004 are named. The waves
are those of tests/waves.py, and owe nothing to the tool. Needs the libraries of `make -C c`."""
from __future__ import annotations

import io
import json
import random
import shutil
import subprocess
import sys
import tempfile
import unittest
import wave
from collections.abc import Callable, Iterable, Iterator, Sequence
from contextlib import redirect_stderr
from dataclasses import dataclass, replace
from functools import cache, cached_property
from itertools import dropwhile, product
from pathlib import Path
from unittest import mock

from loading import ROOT, InAFolder, loaded

import waves
from case_files import all_cases, has_devices, of_readers
from case_files import examples as all_examples
from irig._library import IRIG
from model.times import day_of_text
from parts.changes import END
from parts.listening import without_glitches
from parts.recordings import open_recording
from waves import Change

PROGRAM = ROOT / "crates/irig_main/out/irig_main"
TOOL = loaded(ROOT / "tools/capture")
ONE_MS = "its pulses are not 10 ms apart but, most often, 1 ms"

# Scenarios whose log no recording of their wires can have, with the reason.
NO_VOTE = "there is no tick before lines agree"
RESTART = "no wire knows of a restart"
NO_BEGIN = "a pulse that begins no frame is out of step on a wire"
OTHER = "the last line speaks of another reader"
INEXACT = "a timekeeper gives no vote to clocks that say that they may be 10 ms off"
UNLIKE = {
    "a_deleted_second_has_no_number": NO_VOTE,
    "a_missed_tick_breaks_the_premise": RESTART,
    "broken_premise_of_another_reader": OTHER,
    "damage_at_the_last_marker_to_a_zero": NO_BEGIN,
    "damage_at_the_last_marker_to_the_same_symbol": NO_BEGIN,
    "leap_seconds_since_2000": NO_VOTE,
    "misled_five": NO_VOTE,
    "misled_three": NO_VOTE,
    "odd_parity_and_subtract": NO_VOTE,
    "plant_line_alone": NO_VOTE,
    "ports_that_tell_faults": NO_VOTE,
    "pulses_since_a_port_was_empty": NO_VOTE,
    "quality_and_replay": INEXACT,
    "restart": RESTART,
    "restart_empties_the_ports": RESTART,
    "restart_forgets_the_counter": RESTART,
    "step_of_generator_4_of_five": NO_VOTE,
}
# And those that need --start and --leap: the first word of most ports, or what they say of a leap
# second, is not what the scenario says.
LIE = "the first word of most ports is untrue"
UNTOLD = "most ports tell nothing of a leap second that comes, or one that does not"
UNLIKE_BY_THEIR_WORD = {
    **UNLIKE,
    "false_table": UNTOLD,
    "misled_by_table": UNTOLD,
    "table_and_short_holdover_of_five": UNTOLD,
    "table_carries_holdover_over_a_deleted_second": UNTOLD,
    "table_carries_holdover_over_a_leap": UNTOLD,
    "table_of_one_of_two_readers": UNTOLD,
    "three_untrue_ports_of_five": LIE,
    "two_untrue_ports_are_followed": LIE,
}


# What was recorded in examples/one_clock_ahead.vcd: G1 in Paris, 18 seconds ahead from the fifth
# frame on; G2 inverted, and 300 us later.
ONE_CLOCK_AHEAD = """\
{"version":1,"start":"2026-11-24T09:30:00Z","leaps":[],"parity":"even","sense":"add","sbs":"check",\
"generators":[{"local":0},{"local":2},{"local":0}],"readers":[{"name":"relay","lock_after":2,"holdover":60}]}
{"do":"seconds","n":4}
{"do":"fault","g":1,"kind":"skew","by":18}
{"do":"seconds","n":3}
"""


# ---- waves


@dataclass(frozen=True)
class Wave:
    """Lines, all of them low at first, up to an end."""

    count: int
    changes: tuple[Change, ...]
    end: int

    @property
    def names(self) -> list[str]:
        return [f"G{line}" for line in range(self.count)]

    def of(self, changed: Callable[[Change], Iterable[Change]]) -> Wave:
        """Each change made to others."""
        found = sorted(other for change in self.changes for other in changed(change))
        return replace(self, changes=tuple(found))

    def line(self, number: int, changed: Callable[[Change], Iterable[Change]]) -> Wave:
        """Each change of a line made to others."""
        return self.of(lambda change: changed(change) if change[1] == number else [change])

    def inverted(self, number: int) -> Wave:
        swapped = self.line(number, lambda change: [(change[0], number, 1 - change[2])])
        return replace(swapped, changes=((0, number, 1), *swapped.changes))

    def rows(self) -> Iterator[tuple[int, list[int]]]:
        """The levels at the beginning, and from each change on."""
        levels, at = [0] * self.count, 0
        for time, line, level in self.changes:
            if time != at:
                yield at, list(levels)
                at = time
            levels[line] = level
        yield at, list(levels)

    def samples(self, every_us: int) -> Iterator[tuple[int, list[int]]]:
        """The levels as samples, of which the same follow one another so many times."""
        rows = [*self.rows(), (self.end, [])]
        for (begin, levels), (end, _) in zip(rows, rows[1:]):
            yield -(-end // every_us) - -(-begin // every_us), levels


def scaled(lines: Wave, parts: int) -> Wave:
    """Lines by a recorder that has so many microseconds in a second."""
    changed = lines.of(lambda change: [(change[0] * parts // 1_000_000, *change[1:])])
    return replace(changed, end=lines.end * parts // 1_000_000)


def wave_of_text(text: str, count: int = 3) -> Wave:
    """The lines of a scenario's first reader."""
    seconds = waves.seconds_of(text)
    end = waves.FIRST_EDGE_US + len(seconds) * waves.SECOND_US + waves.ELEMENT_US
    return Wave(count, tuple(waves.changes_of(seconds)), end)


@cache
def wave_of(name: str) -> Wave:
    """The same of an example or a case."""
    return wave_of_text(scenarios()[name], len(trips_of(name)[0].plant["generators"]))


# ---- forms of a recording


def as_table(lines: Wave, path: Path) -> None:
    """A row for each change, and one at the end."""
    rows = list(lines.rows())
    with path.open("w") as file:
        print("Time [s]", *lines.names, sep=",", file=file)
        for time, levels in [*rows, (lines.end, rows[-1][1])]:
            print(f"{time / 1e6:.6f}", *levels, sep=",", file=file)


def as_volts(lines: Wave, path: Path) -> None:
    """A row each 100 us, of 0 to 5 V with noise of 0.2 V, and edges that take some ms."""
    seed, volts, number = random.Random(1), [0.0] * lines.count, 0
    with path.open("w") as file:
        print("Time (ms)," + ",".join(lines.names), file=file)
        for count, levels in lines.samples(100):
            for _ in range(count):
                volts = [(5.0 * level + 9 * volt) / 10 for level, volt in zip(levels, volts)]
                noisy = (f"{volt + seed.uniform(-0.2, 0.2):.3f}" for volt in volts)
                print(f"{number / 10:.1f}," + ",".join(noisy), file=file)
                number += 1


def as_pulses(lines: Wave, path: Path) -> None:
    """Each pulse once it has ended, with a clock of 32 bits that wraps three seconds later."""
    rises, offset = {}, 2**32 - 3_000_000
    with path.open("w") as file:
        print("port,rise_us,width_us", file=file)
        for time, line, level in lines.changes:
            if level:
                rises[line] = time
            else:
                rise = (rises[line] + offset) % 2**32
                print(f"{line},{rise},{time - rises[line]}", file=file)


# ---- runs


def captured(path: Path, *words: str) -> tuple[str, str]:
    """The scenario that the tool makes of a recording, and what it says."""
    out, said = io.StringIO(), io.StringIO()
    with redirect_stderr(said):
        TOOL.capture(TOOL.command().parse_args([str(path), *words]), out)
    return out.getvalue(), said.getvalue()


def captured_wave(lines: Wave, *words: str) -> tuple[str, str]:
    with tempfile.TemporaryDirectory() as folder:
        path = Path(folder, "lines.csv")
        as_table(lines, path)
        return captured(path, *words)


def log_of(text: str) -> list[str]:
    ran = subprocess.run(
        [PROGRAM, "run", "-", "--all", "--ports"], input=text, capture_output=True, text=True
    )
    return ran.stdout.splitlines()


@cache
def scenarios() -> dict[str, str]:
    """The scenarios of examples and cases that run to their end, by their names, but for those of devices."""
    found = {}
    for case in all_cases():
        path = case.scenario or case.input
        if case.status == 0 and (b"run" in case.words or not case.words) and path != "/dev/null":
            text = (ROOT / path).read_text()
            if text.strip() and not has_devices(text.encode()):
                found[Path(case.name).stem] = text
    return found


def examples() -> list[str]:
    return [Path(case.name).stem for case in of_readers(all_examples())]


@dataclass(frozen=True)
class Trip:
    """A scenario for one of its readers, to a recording and back."""

    text: str
    plant: dict
    reader: dict

    @cached_property
    def log(self) -> list[str]:
        """What the scenario's log says of the reader."""
        lines = log_of(self.text)
        return [line for line in lines[:-1] if line.split()[1] == self.reader["name"]] + lines[-1:]

    def outcome(self, recording: Path, *more: str, is_told: bool = True) -> list[str]:
        """The log of what is captured, or why nothing is. The tool is told how the reader is set
        up, but for a leap table, which is put in, and perhaps what is true."""
        words = ["--reader={name},{lock_after},{holdover}".format_map(self.reader),
                 *(f"--{key}={self.plant[key]}" for key in ("parity", "sense", "sbs")), *more]
        if is_told:
            leaps = (f"--leap={leap['day']}:{leap['kind']}" for leap in self.plant["leaps"])
            words += [f"--start={self.plant['start']}", *leaps]
        try:
            head, _, rest = captured(recording, *words)[0].partition("\n")
        except ValueError as error:
            return [str(error)]
        made = json.loads(head)
        if table := self.reader.get("table"):
            made["version"] = max(2, made["version"])
            made["readers"][0]["table"] = table
        return log_of(f"{json.dumps(made)}\n{rest}")


@cache
def trips_of(name: str) -> list[Trip]:
    text = scenarios()[name]
    plant = next(json.loads(line) for line in text.splitlines() if line.strip())
    return [Trip(text, plant, reader) for reader in plant["readers"]]


def wanted_of(name: str) -> list[str]:
    return trips_of(name)[0].log


def from_first_vote(log: list[str]) -> list[str]:
    """What a reader says of each second, without its number, from the first vote on."""
    seconds = [line.split(maxsplit=1)[1] for line in log[:-1] if line[0] != " "]
    return list(dropwhile(lambda line: line.endswith(" no-vote"), seconds))


# ---- tests


class Scenarios(InAFolder):
    def test_by_the_word_of_the_ports(self) -> None:
        for name in scenarios():
            with self.subTest(name):
                as_table(wave_of(name), self.folder / "lines.csv")
                log = trips_of(name)[0].outcome(self.folder / "lines.csv", is_told=False)
                if name in UNLIKE_BY_THEIR_WORD:
                    self.assertNotEqual(log, wanted_of(name), "this is alike now")
                    if UNLIKE_BY_THEIR_WORD[name] == NO_VOTE:
                        self.assertEqual(*map(from_first_vote, (log, wanted_of(name))))
                else:
                    self.assertEqual(log, wanted_of(name))
        self.assertEqual(set(UNLIKE_BY_THEIR_WORD) - set(scenarios()), set())


class Forms(InAFolder):
    def test_examples(self) -> None:
        """A list of pulses does not say how long nothing comes behind the last."""
        path = self.folder / "lines.csv"
        for name in set(examples()) - set(UNLIKE):
            lines = wave_of(name)
            is_short, is_dark = lines.end < 13_000_000, lines.end - lines.changes[-1][0] > waves.SECOND_US
            for write, words in [(as_volts, ["--threshold=2.5"])] * is_short + [(as_pulses, [])] * (not is_dark):
                with self.subTest(write.__name__, example=name):
                    write(lines, path)
                    self.assertEqual(trips_of(name)[0].outcome(path, *words), wanted_of(name))

    def test_the_recording_of_the_examples(self) -> None:
        lines = wave_of_text(ONE_CLOCK_AHEAD)
        lines = lines.line(2, lambda change: [(change[0] + 300, *change[1:])]).inverted(2)
        kept = open_recording(ROOT / "examples/one_clock_ahead.vcd", None)
        found = [(round(time), line, level) for time, line, level in kept.changes(range(3))]
        low = [(0, line, 0) for line in range(3)]
        wanted = [(time // 100 * 100, line, level) for time, line, level in lines.changes]
        self.assertEqual((kept.names, found[:-1]), (lines.names, [*low, *wanted]))

    def test_one_line_is_heard_on_three_ports(self) -> None:
        as_table(wave_of("one_liar"), self.folder / "lines.csv")
        text, said = captured(self.folder / "lines.csv", "--channels=G1")
        heard = [json.loads(line) for line in text.splitlines()[1:4]]
        self.assertEqual([one["g"] for one in heard], [0, 1, 2])
        self.assertEqual(len({str(one["widths"]) for one in heard}), 1)
        self.assertEqual(said.count(" pulses, "), 1)
        self.assertIn("G1 is on 3 of 3 ports: that is no vote of 3 clocks\n", said)
        self.assertIn("5 relay - unlocked jump", log_of(text))

    def test_channels_in_another_order(self) -> None:
        text, said = captured_wave(wave_of("one_liar"), "--channels=G1,G0,G2")
        self.assertIn(" 5 relay 2017-06-30T23:59:57Z ok ok", log_of(text))
        self.assertNotIn(" no vote ", said)
        _, said = captured_wave(wave_of("one_liar"), "--channels=G1,G0,G1")
        self.assertEqual(said.split("\n")[0], "G1 is on 2 of 3 ports: that is no vote of 3 clocks")


class Recorders(unittest.TestCase):
    """Bad recorders, by seeds: the log is still that of the scenario."""

    def alike(self, lines: Wave, name: str = "leap_inserted") -> str:
        reader = trips_of(name)[0].reader
        text, said = captured_wave(lines, "--reader={name},{lock_after},{holdover}".format_map(reader))
        self.assertEqual(log_of(text), wanted_of(name))
        return said

    def test_a_clock_that_is_off(self) -> None:
        """The ticks stand where the edges are in the recording: that of tick 14 at 14.05 s times 1.005."""
        for parts, said_so, ends in (
            (1_005_000, "5000.0 ppm longer", "1.055 s of the recording, tick 14 at 14.120 s"),
            (995_000, "5000.0 ppm shorter", "1.045 s of the recording, tick 14 at 13.980 s"),
            (999_900, "100.0 ppm shorter", "1.050 s of the recording, tick 14 at 14.049 s"),
        ):
            said = self.alike(scaled(wave_of("leap_inserted"), parts))
            self.assertIn(f"a second is {said_so} than one of the recorder", said)
            self.assertIn(f"14 ticks: tick 1 is at {ends}; ", said)
            self.assertIn("0.000 s of the recording is 2016-12-31T23:59:49.950Z, by 3 of 3", said)

    def test_a_clock_that_is_off_in_the_dark(self) -> None:
        """By it an hour without lines lasts 3,618 s. Its seconds are as long as those of the lines before."""
        self.alike(scaled(wave_of("dark_hour"), 1_005_000), "dark_hour")

    def test_a_clock_that_mends_itself_between_frames(self) -> None:
        """Its pulses are 10 ms apart, but 50 us more lie between two frames: 50 in a million."""
        lines = wave_of("leap_inserted").of(
            lambda change: [(change[0] + (change[0] - 50_000) // 1_000_000 * 50, *change[1:])]
        )
        said = self.alike(lines)
        self.assertIn("a second is 50.0 ppm longer than one of the recorder", said)
        self.assertIn("10.000 to 10.000 ms, mean 10.000", said)

    def test_a_frame_alone(self) -> None:
        """No frame follows it, so its second is known by its pulses alone."""
        lines = wave_of("leap_inserted").of(
            lambda change: [(change[0] * 10_001 // 10_000, *change[1:])] * (change[0] < 1_055_000)
        )
        said = captured_wave(replace(lines, end=1_100_000))[1]
        self.assertIn("100 pulses, 1 frames, 0 pulses out of step", said)
        self.assertIn("a second is 100.0 ppm longer than one of the recorder", said)

    def test_lines_apart(self) -> None:
        lines = wave_of("leap_inserted")
        lines = lines.of(lambda change: [(change[0] + 350 * change[1], *change[1:])])
        when = "tick 1 is at 1.050 s of the recording, tick 14 at 14.050 s"
        said = self.alike(lines)
        self.assertIn(f"14 ticks: {when}; the lines that agreed are up to 700 us apart\n", said)
        self.assertIn(" is 2016-12-31T23:59:49.950Z, by 3 of 3 lines, within 350 us\n", said)

    def test_a_pause_that_the_clock_does_not_show(self) -> None:
        """Half a frame, and the other half when a clock of 32 bits has come round."""
        whole = wave_of("leap_inserted").changes
        half = waves.FIRST_EDGE_US + waves.SECOND_US + 50 * waves.ELEMENT_US
        early = [change for change in whole if change[0] < half]
        rest = [(time + 2**32, line, level) for time, line, level in whole
                if half <= time < half + waves.SECOND_US // 2]
        lines = Wave(3, (*early, *rest), 2**32 + half + waves.SECOND_US)
        text, said = captured_wave(lines)
        self.assertEqual(said.count(": 200 pulses, 1 frames, 50 pulses out of step\n"), 3)
        self.assertEqual(sum(line.count(" ok ok ok") for line in log_of(text)), 1)
        halves = tuple(change for change in lines.changes if change[0] >= 1_050_000)
        with self.assertRaisesRegex(ValueError, "at last G0 told silence, G1 told silence, G2 told silence$"):
            captured_wave(replace(lines, changes=halves))


class Devices(InAFolder):
    """Lines as they come, by seeds: what is captured announces what c/examples/capture.c does."""

    def setUp(self) -> None:
        super().setUp()
        if not shutil.which("cc"):
            print("skipped: recordings against c/examples/capture.c; cc is missing")
            self.skipTest("no cc")
        sources = [ROOT / f"c/examples/{name}.c" for name in ("capture", "capture_bench")]
        library = ROOT / "c/out" / IRIG
        for count in (1, 3, 5):
            subprocess.run(
                ["cc", "-std=c11", f"-DLINES={count}", f"-I{ROOT / 'c'}", *sources, library,
                 f"-Wl,-rpath,{library.parent}", "-o", self.folder / f"board{count}"], check=True,
            )

    def played(self, lines: Wave, ports: Sequence[int], *setup: int) -> subprocess.CompletedProcess[str]:
        """What the board of this setup prints until 6 ms behind the end."""
        rows = [*lines.rows(), (lines.end + 6_000, list(lines.rows())[-1][1])]
        table = [f"{time / 1e6:.6f}," + ",".join(str(levels[line]) for line in ports)
                 for time, levels in rows]
        text = "\n".join(["Time [s]", *table, ""])
        words = [self.folder / f"board{len(ports)}", *map(str, setup)]
        return subprocess.run(words, input=text, capture_output=True, text=True)

    def announced(self, lines: Wave, ports: Sequence[int], *setup: int) -> list[str]:
        """What it announces, tick by tick."""
        return self.played(lines, ports, *setup).stdout.splitlines()

    def test_what_each_line_is(self) -> None:
        """By docs/LINES.md. Edge n is at n + 0.05 s. Line 0 is out from 4.3 s on: at edge 5 its last frame ended
        a second before, at edge 6 no pulse came for 1.7 s. Back at 6.2 s, it has pulses at edge 7, and a
        whole frame at edge 8. Line 2, here the second clock, is 18 seconds ahead from edge 11 on."""
        lines = wave_of_text(ONE_CLOCK_AHEAD.replace('"n":4', '"n":10'))
        lines = replace(lines, changes=tuple(sorted(waves.pulled(lines.changes, 0, 4_300_000, 6_200_000))))
        self.assertEqual(self.played(lines, (0, 2, 1), 2, 3600).stderr.splitlines(), [
            "1 agreed:012 alarm:lost",
            "2 agreed:012",
            "6 agreed:12 silent:0 alarm:degraded",
            "7 agreed:12 broken:0 alarm:degraded",
            "8 agreed:012",
            "11 agreed:01 differed:2 alarm:degraded",
        ])

    def test_examples(self) -> None:
        """Each that wires can carry, and one line of three that are equal: as the program has them."""
        alone = {"plain_minute", "leap_inserted", "leap_deleted", "dark_hour", "month_end_with_table"}
        for name in set(examples()) - set(UNLIKE):
            trip, lines = trips_of(name)[0], wave_of(name)
            setup = [trip.reader["lock_after"], trip.reader["holdover"]]
            if table := trip.reader.get("table"):
                days = [table["until"], *(leap["day"] for leap in table["leaps"])]
                setup += map(day_of_text, days)
            said = [line.split(" ", 2) for line in trip.log[:-1] if line[0] != " "]
            wanted = [f"{edge} relay {words}" for edge, _, words in said]
            for ports in [range(lines.count), *[[1]] * (name in alone)]:
                with self.subTest(name, ports=len(ports)):
                    self.assertEqual(self.announced(lines, ports, *setup), wanted)

    @staticmethod
    def troubled(seed: int) -> Wave:
        """Lines, two of them less than a millisecond apart, with jitter, pulses that are lost,
        first ones that are cut short, and cables that are pulled out."""
        by, lines = random.Random(seed), wave_of("leap_inserted")
        late = [by.randint(0, 850), by.randint(0, 850), by.randint(0, 1700)]
        lost = {(by.randrange(3), by.randrange(1400)) for _ in range(by.randrange(6))}

        def moved(change: Change) -> list[Change]:
            time, line, level = change
            element, width = divmod(time - waves.FIRST_EDGE_US, waves.ELEMENT_US)
            if (line, element) in lost:
                return []
            if level == 0 and element % 100 == 0 and by.random() < 0.2:
                time += 200 - width
            return [(time + late[line] + by.randint(0, 100), line, level)]

        lines = lines.of(moved)
        for _ in range(by.randrange(5)):
            begin, length = by.randrange(14_000_000), by.randrange(4_000_000)
            cut = waves.pulled(lines.changes, by.randrange(3), begin, begin + length)
            lines = replace(lines, changes=tuple(sorted(cut)))
        return lines

    def test_troubled_lines(self) -> None:
        """A channel on two ports is two lines that agree."""
        words = "--glitch=0", "--reader=relay,2,5", "--start=2016-12-31T23:59:50Z"
        kinds = set()
        for seed, ports in product(range(60), ((0, 1, 2), (0, 2, 2))):
            lines = self.troubled(seed)
            with self.subTest(seed=seed, ports=ports):
                channels = ",".join(f"G{line}" for line in ports)
                text, _ = captured_wave(lines, f"--channels={channels}", *words)
                said = [line for line in log_of(text)[:-1] if line[0] != " "]
                self.assertEqual(said, self.announced(lines, ports, 2, 5))
                kinds |= {line.split()[-1] for line in said}
        self.assertLessEqual({"voted", "held", "no-vote", "acquiring"}, kinds)


class Edges(InAFolder):
    """Where ticks are, by docs/WIRES.md, and which frames are left out."""

    @staticmethod
    def clocks(seconds: int, late: Sequence[int]) -> Wave:
        """Clocks that are so many microseconds late."""
        text = ONE_CLOCK_AHEAD.replace('"n":3', f'"n":{seconds - 4}').replace(":18", ":0")
        return wave_of_text(text).of(lambda change: [(change[0] + late[change[1]], *change[1:])])

    def ticks(self, lines: Wave, *words: str) -> list[tuple[int, bool]]:
        """The time of each tick, and whether lines agree on it."""
        as_table(lines, self.folder / "lines.csv")
        told = TOOL.command().parse_args([str(self.folder / "lines.csv"), *words])
        return [(tick.edge, tick.claim is not None) for tick in TOOL.listened(told)[1]]

    @staticmethod
    def each(first: int, count: int, is_voted: bool = True) -> list[tuple[int, bool]]:
        return [(first + number * waves.SECOND_US, is_voted) for number in range(count)]

    def test_lines_apart(self) -> None:
        """The frames at 350 and 700 us agree, and so do those at 0 and 350 us, earlier."""
        self.assertEqual(self.ticks(self.clocks(7, (0, 350, 700))), self.each(1_050_350, 7))

    def near(self, lines: Wave, edges: Sequence[float], *words: str) -> None:
        """Lines agree at each tick, and it stands within 3 us of its edge."""
        found = self.ticks(lines, *words)
        self.assertEqual([is_voted for _, is_voted in found], [True] * len(edges))
        off = [tick - edge for (tick, _), edge in zip(found, edges)]
        self.assertLessEqual(max(map(abs, off)), 3)

    def test_a_line_with_a_second_of_its_own(self) -> None:
        """The recorder is right. G0 is 0.5 % too fast, and its first frame ends before the others'."""
        lines = self.clocks(7, (0, 0, 0))
        lines = lines.line(0, lambda change: [(change[0] * 995 // 1000, *change[1:])])
        self.near(lines, [1e6 * number + 1_050_000 for number in range(7)])

    def test_a_clock_that_changes(self) -> None:
        """Its second is 5,000 us too long at first, and 8 us less with each second."""

        def by_it(time: int) -> int:
            return round(time * 1.005 - 4 * (time / 1e6) ** 2)

        lines = self.clocks(250, (0, 0, 0))
        lines = lines.of(lambda change: [(by_it(change[0]), *change[1:])])
        self.near(replace(lines, end=by_it(lines.end)), [by_it(1_050_000 + 1_000_000 * n) for n in range(250)])

    def test_a_line_whose_delay_is_known(self) -> None:
        """G1 is 3 ms late. Without that its last pulse comes behind the tick; with it each line is heard."""
        lines = self.clocks(6, (0, 3000, 0))
        late, short = "G1 is 3.0 ms late of most lines", " ok fault:1:Short:99 ok"
        for words, heard, is_late in ([], short, True), (["--delay=0,3000,0"], " ok ok ok", False):
            text, said = captured_wave(lines, *words)
            told = [line for line in log_of(text) if line[0] == " "]
            self.assertEqual([line for line in told if not line.endswith(heard)], [])
            self.assertEqual((len(told), late in said), (6, is_late))
            self.assertEqual(self.ticks(lines, *words), self.each(1_050_000, 6))
        self.assertIn("29:59.950Z, by 3 of 3 lines, within 0 us\n", said)

    def test_lines_that_agree_by_their_delays_alone(self) -> None:
        """Of any two one is too late for the other. By a recorder that is 0.5 % too fast, tick 1 is at 1.05 s
        times 1.005."""
        for late in (0, 1500, 3000), (0, -4000, 4000):
            lines, words = self.clocks(6, late), "--delay={},{},{}".format(*late)
            with self.assertRaisesRegex(ValueError, "most ports never claim one second within 0.9 ms"):
                captured_wave(lines)
            self.assertEqual(self.ticks(lines, words), self.each(1_050_000, 6))
            self.near(scaled(lines, 1_005_000), [1_055_250 + 1_005_000 * n for n in range(6)], words)

    def test_a_delay_of_all_lines(self) -> None:
        lines = self.clocks(6, (1500, 1500, 1500))
        self.assertEqual(self.ticks(lines), self.each(1_051_500, 6))
        self.assertEqual(self.ticks(lines, "--delay=1500"), self.each(1_050_000, 6))
        self.assertEqual(self.ticks(lines, "--delay=1500", "--channels=G1"), self.each(1_050_000, 6))

    def test_how_exact_lines_are(self) -> None:
        """Lines that are exact to 10 us, so off by 9 at most, end within 18 us of each other. Of the ends of
        three lines the edge is the one in the middle."""
        late = "G2 is 82 us late of most lines, and --exact=10 allows less\n"
        lines = self.clocks(6, (0, 18, 100))
        self.assertEqual(self.ticks(lines, "--exact=10"), self.each(1_050_018, 6))
        self.assertIn(late, captured_wave(lines, "--exact=10")[1])
        self.assertNotIn(" of most lines", captured_wave(lines)[1])
        lines = self.clocks(6, (0, 19, 100))
        with self.assertRaisesRegex(ValueError, "most ports never claim one second within 0.02 ms"):
            captured_wave(lines, "--exact=10")
        words = "--exact=10", "--delay=0,19,100"
        self.assertEqual(self.ticks(lines, *words), self.each(1_050_000, 6))
        self.near(scaled(lines, 995_000), [1_044_750 + 995_000 * n for n in range(6)], *words)

    def test_clocks_that_say_how_far_off_they_are(self) -> None:
        """By quality 7, which is 1 ms, two of three lines agree that end 2.8 ms apart, and not 2.9 ms. A line that
        ends 1.2 ms before two others is too early, unless its clock says that it may be 1 ms off."""
        early, text = "G0 is 1.2 ms early of most lines", ONE_CLOCK_AHEAD.split("\n")[0]
        says_7 = "".join(f'\n{{"do":"fault","g":{of},"kind":"quality","q":7}}' for of in range(3))
        for says, is_early in ("", True), (says_7, False):
            lines = wave_of_text(text + says + '\n{"do":"seconds","n":6}\n')
            late = lines.of(lambda change: [(change[0] + (0, 1200, 1300)[change[1]], *change[1:])])
            self.assertEqual(self.ticks(late), self.each(1_051_200, 6))
            self.assertEqual(early in captured_wave(late)[1], is_early)
        for late_us, says in (2_898, "6 ticks: "), (2_899, "most ports never claim one second within 2.9 ms"):
            apart = lines.of(lambda change: [(change[0] + late_us * (change[1] == 1), *change[1:])] * (change[1] < 2))
            try:
                said = captured_wave(apart)[1]
            except ValueError as fault:
                said = str(fault)
            self.assertIn(says, said)

    def test_a_frame_that_is_not_kept(self) -> None:
        """G1 ends each half a second late, and is lost behind the second one."""
        lines = self.clocks(6, (0, 500_000, 0))
        lines = lines.line(1, lambda change: [change] * (change[0] < 2_550_000))
        log = [" 2 relay ok fault:1:Short:50 ok", " 3 relay ok silence ok"]
        self.assertEqual(log_of(captured_wave(lines)[0])[3:7:2], log)

    def test_pulses_that_are_stuck(self) -> None:
        """The last pulse of the first frames lasts for two seconds, so that no port hears it. The first whole
        frames behind it end at 4.05 s."""
        lines = self.clocks(6, (0, 0, 0))
        lines = lines.of(lambda change: [change] * (change[0] <= 1_040_000 or change[0] > 3_045_000))
        self.assertEqual(self.ticks(lines), self.each(4_050_000, 3))

    def test_frames_too_far_apart(self) -> None:
        """G1, between two lines that are 1.2 ms apart, is lost after three seconds."""
        lines = self.clocks(6, (0, 600, 1200))
        lines = lines.line(1, lambda change: [change] * (change[0] < 3_050_600))
        held = self.each(4_050_600, 3, False)
        self.assertEqual(self.ticks(lines), self.each(1_050_600, 3) + held)
        log = ["4 relay 2026-11-24T09:30:04Z holdover:1 held", " 4 relay silence silence silence"]
        self.assertEqual(log_of(captured_wave(lines)[0])[6:8], log)
        with self.assertRaisesRegex(ValueError, "most ports never claim one second within 0.9 ms"):
            captured_wave(self.clocks(6, (0, 1001, 2002)))


class Lines(unittest.TestCase):
    """Lines that are inverted, cut, or no B004."""

    def said_of(self, lines: Wave, name: str = "G1") -> list[str]:
        """What is said of a line."""
        said = captured_wave(lines)[1].splitlines()
        begin = next(n for n, line in enumerate(said) if line.startswith(f"{name}: "))
        end = next(n for n in range(begin + 1, len(said)) if not said[n].startswith("  "))
        return [line.strip() for line in said[begin:end]]

    def replaced(self, changes: Iterable[tuple[int, int]]) -> Wave:
        """Line 1 with these changes in place of its own."""
        lines = wave_of("leap_inserted").line(1, lambda change: [])
        other = ((time, 1, level) for time, level in changes)
        return replace(lines, changes=tuple(sorted([*lines.changes, *other])))

    def test_a_polarity_that_is_said(self) -> None:
        lines = wave_of("leap_inserted")
        with self.assertRaisesRegex(ValueError, "most ports never claim one second within 0.9 ms"):
            captured_wave(lines, "--polarity=inverted")
        text, _ = captured_wave(lines, "--polarity=normal")
        self.assertEqual(log_of(text), wanted_of("leap_inserted"))

    def test_begins_in_the_middle(self) -> None:
        begin = 2_354_000  # within a pulse of element 30 of 23:59:52
        lines = wave_of("leap_inserted")
        levels = {line: level for time, line, level in lines.changes if time < begin}
        first = [(0, line, level) for line, level in levels.items()]
        rest = [(time - begin, line, level) for time, line, level in lines.changes if time >= begin]
        text, said = captured_wave(Wave(3, (*first, *rest), lines.end - begin))
        self.assertEqual(json.loads(text.split("\n")[0])["start"], "2016-12-31T23:59:53Z")
        wanted = [line.split(" ", 2)[2] for line in wanted_of("leap_inserted") if " locked" in line]
        log = [line.split(" ", 2)[2] for line in log_of(text) if " locked" in line]
        self.assertEqual(log, wanted[3:])
        first = "2016-12-31T23:59:53Z: the second that ends at tick 1, by G0, G1, G2"
        zero = "0.000 s of the recording is 2016-12-31T23:59:52.304Z, by 3 of 3 lines, within 0 us"
        self.assertIn(f"start {first}\n{zero}\n", said)

    def test_ends_in_the_middle(self) -> None:
        lines = wave_of("leap_inserted")
        for end, ticks in ((7_046_000, 6), (7_049_000, 7), (7_055_000, 7)):
            early = tuple(change for change in lines.changes if change[0] < end)
            text, said = captured_wave(Wave(3, early, end))
            self.assertIn(f"\n{ticks} ticks: tick 1 is at 1.050 s of the recording, ", said)
            self.assertEqual(log_of(text)[: 2 * ticks], wanted_of("leap_inserted")[: 2 * ticks])

    def test_nothing_on_it(self) -> None:
        self.assertEqual(
            self.said_of(self.replaced([])),
            ["G1: 0 pulses, 0 frames, 0 pulses out of step", "nothing is on it"],
        )

    def test_one_pulse(self) -> None:
        self.assertEqual(
            self.said_of(self.replaced([(500_000, 1), (508_000, 0)])),
            ["G1: 1 pulses, 0 frames, 0 pulses out of step",
             f"P   {1:8}  8.000 to 8.000 ms, mean 8.000", "one pulse alone is on it"],
        )

    def test_a_few_pulses(self) -> None:
        """Two of three gaps are of 10 ms, and one of two. Of the last ones none is a zero."""
        for rises, widths, last in (
            ((500, 510, 520, 540), (2, 2, 2, 2), "no frame begins: never do two markers follow each other"),
            ((500, 520, 530), (2, 2, 2), ONE_MS.replace("1 ms", "20 ms") + ": another code, or a modulated one"),
            ((500, 510, 520), (8, 5, 5), "no pulse of 2 ms is on it: a filter of its input, of milliseconds, takes"
                                         " them away"),
        ):
            ends = [1000 * (rise + width) for rise, width in zip(rises, widths)]
            changes = [*((1000 * rise, 1) for rise in rises), *((end, 0) for end in ends)]
            self.assertEqual(self.said_of(self.replaced(changes))[-1], last)

    def test_each_frame_loses_a_pulse(self) -> None:
        def but_one(change: Change) -> list[Change]:
            element = (change[0] - waves.FIRST_EDGE_US) % waves.SECOND_US // waves.ELEMENT_US
            return [] if element == 50 else [change]

        lines = wave_of("leap_inserted").line(1, but_one)
        said = "frames begin, and none has a hundred pulses, each 10 ms behind the one before"
        self.assertEqual(self.said_of(lines)[-1], said)
        self.assertEqual(self.said_of(lines.inverted(1))[-1], said)
        log = log_of(captured_wave(lines)[0])
        self.assertEqual(log.count(" 5 relay ok fault:1:Short:50 ok"), 1)
        self.assertEqual(log_of(captured_wave(lines.inverted(1))[0]), log)

    def test_a_line_that_stays_off(self) -> None:
        """GPS time is 17 s ahead in 10 frames before 23:59:60, and 18 in 4. One frame that is off, in a
        second of its own, is no such line."""
        text = ONE_CLOCK_AHEAD.replace('"n":3', '"n":1')
        once = wave_of_text(text)
        for lines, wanted in (
            (wave_of("gps_time"), ["G2", "+17 s in 10 frames; the first ended at tick 1, 1.050 s"]),
            (wave_of("ignored_leap"), ["G1", "+1 s in 5 frames; the first ended at tick 11, 11.050 s"]),
            (once, []),
        ):
            found = [line for line in captured_wave(lines)[1].splitlines() if " differs " in line]
            self.assertEqual(found, [" differs from most ports by ".join(wanted)] * bool(wanted))

    def test_another_code(self) -> None:
        pulses = range(50_000, 14_000_000, 1_000)  # as of IRIG-A
        said = self.said_of(self.replaced(
            change for time in pulses for change in ((time, 1), (time + 500, 0))
        ))
        self.assertEqual(said[-1], f"{ONE_MS}: another code, or a modulated one")

    def test_a_modulated_one(self) -> None:
        """A sine of 1 kHz through a comparator: pulses are wider while its amplitude is high."""
        changes, is_high = [], dict(
            (time, level) for time, line, level in wave_of("leap_inserted").changes if line == 1
        )
        level = 0
        for time in range(50_000, 14_000_000, 1_000):
            level = is_high.get(time, level)
            changes += [(time, 1), (time + (400 if level else 250), 0)]
        said = self.said_of(self.replaced(changes))
        self.assertEqual(said[-1], f"{ONE_MS}: another code, or a modulated one")

    def test_no_second_marker(self) -> None:
        """Element 0 is a zero, so that no two markers follow each other."""

        def without(change: Change) -> list[Change]:
            time, line, level = change
            is_end = level == 0 and time % waves.SECOND_US == waves.FIRST_EDGE_US + 8_000
            return [(time - 6_000, line, 0) if is_end else change]

        said = self.said_of(wave_of("leap_inserted").line(1, without))
        self.assertEqual(said[0], "G1: 1400 pulses, 0 frames, 1400 pulses out of step")
        self.assertEqual(said[-1], "no frame begins: never do two markers follow each other")

    @staticmethod
    def cleared(first: int, end: int) -> Callable[[Change], list[Change]]:
        """The ones at these elements are zeros."""

        def changed(change: Change) -> list[Change]:
            time, line, level = change
            element = (time - waves.FIRST_EDGE_US) % waves.SECOND_US // waves.ELEMENT_US
            width = (time - waves.FIRST_EDGE_US) % waves.ELEMENT_US
            is_one = level == 0 and first <= element < end and width == 5_000
            return [(time - 3_000, line, 0) if is_one else change]

        return changed

    def test_without_the_bits_of_ieee_1344(self) -> None:
        """A clock of 2000 has its year 0 and bits in some frames; one without a leap second or an offset has
        a year."""
        for first, end, last in (
            (50, 79, "its year and control bits are all 0, as of a clock without those of IEEE 1344"),
            (50, 59, "a second is 0.0 ppm longer than one of the recorder"),
            (60, 79, "a second is 0.0 ppm longer than one of the recorder"),
        ):
            self.assertEqual(self.said_of(wave_of("leap_inserted").line(1, self.cleared(first, end)))[-1], last)

    def test_without_straight_binary_seconds(self) -> None:
        lines = wave_of("plain_minute").of(self.cleared(80, 98))
        reason = "at last G0 told fault 18 Sbs, .*; --sbs=ignore reads clocks without straight binary seconds$"
        with self.assertRaisesRegex(ValueError, reason):
            captured_wave(lines)
        self.assertEqual(log_of(captured_wave(lines, "--sbs=ignore")[0]), wanted_of("plain_minute"))

    def test_an_offset_is_read_by_both_senses(self) -> None:
        """Paris and India; London has none before 01:00:00."""
        said = captured_wave(wave_of("zone_change"))[1]
        said += captured_wave(wave_of("zone_change"), "--channels=G2", "--sense=subtract")[1]
        form, day = "    it sends an offset of {}, read by {!r} as {}; by {!r} it would be {}", "2016-03-27T"
        self.assertEqual([line for line in said.splitlines() if " offset " in line], [
            form.format("-1:00", "add", f"{day}00:59:54Z", "subtract", f"{day}02:59:54Z"),
            form.format("-1:00", "add", f"{day}01:00:00Z", "subtract", f"{day}03:00:00Z"),
            form.format("-5:30", "add", f"{day}00:59:54Z", "subtract", f"{day}11:59:54Z"),
            form.format("-5:30", "subtract", f"{day}11:59:54Z", "add", f"{day}00:59:54Z"),
        ])


class Tables(InAFolder):
    """What stands above the rows of a table, and where edges are in what is below."""

    def changes(self, text: str, threshold: float | None = None) -> list[tuple[float, int, int]]:
        """Those of the first channel."""
        path = self.folder / "a.csv"
        path.write_text(text, encoding="utf-8")
        return [(round(time, 6), place, level) for time, place, level in open_recording(path, threshold).changes([0])]

    def test_rates(self) -> None:
        """Of sigrok, where a row is a sample."""
        for rate, step in ("5", 2e5), ("2.5 kHz", 400), ("2 MHz", 0.5), ("1 GHz", 0.001), ("10000 Hz", 100):
            found = self.changes(f"; Samplerate: {rate}\nlogic\n0\n1\n1\n")
            self.assertEqual(found, [(0, 0, 0), (step, 0, 1), (2 * step, END, 0)], rate)

    def test_times(self) -> None:
        """In the unit that the head names. Sigrok's own are whole, and cut: of 3 MHz each is 333 ns."""
        for head, us in ("Time [s]", 1e6), ("Time (ms)", 1e3), ("time[\u00b5s]", 1), ("Time [ns]", 1e-3), ("Time", 1e6):
            found = self.changes(f"{head},a\n-1,0\n2,1\n3,1\n")
            self.assertEqual(found, [(-us, 0, 0), (2 * us, 0, 1), (3 * us, END, 0)], head)
        found = self.changes("META samplerate: 3000000\nNanoseconds,a\n333,0\n666,1\n999000,1\n")
        self.assertEqual(found, [(0, 0, 0), (0.333333, 0, 1), (round(2999 / 3, 6), END, 0)])

    def test_volts_about_the_threshold(self) -> None:
        """The most that they are off 2 V is 2 V, so that an edge has to pass it by 0.2 V."""
        rows = enumerate((0, 2.1, 2.3, 1.9, 1.7, 2.1))
        found = self.changes("Time [us],a\n" + "".join(f"{time},{volts}\n" for time, volts in rows), 2)
        self.assertEqual(found, [(0, 0, 0), (2, 0, 1), (4, 0, 0), (5, END, 0)])

    def test_levels_that_are_short_or_twice(self) -> None:
        """A pulse of 20 us is none, and one that a dump says twice is one."""
        changes = [(0, 0, 0), (100, 0, 1), (120, 0, 0), (200, 0, 1), (230, 0, 1), (300, 0, 0), (400, END, 0)]
        found = list(without_glitches(changes, 50))
        self.assertEqual(found, [(0, 0, 0), (200, 0, 1), (300, 0, 0), (400, END, 0)])


class BySigrok(InAFolder):
    """What sigrok-cli makes of a recording, by a stand-in that prints a text."""

    def read(self, name: str, printed: str, status: int) -> list[tuple[float, int, int]]:
        (self.folder / "printed").write_text(printed)
        tool = self.folder / "sigrok-cli"
        tool.write_text(f"#!/bin/sh\n/bin/cat '{self.folder}/printed'\nexit {status}\n")
        tool.chmod(0o755)
        with mock.patch.dict("os.environ", PATH=str(self.folder)):
            return list(open_recording(self.folder / name, None).changes([0]))

    def test_it_breaks_off(self) -> None:
        dump = "$timescale 1 us $end $var wire 1 ! a $end $enddefinitions $end\n#0 0! #7 1!"
        (self.folder / "a.sr").write_bytes(b"")
        self.assertEqual(self.read("a.sr", dump, 0), [(0, 0, 0), (7, 0, 1), (7, END, 0)])
        for printed, said in (dump, "broke off"), ("", "does not read it"):
            self.assertRaisesRegex(ValueError, f"sigrok-cli {said}", self.read, "a.sr", printed, 1)

    def test_sounds(self) -> None:
        """Of 8 bits sigrok's numbers are 0 to 1, and of 16 bits -1 to 1."""
        for bytes_each, changes in (1, [(0, 0, 0), (1000, 0, 1)]), (2, [(0, 0, 1)]):
            with wave.open(str(self.folder / "a.wav"), "wb") as sound:
                sound.setparams((1, bytes_each, 1000, 0, "NONE", ""))
            found = self.read("a.wav", "; Samplerate: 1 kHz\na\n0.4\n0.6\n", 0)
            self.assertEqual(found, [*changes, (1000, END, 0)])


class Words(InAFolder):
    def refused(self, *words: object) -> str:
        ran = subprocess.run(
            [ROOT / "tools/capture", *map(str, words)], capture_output=True, text=True
        )
        self.assertEqual((ran.returncode, ran.stdout), (2, ""))
        return ran.stderr

    def test_what_is_no_recording(self) -> None:
        for name, text, reason in (
            ("a.txt", "", "it ends with none of .vcd, .sr, .csv, .wav"),
            ("a.vcd", "#0\n1!\n", "it has no $enddefinitions"),
            ("a.vcd", "$enddefinitions $end\n", "it has no $timescale"),
            ("a.sr", "no zip", "sigrok-cli "),  # is missing, or does not read it
            ("a.csv", "", "it has no line with the names of its columns"),
            ("a.csv", "a,b,c\n0,0,0\n", "its first column is no time"),
            ("a.csv", "Time [s];a\n0,0;1\n", "no ',' stands between its columns"),
            ("a.csv", "Time [days],a\n0,0\n", "'days' is no unit of times"),
            ("a.csv", "Time [s],a\n", "it has no row"),
            ("a.csv", "Time [s],a\n0,0\n0.1,2.7\n", "'2.7' is no level, 0 or 1"),
            ("a.csv", "Time [s],a,b,c\n0,0\n", "its row 1 has fewer columns than names"),
            ("a.csv", "Time [s],a\n0.2,0\n0.1,1\n", "its times go back"),
            ("a.csv", "Time [s],a\nsoon,0\n", "could not convert string to float: 'soon'"),
            ("a.csv", "; Samplerate: often\nlogic\n0\n", "'often' is no rate of samples"),
            ("a.csv", "META samplerate: 10000\nTime,a\n0,0\n", "its times are all 0"),
            ("a.wav", "no sound", "it is no sound"),
        ):
            with self.subTest(reason):
                (self.folder / name).write_text(text)
                self.assertIn(f"{name}: {reason}", self.refused(self.folder / name))

    def test_words(self) -> None:
        path = self.folder / "lines.csv"
        as_table(wave_of("plain_minute"), path)
        self.assertIn("no channel 'G7'; it has G0, G1, G2", self.refused(path, "--channels=G7"))
        two = "one, three or five of its channels, as two cannot outvote each other: G0, G1, G2"
        self.assertIn(two, self.refused(path, "--channels=G0,G1"))
        self.assertIn("is not NAME[,LOCK_AFTER[,HOLDOVER]]", self.refused(path, "--reader=relay,x"))
        self.assertIn("is no second served", self.refused(path, "--start=2016"))
        for leap in "2016-12-31:never", "2017-01-01":
            self.assertIn("is not DAY or DAY:delete", self.refused(path, f"--leap={leap}"))
        for us in "0", "451", "-1", "1.5", "":
            self.assertIn(f"{us!r} is not a whole number from 1 to 450", self.refused(path, f"--exact={us}"))
        for us in "4001", "0,-4001,0", "2,,3", "1e3", "":
            self.assertIn(" is not a whole number from -4000 to 4000", self.refused(path, f"--delay={us}"))
        many = "--delay has to be one number, or as many as the 3 lines: G0, G1, G2"
        for us in "1,2", "1,2,3,4":
            self.assertIn(f"lines.csv: {many}\n", self.refused(path, f"--delay={us}"))
        one = "--delay has to be one number, or as many as the one line"
        self.assertIn(f"lines.csv: {one}\n", self.refused(path, "--channels=G1", "--delay=1,2,3"))
        self.assertIn("No such file", self.refused(self.folder / "none.vcd"))

    def test_a_long_holdover(self) -> None:
        """It may be longer than that of any timekeeper whose counter is 100 parts in a million off."""
        text, _ = captured_wave(wave_of("plain_minute"), "--reader=relay,2,1000000")
        self.assertIn('"holdover":1000000', text.split("\n")[0])
        self.assertEqual(from_first_vote(log_of(text)), from_first_vote(wanted_of("plain_minute")))

    def test_without_the_libraries(self) -> None:
        for name in ("tools/capture", "tools/parts", "python/irig", "c/layout.txt", "docs/FAULTS.md"):
            source, copy = ROOT / name, self.folder / name
            copy.parent.mkdir(exist_ok=True)
            shutil.copytree(source, copy) if source.is_dir() else shutil.copy(source, copy)
        tool = self.folder / "tools/capture"
        recording = ROOT / "examples/one_clock_ahead.vcd"
        ran = subprocess.run([tool, recording], capture_output=True, text=True)
        self.assertEqual((ran.returncode, ran.stdout), (2, ""))
        self.assertEqual(
            ran.stderr,
            f"capture: there is no {IRIG}: in a folder of irig's sources that one may write, `make -C c` makes it\n",
        )
        ran = subprocess.run([tool, "--help"], capture_output=True, text=True)
        self.assertEqual((ran.returncode, ran.stderr), (0, ""))
        self.assertTrue(ran.stdout.startswith("for example:\n"))

    def test_without_sigrok(self) -> None:
        shutil.copy(ROOT / "examples/one_clock_ahead.vcd", self.folder / "a.sr")
        words = [sys.executable, ROOT / "tools/capture", self.folder / "a.sr"]
        ran = subprocess.run(words, env={"PATH": str(self.folder)}, capture_output=True, text=True)
        self.assertIn("a.sr: sigrok-cli is missing, which reads it", ran.stderr)

    def test_what_ports_tell_that_claim_nothing(self) -> None:
        with self.assertRaisesRegex(ValueError, "0.9 ms; at last G0 told fault 17 Parity, .*; --parity=odd"):
            captured_wave(wave_of("odd_parity_and_subtract"))

    def test_frames_that_claim_nothing_at_first(self) -> None:
        """Up to the leap second's end two lines have a bad pulse in each frame, element 3."""

        def damaged(change: Change) -> list[Change]:
            time, line, level = change
            is_bad = line > 0 and level == 0 and time < 11_050_000 and time // 10_000 % 100 == 8
            return [(time - time % waves.ELEMENT_US + 9_700, line, 0) if is_bad else change]

        lines, leap = wave_of("leap_inserted").of(damaged), {"day": "2016-12-31", "kind": "insert"}
        for words, leaps in ([], []), (["--leap=2016-12-31"], [leap]):
            text, said = captured_wave(lines, *words)
            self.assertIn("0.000 s of the recording is 2016-12-31T23:59:49.950Z, by ", said)
            self.assertEqual(json.loads(text.split("\n")[0])["leaps"], leaps)
            self.assertEqual(said.count("leap 2016-12-31 insert: by --leap\n"), len(leaps))
        self.assertIn("3 ticks: tick 1 is at 12.050 s of the recording", said)
        self.assertIn("start 2017-01-01T00:00:00Z: the second that ends at tick 1, by G0, G1, G2", said)


if __name__ == "__main__":
    unittest.main()
