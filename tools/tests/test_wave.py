#!/usr/bin/env python3
"""Tests of wave: its lines are those that tests/waves.py plays, which owes nothing to the program,
for all examples and cases that run to their end, of readers and of devices; each form of a file has the
same changes; what no line carries is said; and a long scenario takes no more memory than a short one."""
from __future__ import annotations

import json
import math
import os
import shutil
import subprocess
import textwrap
import unittest
import wave
from collections.abc import Iterable, Sequence
from fractions import Fraction
from functools import cache
from pathlib import Path
from unittest import mock

import loading
from loading import ROOT

from case_files import all_cases, of_readers
from parts.recordings import open_recording
from waves import ELEMENT_US, Change, Widths, changes_of, changes_of_pulses, pulses_of_device, seconds_of

TOOL = ROOT / "tools/wave"
ENVIRONMENT = {**os.environ, "IRIG": str(ROOT / "crates/irig_main/out/irig_main")}
CSV_RATE, SOUND_RATE, RECORD_RATE = 10_000, 48_000, 4_800
# What the tool says of the lines themselves; all else is about what they do not carry.
DONE = r"\d+(\.\d*[1-9])? seconds of \S+ on [35] lines"

PLANT = {
    "version": 1, "start": "2016-06-15T12:00:00Z", "leaps": [], "parity": "even", "sense": "add",
    "sbs": "check", "generators": [{"local": 0}] * 3,
    "readers": [{"name": name, "lock_after": 2, "holdover": 60} for name in ("relay", "meter")],
}
DEVICE = {"name": "relay", "lock_after": 2, "holdover": 60, "drift": 20}
METER = {**DEVICE, "name": "meter", "late": [100, 200, 300]}
# The examples of devices that are compared.
STATIONS = ("leap_stamped", "liar_outvoted", "bound_grows", "two_cables", "late_lines")


def run(*words: object, given: str = "", **more: str) -> subprocess.CompletedProcess[str]:
    return subprocess.run(
        [TOOL, *map(str, words)], input=given, capture_output=True, text=True, timeout=300,
        env={**ENVIRONMENT, **more},
    )


def scenario_of(*events: dict) -> str:
    return "".join(json.dumps(one) + "\n" for one in (PLANT, *events))


def station_of(*events: dict, devices: Sequence[dict] = (DEVICE, METER)) -> str:
    plant = {key: value for key, value in PLANT.items() if key != "readers"}
    lines = ({**plant, "version": 4, "devices": devices}, *events)
    return "".join(json.dumps(one) + "\n" for one in lines)


def on_line(do: str, line: int, device: str = "relay", **more: int) -> dict:
    return {"do": do, "g": line, "r": device, **more}


def passing(us: int) -> dict:
    return {"do": "pass", "us": us}


def seconds(n: int) -> dict:
    return {"do": "seconds", "n": n}


def raw(line: int, *widths: int, reader: str = "relay") -> dict:
    return {"do": "raw", "g": line, "r": reader, "widths": list(widths)}


def tick(reader: str = "relay") -> dict:
    return {"do": "tick", "r": reader}


@cache
def scenarios() -> dict[str, str]:
    """Those of examples and cases that run to their end, by name, but for those of devices."""
    ran = [case for case in of_readers(all_cases()) if case.status == 0]
    return {case.name: (ROOT / case.scenario).read_text() for case in ran if case.scenario}


def stations() -> dict[str, str]:
    """Those of devices, of at most some minutes."""
    ran = [case for case in all_cases() if case.scenario and case.status == 0]
    texts = {case.name: (ROOT / case.scenario).read_text() for case in ran}
    return {name: text for name, text in texts.items() if name not in scenarios() and length_of(text) <= 300}


def length_of(text: str) -> int:
    """How many seconds a scenario of devices takes."""
    events = [json.loads(line) for line in text.splitlines() if line.strip()][1:]
    return sum(event["n"] if event["do"] == "seconds" else event.get("us", 0) / 1e6
               for event in events if event["do"] in ("seconds", "pass"))


def is_carried(seconds: Sequence[list[Widths]]) -> bool:
    """Whether tests/waves.py draws these pulses as they are."""
    widths = [width for second in seconds for line in second for width in line]
    return all(width < ELEMENT_US for width in widths)


# ---- files


def recorded(path: Path) -> tuple[list[Change], int]:
    """The changes of a recording, from its beginning on, and its end."""
    recording = open_recording(path, None)
    found = [(round(time), line, level) for time, line, level in recording.changes(range(len(recording.names)))]
    return sorted(found[:-1]), found[-1][0]


def changes_in(rows: Iterable[tuple[int, Sequence[int]]]) -> list[Change]:
    """Changes of rows with a time and a level for each line."""
    found, before = [], None
    for time, levels in rows:
        for line, level in enumerate(levels):
            if before is None or before[line] != level:
                found.append((time, line, level))
        before = levels
    return found


def heard(path: Path) -> tuple[list[Change], int, int]:
    """The changes of a sound by the numbers of its samples, how many there are, and their rate."""
    with wave.open(str(path)) as sound:
        count, length, rate = sound.getnchannels(), sound.getnframes(), sound.getframerate()
        assert sound.getsampwidth() == 2
        data = sound.readframes(length)
    assert len(data) == 2 * count * length
    samples = memoryview(data).cast("h")
    rows = ((n, [int(value > 0) for value in samples[n * count : (n + 1) * count]])
            for n in range(length))
    return changes_in(rows), length, rate


def nearest(time: int, rate: int) -> int:
    """The number of the sample that is nearest to a time, of two the later."""
    return math.floor(Fraction(time * rate, 1_000_000) + Fraction(1, 2))


class InAFolder(loading.InAFolder):
    def made(self, text: str, name: str = "lines.vcd", *words: str, said: str = "") -> Path:
        """The file that the tool makes of a scenario, of which it has to say no more than this."""
        path = self.folder / name
        ran = run("-", "-o", path, *words, given=text)
        self.assertEqual((ran.returncode, ran.stdout), (0, ""), ran.stderr)
        self.assertRegex(ran.stderr, f"\\A{said}{DONE}\n\\Z")
        return path


# ---- tests


class Waves(InAFolder):
    def test_each_scenario(self) -> None:
        """The lines of the first reader, but of those with pulses that run into the next."""
        count = 0
        for name, text in scenarios().items():
            seconds = seconds_of(text)
            if is_carried(seconds):
                with self.subTest(name):
                    changes, end = recorded(self.made(text, said="(.*\n)*"))
                    self.assertEqual(changes, [*self.low(text), *changes_of(seconds)])
                    self.assertEqual(end, 70_000 + 1_000_000 * len(seconds))
                    count += 1
        print(f"scenarios: {count}")
        self.assertGreater(count, 60)

    @staticmethod
    def low(text: str) -> list[Change]:
        plant = json.loads(next(line for line in text.splitlines() if line.strip()))
        return [(0, line, 0) for line in range(len(plant["generators"]))]

    def test_the_reader_that_is_named(self) -> None:
        text = scenario_of(raw(0, 8000), raw(1, 2000, reader="meter"), tick("meter"), tick())
        for words, line, width in (([], 0, 8000), (["--reader=meter"], 1, 2000)):
            changes, _ = recorded(self.made(text, "lines.vcd", *words))
            self.assertEqual(changes[3:], [(50_000, line, 1), (50_000 + width, line, 0)])

    def test_a_file_that_is_named(self) -> None:
        named = ROOT / "examples/five_ports.jsonl"
        ran = run(named, "-o", self.folder / "a.vcd")
        self.assertEqual((ran.returncode, ran.stderr), (0, "16 seconds of relay on 5 lines\n"))
        given = self.made(named.read_text(), "b.vcd")
        self.assertEqual((self.folder / "a.vcd").read_bytes(), given.read_bytes())

    def test_a_unit_that_all_changes_allow(self) -> None:
        for width, unit in ((8000, 100), (8010, 10), (8001, 1)):
            path = self.made(scenario_of(raw(2, width), tick()))
            self.assertIn(f"$timescale {unit} us $end\n", path.read_text())
            self.assertEqual(recorded(path)[0][3:], [(50_000, 2, 1), (50_000 + width, 2, 0)])


class Devices(InAFolder):
    """Lines to a device, beside those that tests/model plays."""

    def compare(self, text: str) -> None:
        """By the first and the last device."""
        names = [device["name"] for device in json.loads(text.strip().splitlines()[0])["devices"]]
        for name in {names[0], names[-1]}:
            with self.subTest(device=name):
                pulses, end = pulses_of_device(text, name)
                path = self.made(text, "lines.vcd", f"--device={name}", said="(.*: edge .*\n)*")
                changes, last = recorded(path)
                self.assertEqual(last, 70_000 + end)
                low = [(0, line, 0) for line in range(len(pulses))]
                self.assertEqual(changes, [*low, *changes_of_pulses(pulses, last)])

    def test_each_scenario(self) -> None:
        found = stations()
        self.assertLessEqual({f"examples/{name}.jsonl" for name in STATIONS}, set(found))
        for name, text in found.items():
            with self.subTest(name):
                self.compare(text)
        print(f"scenarios of devices: {len(found)}")
        self.assertGreater(len(found), 50)

    def test_random_scenarios(self) -> None:
        """Those of tests/stations that take half a minute at most, and of which no line is refused."""
        stations = self.folder / "stations"
        subprocess.run([ROOT / "tests/stations/compile", stations], check=True)
        subprocess.run([stations, "--count", "50", "--into", self.folder], check=True, capture_output=True)
        count = 0
        for path in sorted(self.folder.glob("*.jsonl")):
            text, log = path.read_text(), path.with_suffix(".log").read_text()
            if length_of(text) <= 30 and "refused:" not in log:
                with self.subTest(path.name):
                    self.compare(text)
                    count += 1
        print(f"random scenarios of devices: {count}")
        self.assertGreater(count, 10)

    def changes(self, *events: dict, device: str = "relay", said: str = "") -> list[Change]:
        """The changes of the lines to a device, in microseconds from edge 0."""
        path = self.made(station_of(*events), "lines.vcd", f"--device={device}", said=said)
        return [(time - 50_000, line, level) for time, line, level in recorded(path)[0] if time > 0]

    def test_lateness_holds_for_what_is_sent_from_then_on(self) -> None:
        changes = self.changes(passing(10_000), on_line("late", 1, us=1999), passing(10_001))
        self.assertEqual([time for time, line, _ in changes if line == 1], [0, 8000, 11_999, 13_999, 21_999, 23_999])

    def test_a_cable_that_is_out(self) -> None:
        """It is pulled in a pulse, which is still heard; what is sent when it is plugged is heard."""
        changes = self.changes(passing(1), on_line("pull", 0), passing(29_999), on_line("plug", 0), passing(1))
        rises = [[time for time, of, level in changes if of == line and level] for line in range(3)]
        self.assertEqual(rises, [[0, 30_000], [0, 10_000, 20_000, 30_000], [0, 10_000, 20_000, 30_000]])

    def test_a_busy_line(self) -> None:
        """A line is busy from when its pulse is sent, late or not, up to its end, which comes behind events and
        before what is sent. The first one here is sent at 0, and rises at 300."""
        on = [passing(200), on_line("pulse", 2, "meter", width=5), passing(8100), on_line("pulse", 2, "meter", width=5),
              passing(1), on_line("pulse", 2, "meter", width=1699), passing(1700)]
        changes = self.changes(*on, device="meter", said="a pulse rises as the one before .*: edge 0\n" * 0)
        self.assertEqual([time for time, line, _ in changes if line == 2], [300, 8300, 8301, 10_000, 10_300, 12_300])

    def test_a_pulse_by_hand_is_not_late_and_needs_no_cable(self) -> None:
        changes = self.changes(passing(9000), on_line("pull", 2, "meter"), on_line("pulse", 2, "meter", width=500),
                               passing(1000), device="meter")
        self.assertEqual([time for time, line, _ in changes if line == 2], [300, 8300, 9000, 9500])

    def test_a_pulse_at_edge_0(self) -> None:
        """It comes before what is sent there."""
        changes = self.changes(on_line("pulse", 0, width=3000), passing(1))
        self.assertEqual([time for time, line, _ in changes if line == 0], [0, 3000])

    def test_a_pulse_over_the_end(self) -> None:
        """It lasts to the end of the file; what would rise later is not there."""
        path = self.made(station_of(passing(9000), on_line("pulse", 0, width=500_000), passing(1)))
        changes, end = recorded(path)
        self.assertEqual([time for time, line, _ in changes if line == 0], [0, 50_000, 58_000, 59_000])
        self.assertEqual(end, 79_001)
        for width in (20_000, 20_001):  # to the last microsecond, or just over the end
            self.compare(station_of(passing(9000), on_line("pulse", 0, width=width), passing(1)))

    def test_what_no_line_carries(self) -> None:
        """Of another device nothing is said."""
        wide, none = (on_line("pulse", 0, width=width) for width in (1000, 0))
        touches = "a pulse rises as the one before it ends, and a line shows both as one"
        for events, said in (
            ([seconds(2), {"do": "restart", "r": "relay"}], "a restart is no matter of lines, and left out: edge 2"),
            ([passing(9500), none, seconds(1)], "a pulse of 0 us is none on a line: edge 0"),
            ([passing(10_000), none, seconds(1)], "a pulse of 0 us is none on a line: edge 0"),
            ([passing(9000), wide, seconds(1)], f"{touches}: edge 0"),
            ([passing(9000), wide, seconds(3), wide, seconds(1), wide, seconds(1)], f"{touches}: edge 0 and 2 more"),
        ):
            with self.subTest(said):
                self.made(station_of(*events), said=f"{said}\n")
                self.made(station_of(*events), "lines.vcd", "--device=meter")

    def test_what_touches_is_one(self) -> None:
        changes = self.changes(passing(9000), on_line("pulse", 0, width=1000), passing(1001), said=".*: edge 0\n")
        self.assertEqual([time for time, line, _ in changes if line == 0], [0, 8000, 9000, 12_000])

    def test_faults_begin_with_the_next_frame(self) -> None:
        silent, repair = {"do": "fault", "g": 1, "kind": "silent"}, {"do": "repair", "g": 1}
        changes = self.changes(seconds(1), silent, passing(500_000), repair, seconds(2))
        begun = [line for time, line, level in changes if level and time % 1_000_000 == 0]
        self.assertEqual(begun, [0, 1, 2, 0, 2, 0, 1, 2, 0, 1, 2])
        self.assertEqual(sum(line == 1 for time, line, _ in changes if 1_000_000 <= time < 2_000_000), 0)

    def test_the_device_that_is_named(self) -> None:
        text = station_of(passing(1))
        for words, late in (([], 0), (["--reader=meter"], 300), (["--device=meter"], 300)):
            changes, _ = recorded(self.made(text, "lines.vcd", *words))
            self.assertIn((50_000 + late, 2, 1), changes)

    def test_how_long_it_is(self) -> None:
        for events, said in (
            ([], "0"), ([seconds(0)], "0"), ([seconds(10)], "10"), ([seconds(1), passing(950_000)], "1.95"),
            ([passing(1)], "0.000001"),
        ):
            ran = run("-", "-o", self.folder / "a.vcd", given=station_of(*events))
            self.assertEqual(ran.stderr, f"{said} seconds of relay on 3 lines\n")

    def test_blank_lines(self) -> None:
        text = station_of(passing(10_000), on_line("late", 0, us=7), passing(1))
        dump = self.made(text).read_bytes()
        self.assertEqual(self.made(" \t\n\n" + text.replace("\n", "\r\n \n"), "b.vcd").read_bytes(), dump)
        self.assertEqual(self.made(text.rstrip("\n"), "c.vcd").read_bytes(), dump)

    def test_up_to_the_end_of_the_years(self) -> None:
        """The second behind its last edge is none that is served."""
        last = station_of(seconds(2)).replace(PLANT["start"], "2099-12-30T23:59:58Z")
        ran = run("-", "-o", self.folder / "a.vcd", given=last + json.dumps(passing(1)) + "\n")
        self.assertIn("wave: -: refused: line 3: 22 EndOfYears", ran.stderr)
        self.compare(last)

    def test_a_pulse_in_which_others_come(self) -> None:
        """Its row comes last, when it ends."""
        on = [passing(9000), on_line("pulse", 0, width=2_500_000), seconds(3)]
        self.compare(station_of(*on))
        changes = self.changes(*on)
        self.assertEqual([time for time, line, _ in changes if line == 0][2:4], [9000, 2_509_000])
        self.assertEqual(changes, sorted(changes))


class Forms(InAFolder):
    def test_the_same_changes(self) -> None:
        for name in ("leap_inserted", "zone_change", "pulled_cable", "five_ports", "leap_stamped"):
            text = (ROOT / f"examples/{name}.jsonl").read_text()
            for words in ([], ["--invert"]):
                with self.subTest(name, words=words):
                    wanted, end = recorded(self.made(text, "a.vcd", *words))
                    self.assertEqual(recorded(self.made(text, "a.csv", "--changes", *words)), (wanted, end))
                    self.compare_samples(text, wanted, end, words)

    def compare_samples(self, text: str, wanted: list[Change], end: int, words: list[str]) -> None:
        def sampled(rate: int) -> list[Change]:
            return [(nearest(time, rate), line, level) for time, line, level in wanted]

        changes, last = recorded(self.made(text, "b.csv", *words))
        period = 1_000_000 // CSV_RATE
        wanted_rows = [(time * period, line, level) for time, line, level in sampled(CSV_RATE)]
        self.assertEqual((changes, last), (wanted_rows, end - period))
        for more in ([], ["--text"]):
            record = recorded(self.made(text, "a.cfg", *more, *words))
            rows = [(round(time * 1e6 / RECORD_RATE), line, level) for time, line, level in sampled(RECORD_RATE)]
            self.assertEqual((record[0], round(record[1])), (rows, round(end - 1e6 / RECORD_RATE)))
        for rate in (SOUND_RATE, 44_100):
            more = [] if rate == SOUND_RATE else [f"--rate={rate}"]
            sound = heard(self.made(text, "a.wav", *more, *words))
            self.assertEqual(sound, (sampled(rate), nearest(end, rate), rate))

    def test_inverted(self) -> None:
        text = scenario_of(raw(2, 8000), tick())
        changes, _ = recorded(self.made(text, "lines.vcd", "--invert"))
        idle = [(0, line, 1) for line in range(3)]
        self.assertEqual(changes, [*idle, (50_000, 2, 0), (58_000, 2, 1)])

    def test_the_first_rows(self) -> None:
        text = scenario_of(raw(1, 2000), tick())
        path = self.made(text, "lines.csv", "--changes")
        self.assertEqual(path.read_text(), (
            "Time [s],G0,G1,G2\n0.000000,0,0,0\n0.050000,0,1,0\n0.052000,0,0,0\n1.070000,0,0,0\n"
        ))

    def test_a_rate(self) -> None:
        text = scenario_of(raw(0, 2000), tick())
        path = self.made(text, "lines.csv", "--rate=2000")
        rows = path.read_text().splitlines()
        self.assertEqual(len(rows), 1 + 2140)
        self.assertEqual(rows[100:106], [
            "0.049500,0,0,0", "0.050000,1,0,0", "0.050500,1,0,0", "0.051000,1,0,0", "0.051500,1,0,0",
            "0.052000,0,0,0",
        ])


class NotCarried(InAFolder):
    """What no line carries as the scenario has it."""

    def test_each(self) -> None:
        nothing = {"do": "seconds", "n": 1}
        for events, said in (
            ([tick(), {"do": "restart", "r": "relay"}, tick()],
             "a restart is no matter of lines, and left out: tick 2"),
            ([raw(0, *[2000] * 60), raw(0, *[2000] * 60), tick()],
             "a line has room for 100 pulses in a second; further ones are left out: tick 1"),
            ([raw(0, 0), tick(), raw(0, 0), raw(1, 0), tick()],
             "a pulse of 0 us is none on a line: tick 1 and 1 more"),
            ([nothing, raw(0, 10_000, 2000), tick()],
             "a pulse of 10 ms or more runs into the next one: tick 2"),
            ([nothing, raw(0, 2000)], "what comes behind the last tick is left out: tick 1"),
        ):
            with self.subTest(said):
                self.made(scenario_of(*events), said=f"{said}\n")

    def test_another_reader(self) -> None:
        self.made(scenario_of(tick(), {"do": "restart", "r": "meter"}, raw(0, 1, reader="meter")))

    def test_a_hundred_pulses_are_carried(self) -> None:
        text = scenario_of(raw(1, *[2000] * 60), raw(1, *[5000] * 41), tick(), tick())
        changes, _ = recorded(self.made(text, said="a line has room .*: tick 1\n"))
        self.assertEqual(changes[3:], changes_of([[[], [2000] * 60 + [5000] * 40, []], [[]] * 3]))

    def test_pulses_that_run_on(self) -> None:
        runs_on = "a pulse of 10 ms or more runs into the next one: tick {}\n"
        for widths, high, said in (
            ((25_000, 2000, 2000, 2000), [(0, 25_000), (30_000, 32_000)], runs_on.format(1)),
            ((10_000, 2000), [(0, 12_000)], runs_on.format(1)),
            ((2_000_000,), [(0, None)], ""),  # up to the end
            ((0, 9_999, 2000), [(10_000, 19_999), (20_000, 22_000)], "a pulse of 0 us .*: tick 1\n"),
            ((12_000, 0, 2000), [(0, 12_000), (20_000, 22_000)], "a pulse of 0 us .*: tick 1\n"),
        ):
            with self.subTest(widths):
                changes, end = recorded(self.made(scenario_of(raw(0, *widths), tick()), said=said))
                times = [(50_000 + time, 0, level) for pulse in high
                         for time, level in zip(pulse, (1, 0)) if time is not None]
                self.assertEqual(changes[3:], times)
                self.assertEqual(end, 1_070_000)

    def test_a_pulse_into_the_next_second(self) -> None:
        text = scenario_of(raw(0, *[0] * 99, 15_000), tick(), raw(0, 8000), tick())
        said = "a pulse of 0 us .*: tick 1\na pulse of 10 ms .*: tick 2\n"
        changes, _ = recorded(self.made(text, said=said))
        self.assertEqual(changes[3:], [(1_040_000, 0, 1), (1_058_000, 0, 0)])


# A board without hardware, whose clock goes on by 5 us each time that it is asked, and soon wraps.
BOARD = r"""
#include <cstddef>
#include <cstdint>
#include <cstdio>
static const uint32_t BEGIN = 0xFFFFFF00u;
static uint32_t now_us = BEGIN, wraps;
static uint32_t micros() { uint32_t was = now_us; now_us += 5; wraps += now_us < was; return now_us; }
static const int OUTPUT = 1;
static void pinMode(int, int) {}
static void digitalWrite(int pin, int level) {
    unsigned long long at = ((unsigned long long)wraps << 32) + now_us - BEGIN;
    printf("%llu %d %d\n", at, pin - 2, level);
}
static struct {
    bool ended;
    void begin(long) {}
    size_t readBytesUntil(char last, char *to, size_t most) {
        size_t length = 0;
        for (int byte; length < most && (byte = getchar()) != last; to[length++] = (char)byte)
            if (byte == EOF) { ended = true; break; }
        return length;
    }
} Serial;
#include "sketch.ino"
int main() { for (setup(); !Serial.ended;) loop(); }
"""


class Sketch(InAFolder):
    """The sketch of docs/CAPTURE.md."""

    def setUp(self) -> None:
        super().setUp()
        if not shutil.which("c++"):
            print("skipped: the sketch of docs/CAPTURE.md; c++ is missing")
            self.skipTest("no c++")

    def test_it_plays_each_row_in_time(self) -> None:
        page = (ROOT / "docs/CAPTURE.md").read_text()
        begin, end = page.index("    // Plays the rows"), page.index("\nIt is then played by")
        sketch = textwrap.dedent(page[begin:end])
        self.assertLess(max(map(len, sketch.splitlines())), 100)
        (self.folder / "sketch.ino").write_text(sketch)
        (self.folder / "board.cpp").write_text(BOARD)
        flags = ["-std=c++17", "-O2", "-Wall", "-Wextra", "-Werror"]
        subprocess.run(["c++", *flags, "board.cpp", "-o", "board"], cwd=self.folder, check=True)
        dark = [raw(1, 8000), tick(), *[tick()] * 2200, raw(2, 2000), tick()]
        for text in (
            (ROOT / "examples/leap_inserted.jsonl").read_text(),
            (ROOT / "examples/five_ports.jsonl").read_text(),
            scenario_of(*dark),
        ):
            self.compare(self.made(text, "lines.csv", "--changes"))

    def compare(self, path: Path) -> None:
        ran = subprocess.run(
            [self.folder / "board"], input=path.read_text(), capture_output=True, text=True
        )
        written = [tuple(map(int, line.split())) for line in ran.stdout.splitlines()]
        rows = (line.split(",") for line in path.read_text().splitlines()[1:])
        wanted = [(round(1e6 * float(time)), line, int(level)) for time, *levels in rows
                  for line, level in enumerate(levels)]
        self.assertEqual([one[1:] for one in written], [one[1:] for one in wanted])
        late = [at - due for (at, *_), (due, *_) in zip(written, wanted)]
        self.assertGreaterEqual(min(late), 0)
        self.assertLess(max(late), 20)


class Memory(InAFolder):
    MORE = 6 << 10  # in KiB; the pulses of the longer scenario alone would be 30 MB

    def test_a_long_scenario(self) -> None:
        for made in (scenario_of, station_of):
            for ending in (".vcd", ".csv", ".wav", ".cfg"):
                with self.subTest(ending, made=made.__name__):
                    least, most = (self.peak(made(seconds(n)), ending) for n in (20, 1000))
                    self.assertLess(most, least + self.MORE)

    def peak(self, text: str, ending: str) -> int:
        scenario = self.folder / "long.jsonl"
        scenario.write_text(text)
        more = ["--rate=2000"] if ending != ".vcd" else []
        with mock.patch.dict(os.environ, ENVIRONMENT):
            return loading.peak(TOOL, scenario, "-o", self.folder / f"long{ending}", *more)[1]


class Words(InAFolder):
    def refused(self, *words: object, given: str = "", **more: str) -> str:
        ran = run(*words, given=given, **more)
        self.assertEqual((ran.returncode, ran.stdout), (2, ""))
        return ran.stderr

    def test_words(self) -> None:
        path, stamped = (ROOT / f"examples/{name}.jsonl" for name in ("leap_inserted", "leap_stamped"))
        for words, reason in (
            ([path], "the following arguments are required: -o; see wave --help"),
            ([path, "-o", "a.txt"], "a.txt ends with none of .vcd, .csv, .wav, .cfg; see wave --help"),
            ([path, "-o", "a.vcd", "--changes"], "--changes is for a .csv; see"),
            ([path, "-o", "a.vcd", "--text"], "--text is for a .cfg; see"),
            ([path, "-o", "a.vcd", "--rate=5000"], "--rate is for a .wav, a .cfg, and a .csv with a row a"),
            ([path, "-o", "a.csv", "--changes", "--rate=5000"], "--rate is for a .wav, a .cfg, and"),
            ([path, "-o", "a.vcd", "--late=0,350,700"], "unrecognized arguments: --late=0,350,700; see"),
            ([path, "-o", "a.vcd", "--pull", "0,3300,5200"], "unrecognized arguments: --pull 0,3300,5200; see"),
            ([path, "-o", "a.wav", "--rate=100"], "'100' is not a whole number from 2000 to"),
            ([path, "-o", "a.vcd", "--reader=meter"],
             f"wave: {path}: it has no reader 'meter'; it has relay, recorder\n"),
            ([stamped, "-o", "a.vcd", "--device=meter"],
             f"wave: {stamped}: it has no device 'meter'; it has relay, recorder\n"),
            (["none.jsonl", "-o", "a.vcd"], "wave: none.jsonl: No such file or directory\n"),
            ([path, "-o", self.folder / "none/a.vcd"], "none/a.vcd: No such file or directory\n"),
        ):
            with self.subTest(reason):
                said = self.refused(*words)
                self.assertIn(reason, said)
                self.assertEqual(said.count("\n"), 1)
        self.assertFalse(Path("a.vcd").exists())

    def test_a_refused_scenario(self) -> None:
        """The program says why, and no file is begun."""
        for text, reason in (
            ("", "refused: line 1: 29 NoPlant"),
            (scenario_of({"do": "seconds", "n": 1}, {"do": "dance"}), "refused: line 3: "),
        ):
            said = self.refused("-", "-o", self.folder / "a.vcd", given=text).splitlines()
            self.assertIn(f"wave: -: {reason}", said[-1])
            self.assertTrue(said[0].startswith(said[-1].split("refused: ")[1]), said)
            self.assertEqual(list(self.folder.iterdir()), [])

    def refused_devices(self, given: str, line: int, number: int) -> None:
        """The program says why, and no file is begun."""
        said = self.refused("-", "-o", self.folder / "a.vcd", given=given).splitlines()
        self.assertIn(f"wave: -: refused: line {line}: {number} ", said[-1])
        self.assertTrue(said[0].startswith(said[-1].split("refused: ")[1]), said)
        self.assertEqual(len(said), 3)
        self.assertEqual(list(self.folder.iterdir()), [])

    def test_a_refused_scenario_of_devices(self) -> None:
        fault, wrong = {"do": "fault", "g": 0, "kind": "dance"}, {"do": "seconds", "n": -1}
        for events, line, number in (
            ([fault, wrong], 2, 25), ([wrong, fault], 2, 26), ([seconds(1), fault], 3, 25),
            ([{"do": "repair", "g": 3}], 2, 20), ([seconds(1), {"do": "fault"}], 3, 25),
            ([passing(0)], 2, 26), ([passing(True)], 2, 25), ([{"do": "pass"}], 2, 25),
            ([{**passing(1), "g": 0}], 2, 25), ([on_line("pull", 3)], 2, 20), ([on_line("pull", -1)], 2, 26),
            ([on_line("plug", 0, "none")], 2, 19), ([on_line("late", 0, us=2000)], 2, 26),
            ([on_line("pulse", 0, width=2**32)], 2, 26), ([raw(0, 2000)], 2, 25), ([{"do": "step", "g": 0}], 2, 25),
            ([{"do": "stamp", "r": "relay", "ago": 4_000_001}], 2, 26), ([{"do": 1}], 2, 25), ([{}], 2, 25),
            ([[]], 2, 25), ([seconds(1), {**tick(), "r": 1.0}], 3, 25), ([{"do": "pulse", "g": 0.0}], 2, 25),
        ):
            with self.subTest(events):
                self.refused_devices(station_of(*events), line, number)

    def test_a_refused_plant_of_devices(self) -> None:
        for devices, number in (
            ([], 28), ([DEVICE, DEVICE], 28), ([{**DEVICE, "late": [0, 0]}], 26), ([1], 25), ({}, 25),
            ([{**DEVICE, "late": [0, 0, 2000]}], 26), ([{"lock_after": 2}], 25), ([{**DEVICE, "late": 0}], 25),
            ([{**DEVICE, "lock_after": 0}], 26), ([{**DEVICE, "size": 1}], 25),
        ):
            with self.subTest(devices):
                self.refused_devices(station_of(devices=devices), 1, number)

    def test_devices_beside_readers(self) -> None:
        self.refused_devices((ROOT / "cases/devices_beside_readers/scenario.jsonl").read_text(), 1, 25)

    def test_lines_that_are_no_objects(self) -> None:
        long = '{"do":"seconds","n":1}' + " " * 65_536
        for line, number in (("{", 24), ("[" * 100_000, 23), (long, 23), ("\ufeff{}", 24)):
            with self.subTest(line[:3]):
                self.refused_devices(station_of(seconds(1)) + line + "\n", 3, number)

    def test_a_refusal_behind_blank_lines(self) -> None:
        fault = json.dumps({"do": "fault", "g": 3, "kind": "silent"})
        given = "\n" + station_of(seconds(1)) + f"\n \n{fault}\n"
        said = self.refused("-", "-o", self.folder / "a.vcd", given=given)
        self.assertIn("wave: -: refused: line 6: 20 ", said)

    def test_a_sound_that_is_too_long(self) -> None:
        text = scenario_of({"do": "seconds", "n": 800})
        said = self.refused("-", "-o", self.folder / "a.wav", "--rate=1000000", given=text)
        self.assertIn("a.wav: a .wav has room for 715 seconds of 3 lines at this --rate\n", said)

    def test_a_program_that_fails(self) -> None:
        said = self.refused("-", "-o", self.folder / "a.vcd", given=scenario_of(), IRIG="/bin/false")
        self.assertEqual(said, "wave: -: 'irig flatten' ended with status 1\n")
        said = self.refused("-", "-o", self.folder / "a.vcd", given=scenario_of(), IRIG="none/irig")
        self.assertEqual(said, "wave: -: No such file or directory\n")


if __name__ == "__main__":
    unittest.main()
