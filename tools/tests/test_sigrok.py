#!/usr/bin/env python3
"""Tests that sigrok/irigb says of a line what a port tells of it.

Whole frames are compared with what the program reads in them; lines of scenarios, and lines with
faults, with a reader of the Python package, which hears the same pulses. Needs sigrok-cli."""
from __future__ import annotations

import itertools
import json
import os
import random
import re
import shutil
import subprocess
import sys
import tempfile
import unittest
from collections import Counter
from collections.abc import Iterable, Iterator, Sequence
from functools import cache
from pathlib import Path
from typing import Any, NamedTuple

ROOT = Path(__file__).resolve().parents[2]
sys.path[:0] = [str(ROOT / "tests"), str(ROOT / "python")]

import waves  # noqa: E402
from case_files import all_cases, of_readers  # noqa: E402
from model.frames import Rules as ModelRules, control_of, symbol_of  # noqa: E402
from model.generator import Generator, Zone, sent  # noqa: E402
from model.times import Mark, Timeline, second_of_text  # noqa: E402

import irig  # noqa: E402

PROGRAM = ROOT / "crates/irig_main/out/irig_main"
ENVIRONMENT = {
    **os.environ, "SIGROKDECODE_DIR": str(ROOT / "sigrok"), "PYTHONDONTWRITEBYTECODE": "1"
}
SAID = re.compile(r"(\d+)-(\d+) irigb-1: (.*)")
VERDICTS = ("Fault ", "UTC ", "Poor ")
PAUSE_US = 30_000  # ends a run of pulses that are on time
DONE = "{} seconds of relay on 3 lines\n"  # as tools/wave says


class Rules(NamedTuple):
    parity: str = "even"
    sense: str = "add"
    sbs: str = "check"


class Pulse(NamedTuple):
    rise_us: int
    width_us: int


class Said(NamedTuple):
    """What the decoder says, and of which part of the line."""

    begin_us: int
    end_us: int
    text: str


def setUpModule() -> None:
    if not shutil.which("sigrok-cli"):
        print("skipped: the decoder for sigrok; Debian's package sigrok-cli is missing")
        raise unittest.SkipTest("no sigrok-cli")


# ---- lines


def dump_of(pulses: Sequence[Pulse], *, low: int = 0) -> str:
    """A value change dump of a line that stands at this level between its pulses."""
    rows = [[0, low]]
    for rise, width in pulses:
        rows += [[rise, 1 - low], [rise + width, low]]
    rows.append([rows[-1][0] + PAUSE_US, low])
    unit = next(unit for unit in (100, 10, 1) if not any(time % unit for time, _ in rows))
    head = f"$timescale {unit} us $end\n$var wire 1 ! LINE0 $end\n$enddefinitions $end\n"
    return head + "".join(f"#{time // unit} {level}!\n" for time, level in rows)


def unit_of(dump: str) -> int:
    """How many microseconds a sample lasts."""
    return int(dump.split(maxsplit=2)[1])


def decoded(dump: str, rules: Rules = Rules(), polarity: str = "active-high") -> list[Said]:
    """What sigrok-cli prints of a dump, by time."""
    words = f"parity={rules.parity}:sense={rules.sense}:sbs={rules.sbs}:polarity={polarity}"
    with tempfile.TemporaryDirectory() as folder:
        path = Path(folder, "line.vcd")
        path.write_text(dump)
        command = ["sigrok-cli", "-i", str(path), "-P", f"irigb:data=LINE0:{words}"]
        ran = subprocess.run(
            [*command, "-A", "irigb", "--protocol-decoder-samplenum"],
            env=ENVIRONMENT, capture_output=True, text=True, timeout=300,
        )
    if ran.returncode or ran.stderr:
        raise AssertionError(f"sigrok-cli: status {ran.returncode}\n{ran.stderr}")
    unit = unit_of(dump)
    found = (SAID.fullmatch(line).groups() for line in ran.stdout.splitlines())
    return sorted(Said(unit * int(begin), unit * int(end), text) for begin, end, text in found)


def verdicts(said: Iterable[Said]) -> list[Said]:
    """What it says of whole frames, and of those that were broken off."""
    return [one for one in said if one.text.startswith(VERDICTS)]


def is_carried(widths: Sequence[int]) -> bool:
    """Whether a line gives these pulses to a port as they are: a frame begins at the first, at no
    other, and none runs into the next."""
    letters = "".join(map(symbol_of, widths))
    whole = 1 <= len(widths) <= 100 and letters[0] == "P" and "PP" not in letters
    return whole and all(0 < width < waves.ELEMENT_US for width in widths)


def pulses_of(begin_us: int, widths: Iterable[int]) -> list[Pulse]:
    return [Pulse(begin_us + waves.ELEMENT_US * n, width) for n, width in enumerate(widths)]


def next_begin(pulses: Sequence[Pulse]) -> int:
    """Where a frame may begin behind these pulses that has nothing to do with them."""
    return pulses[-1].rise_us + waves.ELEMENT_US + PAUSE_US if pulses else waves.FIRST_EDGE_US


def one_by_one(frames: Iterable[Sequence[int]]) -> list[list[Pulse]]:
    """The pulses of frames of which each has nothing to do with the one before."""
    laid: list[list[Pulse]] = []
    for widths in frames:
        laid.append(pulses_of(next_begin(laid[-1] if laid else []), widths))
    return laid


def closed(pulses: Sequence[Pulse]) -> list[Pulse]:
    """A line with one more pulse, since a frame that was broken off shows at the next one."""
    return [*pulses, Pulse(next_begin(pulses), 2000)]


# ---- what the program says


def program() -> str:
    """The path of the program that ./irig runs."""
    words = [ROOT / "toolchain/program"]
    return subprocess.run(words, stdout=subprocess.PIPE, text=True, check=True).stdout.strip()


def printed(*words: str) -> list[str]:
    ran = subprocess.run(words, stdout=subprocess.PIPE, text=True, timeout=60, cwd=ROOT)
    return ran.stdout.splitlines()


def in_words(told: str) -> str:
    """What the decoder has to say where a port tells this: a line of `irig read`."""
    kind, _, rest = told.partition(" ")
    if kind == "claim":
        second, mark = rest.split()
        return f"UTC {second}" + ("" if mark == "unspoken" else f" ({mark})")
    return {"poor": "Poor quality ", "fault": "Fault "}[kind] + rest


def fields_of(coded: str, told: str) -> list[str]:
    """The fields and control bits, in the order of their elements, by the lines of `irig read`."""
    year, day, hour, minute, second, word, sbs = map(int, re.findall(r"\d+", coded))
    control = control_of(word)
    leap = ("insert", "delete")[control.deleted] if control.pending else "none"
    daylight = "on" if control.daylight else "off"
    return [
        f"Second: {second}", f"Minute: {minute}", f"Hour: {hour}", f"Day of the year: {day}",
        f"Year: {year}", f"Leap second: {leap}",
        f"Daylight saving: {daylight}{', about to change' if control.daylight_pending else ''}",
        f"Offset: {control.offset / 2:+g} h",
        f"Time quality: {control.quality}{ {0: ' (locked)', 15: ' (failure)'}.get(control.quality, '')}",
        f"Parity: {'wrong' if told == 'fault 17 Parity' else 'right'}",
        f"Straight binary seconds: {sbs}",
    ]


# ---- scenarios


class Run(NamedTuple):
    """A scenario that runs to its end: its first reader's ports, with the widths that came to each,
    tick by tick."""

    name: str
    plant: dict[str, Any]
    ports: list[tuple[list[int], ...]]

    @property
    def rules(self) -> Rules:
        return Rules(self.plant["parity"], self.plant["sense"], self.plant["sbs"])

    def line(self) -> list[Pulse]:
        """All that came to the ports, one port after another, as it stands on a line."""
        line: list[Pulse] = []
        for port in self.ports:
            line += wave_of(next_begin(line), port)
        return line


def wave_of(begin_us: int, port: Sequence[Sequence[int]]) -> Iterator[Pulse]:
    """The pulses of a port as they are on a wire, second by second."""
    seconds = (
        pulses_of(begin_us + number * waves.SECOND_US, widths[:100])
        for number, widths in enumerate(port)
    )
    for rise, width in itertools.chain.from_iterable(seconds):
        if width:
            yield Pulse(rise, min(width, waves.ELEMENT_US - 1))


@cache
def runs() -> list[Run]:
    """All examples, and all cases that the program runs to their end, but for those of devices."""
    return [run_of(case.scenario) for case in of_readers(all_cases()) if case.status == 0]


def run_of(name: str) -> Run:
    text = (ROOT / name).read_text()
    plant = json.loads(next(line for line in text.splitlines() if line.strip()))
    return Run(name, plant, list(zip(*waves.seconds_of(text))))


# ---- what a reader hears


class Heard(NamedTuple):
    """What a reader's port told of a line: where each frame begins and what it tells of it, and where the
    pulses out of step rise; and the steps from pulse to pulse of a frame that are not of 9 to 11 ms."""

    frames: list[tuple[int, str]]
    out: list[int]
    late: list[tuple[int, int]]


def heard(pulses: Iterable[Pulse], rules: Rules) -> Heard:
    """What a port tells before a frame begins, and where `irig.Sync` says that none goes on."""
    reader = irig.Reader(parity=rules.parity, sense=rules.sense, sbs=rules.sbs)
    sync = irig.Sync()
    found, begin, place, last = Heard([], [], []), 0, 0, 0
    for rise, width in pulses:
        told, before, place = str(reader.port(0)), place, sync.pulse(rise, width)
        assert reader.hear(0, rise, width) == place
        if before and not 9_000 <= rise - last < 11_000:
            found.late.append((last, rise))
        last = rise
        if before and place < 2:
            found.frames.append((begin, in_words(told)))
        if place == 0:
            found.out.append(rise)
        if place == 1:
            begin = rise
    return found


def jumped(width: int) -> int:
    """A width that is read as another symbol."""
    return 5000 if symbol_of(width) != "1" else 2000


# What a fault makes of a pulse, by its name.
FAULTS = {
    "lost": lambda rise, width: [],
    "late": lambda rise, width: [Pulse(rise + 1500, width)],
    "early": lambda rise, width: [Pulse(rise - 1500, width)],
    "a little late": lambda rise, width: [Pulse(rise + 400, width)],
    "cut in two": lambda rise, width: [
        Pulse(rise, width // 2 - 100), Pulse(rise + width // 2, width // 2)
    ],
    "glitch behind": lambda rise, width: [Pulse(rise, width), Pulse(rise + 9200, 100)],
    "short": lambda rise, width: [Pulse(rise, 300)],
    "long": lambda rise, width: [Pulse(rise, 9600)],
    "another symbol": lambda rise, width: [Pulse(rise, jumped(width))],
    "a marker": lambda rise, width: [Pulse(rise, 8000)],
}


# What leaves its width to a pulse, and so makes no other frame that looks true.
KEEP_WIDTHS = ("lost", "late", "early", "cut in two", "glitch behind")
# What the first three frames of the line below claim.
TRUE = ["UTC 2016-12-31T23:59:59Z (insert)", "UTC 2016-12-31T23:59:60Z", "UTC 2017-01-01T00:00:00Z"]


def true_line(begin_us: int, seconds: int) -> list[Pulse]:
    """The line of a clock that is two hours ahead, before and behind the leap second of 2016."""
    timeline = Timeline(second_of_text("2016-12-31T23:59:59Z"), ((6209, Mark.INSERT),))
    clock = Generator(Zone(4, False))
    letters = (sent(clock, None, timeline, ModelRules(), edge) for edge in range(seconds))
    return pulses_of(begin_us, (waves.WIDTHS[letter] for letter in "".join(letters)))


def with_single_faults() -> list[Pulse]:
    """Three frames again and again, each time with another fault in the second one."""
    line: list[Pulse] = []
    for make, element in itertools.product(FAULTS.values(), range(100, 200, 3)):
        frames = true_line(next_begin(line), 3)
        line += [*frames[:element], *make(*frames[element]), *frames[element + 1 :]]
    return line


def with_pairs(chance: random.Random, count: int) -> list[Pulse]:
    """The same with two faults, of which one at most changes a width, in the second frame."""
    line: list[Pulse] = []
    for _ in range(count):
        frames = true_line(next_begin(line), 3)
        kinds = chance.choice(list(FAULTS)), chance.choice(KEEP_WIDTHS)
        for element, kind in zip(sorted(chance.sample(range(100, 200), 2), reverse=True), kinds):
            frames[element : element + 1] = FAULTS[kind](*frames[element])
        line += frames
    return line


def with_random_faults(chance: random.Random, seconds: int) -> list[Pulse]:
    """A line of which each hundredth pulse is at fault. What would begin within the pulse before is
    left out."""
    makes = list(FAULTS.values())
    line: list[Pulse] = []
    for pulse in true_line(waves.FIRST_EDGE_US, seconds):
        made = chance.choice(makes)(*pulse) if chance.random() < 0.01 else [pulse]
        line += [one for one in made if not line or one.rise_us > sum(line[-1])]
    return line


def with_pulled_cables() -> list[Pulse]:
    """Five frames again and again, each time with more pulses in a row lost, from an element on."""
    line: list[Pulse] = []
    for count in (1, 2, 9, 20, 99, 100, 101, 150, 260):
        frames = true_line(next_begin(line), 5)
        line += [*frames[:137], *frames[137 + count :]]
    return line


def from_the_middle() -> list[Pulse]:
    """Recordings that begin at each third element."""
    line: list[Pulse] = []
    for element in range(0, 100, 3):
        line += true_line(next_begin(line) - waves.ELEMENT_US * element, 3)[element:]
    return line


def widths_at_bounds() -> list[Pulse]:
    """Frames with a pulse of each width beside a bound."""
    line: list[Pulse] = []
    for width in (499, 500, 3499, 3500, 6499, 6500, 9499, 9500):
        frame = true_line(next_begin(line), 1)
        line += [*frame[:7], Pulse(frame[7].rise_us, width), *frame[8:]]
    return line


def gaps_at_bounds() -> list[Pulse]:
    """Frames with a gap beside each bound of what is on time."""
    line: list[Pulse] = []
    for gap in (8999, 9000, 10_999, 11_000):
        frame = true_line(next_begin(line), 1)
        late = gap - waves.ELEMENT_US
        line += [*frame[:33], *(Pulse(rise + late, width) for rise, width in frame[33:])]
    return line


def turned(pulses: Sequence[Pulse]) -> list[Pulse]:
    """The pulses of an inverted line, which are the gaps."""
    ends = [Pulse(rise + width, 0) for rise, width in pulses]
    return [Pulse(end, after.rise_us - end) for (end, _), after in zip(ends, pulses[1:])]


# ---- tests


class Frames(unittest.TestCase):
    """Frames of cases and examples, each on a line of its own, against `irig read`."""

    def test_each(self) -> None:
        path, frames = program(), self.frames()
        lines = one_by_one(map(self.widths, frames))
        said = decoded(dump_of(closed(list(itertools.chain.from_iterable(lines)))))
        for letters, line in zip(frames, lines):
            begin, end = line[0].rise_us, next_begin(line)
            with self.subTest(letters):
                of_it = [one for one in said if begin <= one.begin_us < end]
                self.compare(printed(path, "read", letters), begin, of_it)
        print(f"frames: {len(frames)}")
        self.assertGreater(len(frames), 300)

    def frames(self) -> list[str]:
        """Those that a line can carry, once each."""
        ran = subprocess.run([ROOT / "tests/list_frames"], capture_output=True, text=True)
        self.assertEqual(ran.returncode, 0)
        found = {line.replace(" ", "") for line in ran.stdout.splitlines()}
        ports = itertools.chain.from_iterable(run.ports for run in runs())
        seconds = itertools.chain.from_iterable(ports)
        found.update("".join(map(symbol_of, widths)) for widths in seconds)
        return sorted(letters for letters in found if is_carried(self.widths(letters)))

    @staticmethod
    def widths(letters: str) -> list[int]:
        return [waves.WIDTHS.get(letter, 300) for letter in letters]

    def compare(self, told: list[str], begin: int, said: list[Said]) -> None:
        def is_at(one: Said, first: int, last: int) -> None:
            places = (time - begin for time in one[:2])
            self.assertEqual([*places], [waves.ELEMENT_US * first, waves.ELEMENT_US * (last + 1)], one.text)

        (verdict,) = verdicts(said)
        self.assertEqual(verdict.text, in_words(told[-1]))
        is_at(verdict, *elements_of(told[-1]))
        if told[0].startswith("coded"):
            fields = [one for one in said if one.text.split(":")[0] in FIELDS]
            self.assertEqual([one.text for one in fields], fields_of(*told))
            for one in fields:
                is_at(one, *FIELDS[one.text.split(":")[0]])
        for one in said:
            if element := re.search(": element (.*)", one.text):
                is_at(one, int(element[1]), int(element[1]))


# The first and the last element of each field, by docs/FRAME.md.
FIELDS = {
    "Second": (1, 8), "Minute": (10, 17), "Hour": (20, 26), "Day of the year": (30, 41), "Year": (50, 58),
    "Leap second": (60, 61), "Daylight saving": (62, 63), "Offset": (64, 70), "Time quality": (71, 74),
    "Parity": (75, 75), "Straight binary seconds": (80, 97),
}


def elements_of(told: str) -> tuple[int, int]:
    """The first and the last element that a port speaks of."""
    word = told.split()[-1]
    match told.split()[:2]:
        case ["fault", "1"]:
            return 0, int(word) - 1
        case ["fault", "3" | "4"]:
            return int(word), int(word)
        case ["fault", "5" | "6"]:
            return FIELDS["Day of the year" if word == "day" else word.capitalize()]
        case ["fault", number]:
            return {"7": (30, 41), "8": (30, 58), "9": (1, 8), "10": (60, 61), "17": (1, 75), "18": (80, 97)}[number]
    return 0, 99


def shown(pulse: Pulse) -> Said:
    """A pulse as the decoder has to show it."""
    name = {"P": "Marker", "?": "Bad pulse"}.get(letter := symbol_of(pulse.width_us), letter)
    return Said(pulse.rise_us, sum(pulse), f"{name}: {pulse.width_us / 1000:.2f} ms")


class Lines(unittest.TestCase):
    """Faults on a line, against `irig.Sync` and a reader that hears it."""

    def compare(self, pulses: Sequence[Pulse], rules: Rules = Rules()) -> list[Said]:
        """What the decoder says of a line, if a reader says it too."""
        pulses = closed(pulses)
        said = decoded(dump_of(pulses), rules)
        self.compare_said(said, pulses, rules)
        return said

    def compare_said(
        self, said: list[Said], pulses: Sequence[Pulse], rules: Rules = Rules()
    ) -> None:
        wanted = heard(pulses, rules)
        self.assertEqual({one for one in said if one.text.endswith(" ms")} ^ set(map(shown, pulses)), set())
        self.assertEqual([one.begin_us for one in said if one.text == "Out of step"], wanted.out)
        self.assertEqual([one[:2] for one in said if one.text.startswith("Not on time")], wanted.late)
        texts = [one.text for one in verdicts(said)]
        self.assertEqual(texts, [text for _, text in wanted.frames])
        for one, (begin, _) in zip(verdicts(said), wanted.frames):
            if one.text.startswith(("UTC", "Poor", "Fault 1 ")):
                self.assertEqual(one.begin_us, begin)

    def test_single_faults(self) -> None:
        """A fault costs its own frame alone."""
        said = self.compare(with_single_faults())
        print(f"single faults: {len(verdicts(said))} frames")
        told = Counter(one.text for one in verdicts(said) if one.text.startswith("UTC"))
        count = len(FAULTS) * 34
        self.assertEqual((told[TRUE[0]], told[TRUE[2]], set(told) - set(TRUE)), (count, count, set()))

    def test_pairs_of_faults(self) -> None:
        """No claim is untrue, and a frame of three is left at least."""
        said = self.compare(with_pairs(random.Random(3), 400))
        told = Counter(one.text for one in verdicts(said) if one.text.startswith("UTC"))
        self.assertEqual(set(told) - set(TRUE), set())
        self.assertGreaterEqual(told.total(), 400)

    def test_random_faults(self) -> None:
        said = self.compare(with_random_faults(random.Random(1), 300))
        print(f"random faults: {len(verdicts(said))} frames")

    def test_other_rules(self) -> None:
        line = with_random_faults(random.Random(2), 20)
        for rules in (Rules(parity="odd"), Rules(sense="subtract"), Rules(sbs="ignore")):
            with self.subTest(rules):
                self.compare(line, rules)

    def test_pulled_cables(self) -> None:
        self.compare(with_pulled_cables())

    def test_from_the_middle(self) -> None:
        self.compare(from_the_middle())

    def test_from_within_a_pulse(self) -> None:
        """What is left of the pulse is none."""
        line = closed([pulse for pulse in true_line(-403_000, 3) if pulse.rise_us > 0])
        self.compare_said(decoded(dump_of([Pulse(0, 2000), *line])), line)

    def test_bounds(self) -> None:
        self.compare(widths_at_bounds())
        self.compare(gaps_at_bounds())

    def test_inverted(self) -> None:
        """By its polarity it is read as any line, and else as what it then is."""
        line = closed(true_line(waves.FIRST_EDGE_US, 3))
        said = decoded(dump_of(line, low=1), polarity="active-low")
        self.assertEqual(said, decoded(dump_of(line)))
        self.compare_said(said, line)
        self.compare_said(decoded(dump_of(line, low=1)), turned(line))

    def test_lines_of_scenarios(self) -> None:
        """Whole lines, by each scenario's own rules, with what no port hears as it was sent."""
        for run in runs():
            line = run.line()
            if line and line[-1].rise_us < 1000 * waves.SECOND_US:
                with self.subTest(run.name):
                    self.compare(line, run.rules)


class Pages(unittest.TestCase):
    """Commands print what the pages show."""

    def compare(self, page: Path, is_installed: bool, told: str) -> None:
        """The commands with sigrok-cli print the block behind them. The decoder stands where it is, or
        where they install it, in a home of their own."""
        blocks = re.findall(r"(?<=\n\n)(?:    .+\n)+", page.read_text())
        blocks = [re.sub("^    ", "", block, flags=re.M) for block in blocks]
        (place,) = (n for n, block in enumerate(blocks) if "sigrok-cli" in block)
        with tempfile.TemporaryDirectory() as folder:
            for name in ("tests", "examples", "tools", "sigrok"):
                Path(folder, name).symlink_to(ROOT / name)
            there = {key: value for key, value in ENVIRONMENT.items() if key != "SIGROKDECODE_DIR"}
            environment = {**there, "HOME": folder} if is_installed else ENVIRONMENT
            ran = subprocess.run(
                ["bash", "-ec", blocks[place]], cwd=folder, env={**environment, "IRIG": str(PROGRAM)},
                capture_output=True, text=True, timeout=60,
            )
        self.assertEqual((ran.stdout, ran.stderr), (blocks[place + 1], told))

    def test_wires(self) -> None:
        self.compare(ROOT / "docs/WIRES.md", False, DONE.format(8))

    def test_pull_request(self) -> None:
        self.compare(ROOT / "sigrok/README.md", True, DONE.format(14))


if __name__ == "__main__":
    unittest.main()
