#!/usr/bin/env python3
"""What `irig judge` says of recordings of scenarios: of the lines of each example and case, of those in
each form that the tools and sigrok-cli write, and through bad recorders. The lines are those of
tests/waves.py, and what each line told in each second, and so which line is wrong, is by tests/model.
Neither owes anything to the program. IRIG is the program, if it is not the one that ./irig runs."""
from __future__ import annotations

import json
import math
import os
import random
import shutil
import subprocess
import unittest
import wave
from array import array
from collections.abc import Callable, Iterable, Iterator, Sequence
from concurrent.futures import ThreadPoolExecutor
from dataclasses import dataclass, field
from functools import cache
from pathlib import Path

from loading import ROOT, InAFolder

import waves
from case_files import all_cases, of_readers
from model import frames
from model.blame import seconds_ahead
from model.lines import lines as meanings
from model.times import Claim, text_of_second
from model.voting import vote

IRIG = os.environ.get("IRIG", str(ROOT / "irig"))
POOR_FROM = 8  # the time quality from which a frame has no vote
MOST_SECONDS = 16  # of a scenario that is tried in each form
ROUNDING_US = 2
FIRST_SECOND = "2000-01-02T00:00:00Z"
# Of which the verdict is another one, with the reason.
UNLIKE = {
    "cases/quality_and_replay": "a line that begins after 2.2 s shows its polarity by its first frame, which is then over",
}
Rows = Iterable[tuple[float, int]]  # a time in microseconds, and the lines that are high from then on


# ---- what has to come of a scenario


@dataclass
class Stretch:
    """A line was wrong in one way: the first second and the last one, each with the time of its end."""

    line: int
    kind: str
    detail: dict
    seconds: list[tuple[str, int]] = field(default_factory=list)

    def shown(self) -> dict:
        first, last = ({"utc": utc, "edge_us": edge} for utc, edge in (self.seconds[0], self.seconds[-1]))
        return {"line": self.line, "kind": self.kind, **self.detail, "seconds": len(self.seconds),
                "first": first, "last": last}


def tale_of(told: frames.Told, claim: Claim) -> tuple[str, dict] | None:
    """What is wrong with what a line told, where most claim this, and its keys."""
    if told is None:
        return "silent", {}
    if isinstance(told, frames.Fault):
        return "faulty", {"fault": told.number}
    if isinstance(told, frames.Poor):
        return "poor", {"quality": told.quality}
    if told.second != claim.second:
        ahead = seconds_ahead(claim.second, told.second)
        return "another_second", {"ahead_s": max(ahead, 0), "behind_s": max(-ahead, 0)}
    return None if told == claim else ("another_mark", {})


def same_kind(one: Stretch, kind: str, detail: dict) -> bool:
    return one.kind == kind and (kind != "another_second" or one.detail == detail)


def verdict_of(seconds: Sequence[list[frames.Told]]) -> dict:
    """What the seconds of lines come to, the first of which ends 1.05 s behind the beginning."""
    count = len(seconds[0])
    agreed, ended = [], []
    unended: list[Stretch | None] = [None] * count
    for number, told in enumerate(seconds, 1):
        claim = vote(told, count)
        if not claim:
            continue
        agreed.append((text_of_second(claim.second), waves.FIRST_EDGE_US + number * waves.SECOND_US))
        for line, before in enumerate(list(unended)):
            kind, detail = tale_of(told[line], claim) or ("", {})
            if before and not same_kind(before, kind, detail):
                ended.append(before.shown())
                before = None
            unended[line] = (before or Stretch(line, kind, detail)) if kind else None
            if unended[line]:
                unended[line].seconds.append(agreed[-1])
    ends = [{"utc": utc, "edge_us": edge} for utc, edge in agreed]
    return {"decided": bool(agreed), "seconds": len(agreed), "first": ends[0] if ends else None,
            "last": ends[-1] if ends else None, "stretches": ended[:64],
            "open": [one and one.shown() for one in (*unended, *[None] * (5 - count))]}


@dataclass(frozen=True)
class Recorded:
    """The lines of a scenario's first reader, how they are read, and what they told in each second."""

    text: str
    lines: int
    words: list[str]
    changes: list[waves.Change]
    end_us: int
    told: list[list[frames.Told]]

    def steps(self) -> Iterator[tuple[int, int]]:
        """The lines that are high, a bit each, from each time on at which that changes."""
        high, at = 0, 0
        for time, line, level in self.changes:
            if time != at:
                yield at, high
                at = time
            high = high & ~(1 << line) | level << line
        yield at, high


def told_of(rules: frames.Rules, widths: Sequence[int]) -> frames.Told:
    return frames.told(rules, "".join(map(frames.symbol_of, widths)), POOR_FROM) if widths else None


def is_plain(seconds: Sequence[list[waves.Widths]]) -> bool:
    """Whether each line has a whole frame in each second, of pulses that a line can carry and whose markers show
    where it begins, or nothing."""
    every = [widths for second in seconds for widths in second if widths]
    return bool(every) and all(
        len(widths) == 100 and all(0 < width < waves.ELEMENT_US for width in widths)
        and frames.symbol_of(widths[0]) == frames.symbol_of(widths[99]) == "P" for widths in every
    )


def recorded_of(text: str) -> Recorded | None:
    plant = next(meaning for _, meaning in meanings(text.encode()))
    seconds = waves.seconds_of(text)
    if not is_plain(seconds):
        return None
    rules = plant.rules
    words = [f"--parity={rules.parity.value}", f"--sense={rules.sense.value}",
             "--sbs=" + ("check" if rules.check_binary_seconds else "ignore")]
    end = waves.FIRST_EDGE_US + len(seconds) * waves.SECOND_US + waves.ELEMENT_US
    told = [[told_of(rules, widths) for widths in second] for second in seconds]
    return Recorded(text, len(plant.generators), words, waves.changes_of(seconds), end, told)


@cache
def scenarios() -> dict[str, Recorded]:
    """Those of examples and cases that run to their end, by name."""
    found = {}
    for case in of_readers(all_cases()):
        if case.status == 0 and case.scenario:
            recorded = recorded_of((ROOT / case.scenario).read_text())
            if recorded and len(recorded.told) < 4000:
                found[case.name] = recorded
    return found


# ---- recordings


def write_table(path: Path, lines: int, rows: Rows, end: float) -> None:
    """A row for each change, and one at the end."""
    with path.open("w") as file:
        print("Time [s]", *(f"G{line}" for line in range(lines)), sep=",", file=file)
        high = 0
        for at, high in rows:
            print(f"{at / 1e6:.9f}", *(high >> line & 1 for line in range(lines)), sep=",", file=file)
        print(f"{end / 1e6:.9f}", *(high >> line & 1 for line in range(lines)), sep=",", file=file)


def judged(*words: object, given: bytes | None = None) -> dict:
    ran = subprocess.run([IRIG, "judge", "--json", *map(str, words)], input=given, capture_output=True)
    if ran.returncode not in (0, 7):
        raise AssertionError(ran.stderr.decode())
    return json.loads(ran.stdout)


def of_wave(name: str, path: Path, *words: str) -> Path:
    """A scenario's lines by tools/wave."""
    ran = subprocess.run([ROOT / "tools/wave", "-", "-o", path, *words], input=scenarios()[name].text.encode(),
                         capture_output=True)
    if ran.returncode:
        raise AssertionError(ran.stderr.decode())
    return path


def by_sigrok(*words: object) -> bytes:
    return subprocess.run(["sigrok-cli", *map(str, words)], stdout=subprocess.PIPE, check=True, timeout=300).stdout


def behind_a_capacitor(path: Path) -> Path:
    """A sound of 16 bits, through the high pass of a sound card at 20 Hz."""
    with wave.open(str(path)) as sound:
        form, samples = sound.getparams(), array("h", sound.readframes(sound.getnframes()))
    before, held = [0] * form.nchannels, [0.0] * form.nchannels
    for place, value in enumerate(samples):
        channel = place % form.nchannels
        held[channel] = 0.984 * (held[channel] + value - before[channel])
        before[channel], samples[place] = value, round(held[channel] / 2)
    coupled = path.with_suffix(".coupled.wav")
    with wave.open(str(coupled), "wb") as sound:
        sound.setparams(form)
        sound.writeframes(samples.tobytes())
    return coupled


def with_sigrok(folder: Path, name: str) -> Iterator[tuple[str, list, bytes]]:
    """What sigrok-cli makes of a wave: the words for a judge, and what it reads."""
    session = folder / "lines.sr"
    by_sigrok("-i", of_wave(name, folder / "a.vcd"), "-o", session)
    yield "a session", ["-"], by_sigrok("-i", session, "-O", "vcd")
    yield "a table of a session", ["-"], by_sigrok("-i", session, "-O", "csv:time=true:dedup=true:label=channel")
    sound = of_wave(name, folder / "b.wav", "--rate=8000")
    for kind, path in ("a sound", sound), ("a sound behind a capacitor", behind_a_capacitor(sound)):
        yield kind, ["--threshold=0", "-"], by_sigrok("-i", path, "-O", "csv")


FORMS: dict[str, tuple[str, ...]] = {
    "a.vcd": (), "a.csv": (), "b.csv": ("--changes",), "c.csv": ("--changes", "--invert"), "a.cfg": (), "b.cfg": ("--text",),
}


@dataclass
class Recorder:
    """A bad recorder: each edge is off by up to so many microseconds, its clock by so many parts in a million;
    so many short glitches come a second; it may take samples."""

    by: random.Random
    jitter_us: int
    parts: int
    glitches: int = 0
    every_us: int = 0

    def seen(self, at: float) -> float:
        at *= 1 + self.parts / 1e6
        return self.every_us * math.ceil(at / self.every_us) if self.every_us else at

    def write(self, recorded: Recorded, path: Path) -> None:
        moved = [(time + self.by.uniform(-self.jitter_us, self.jitter_us), line) for time, line, _ in recorded.changes]
        for _ in range(self.glitches * recorded.end_us // 1_000_000):
            begin, line = self.by.uniform(0, recorded.end_us), self.by.randrange(recorded.lines)
            moved += [(begin, line), (begin + self.by.uniform(1, 40), line)]
        write_table(path, recorded.lines, self.rows(sorted(moved)), self.seen(recorded.end_us))

    def rows(self, changes: Iterable[tuple[float, int]]) -> Iterator[tuple[float, int]]:
        high = 0
        yield 0.0, high
        for at, line in changes:
            high ^= 1 << line
            yield self.seen(at), high


# ---- tests


def without_times(verdict: dict) -> dict:
    """The same, without times by the recorder's clock, and without keys that no scenario says."""
    kept = {key: value for key, value in verdict.items()
            if key in ("decided", "seconds", "first", "last", "stretches", "open")}
    return json.loads(json.dumps(kept), object_hook=lambda value: {k: v for k, v in value.items() if k != "edge_us"})


def edges_of(value: object) -> list[int]:
    """All times by the recorder's clock, in order."""
    if isinstance(value, dict):
        return [*([value["edge_us"]] if "edge_us" in value else []), *(edge for one in value.values() for edge in edges_of(one))]
    return [edge for one in value for edge in edges_of(one)] if isinstance(value, list) else []


class Judged(InAFolder):
    def compare(self, name: str, verdict: dict, off_us: float = ROUNDING_US, scale: float = 1.0) -> None:
        wanted = verdict_of(scenarios()[name].told)
        self.assertEqual(without_times(verdict), without_times(wanted))
        for found, edge in zip(edges_of({key: verdict[key] for key in wanted}), edges_of(wanted)):
            self.assertLessEqual(abs(found - edge * scale), off_us)

    def test_each_scenario(self) -> None:
        path = self.folder / "lines.csv"
        kinds = set()
        for name, recorded in scenarios().items():
            with self.subTest(name):
                write_table(path, recorded.lines, recorded.steps(), recorded.end_us)
                verdict = judged(path, *recorded.words)
                if name in UNLIKE:
                    self.assertNotEqual(without_times(verdict), without_times(verdict_of(recorded.told)), "alike now")
                    continue
                self.compare(name, verdict)
                kinds |= {one["kind"] for one in (*verdict["stretches"], *filter(None, verdict["open"]))}
        self.assertLessEqual({"silent", "poor", "another_second", "another_mark"}, kinds)
        print(f"scenarios judged: {len(scenarios())}")

    def test_each_form(self) -> None:
        """The short ones, by each form that the tools and sigrok-cli have."""
        short = [name for name, recorded in scenarios().items()
                 if len(recorded.told) <= MOST_SECONDS and name not in UNLIKE]
        forms: list[Callable[[str], list]] = [self.by_the_tools]
        if shutil.which("sigrok-cli"):
            forms.append(self.by_the_tools_and_sigrok)
        else:
            print("skipped: recordings by sigrok-cli; Debian's package sigrok-cli is missing")
        with ThreadPoolExecutor() as pool:
            for name, kind, verdict in (one for form in forms for found in pool.map(form, short) for one in found):
                with self.subTest(name, kind=kind):
                    # A sample of a sound of 8,000 a second is 125 us, and its edges are slow.
                    self.compare(name, verdict, 1_500 if "sound" in kind else 210)

    def by_the_tools(self, name: str) -> list[tuple[str, str, dict]]:
        folder = self.folder / f"{len(name)}{abs(hash(name))}"
        folder.mkdir()
        words = scenarios()[name].words
        is_first = FIRST_SECOND in scenarios()[name].text  # before which no stamp can be
        return [(name, f"{file} {more}", judged(of_wave(name, folder / file, *more), *words))
                for file, more in FORMS.items() if not (is_first and file.endswith(".cfg"))]

    def by_the_tools_and_sigrok(self, name: str) -> list[tuple[str, str, dict]]:
        folder = self.folder / f"s{len(name)}{abs(hash(name))}"
        folder.mkdir()
        words = scenarios()[name].words
        return [(name, kind, judged(*words, *more, given=given)) for kind, more, given in with_sigrok(folder, name)]

    def test_bad_recorders(self) -> None:
        path, tried = self.folder / "lines.csv", 0
        for seed, (name, recorded) in enumerate(scenarios().items()):
            if not name.startswith("examples/") or len(recorded.told) > 100:
                continue
            by = random.Random(f"{seed} {name}")
            parts = by.choice((-1, 1)) * by.randint(100, 5000)
            for recorder in Recorder(by, 100, parts, glitches=30), Recorder(by, 50, parts, every_us=200):
                with self.subTest(name, parts=parts, every_us=recorder.every_us):
                    recorder.write(recorded, path)
                    self.compare(name, judged(path, *recorded.words), 1_000, 1 + parts / 1e6)
                    tried += 1
        self.assertGreater(tried, 20)

    def test_what_a_filter_keeps_away(self) -> None:
        """The noise is there: without the filter, or with more of it, the verdict is another."""
        name = "examples/leap_inserted.jsonl"
        path, recorded = self.folder / "lines.csv", scenarios()[name]
        for recorder, words in (
            (Recorder(random.Random(1), 0, 0, glitches=30), ["--glitch=0"]),
            (Recorder(random.Random(1), 900, 0), []),
            (Recorder(random.Random(1), 0, 0, every_us=4000), []),
        ):
            with self.subTest(recorder):
                recorder.write(recorded, path)
                self.assertNotEqual(without_times(judged(path, *words)), without_times(verdict_of(recorded.told)))


if __name__ == "__main__":
    unittest.main()
