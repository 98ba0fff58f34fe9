"""The lines that carry a scenario to one reader or device, a line for each generator, and files of
them.

`irig flatten` plays the scenario; nothing of it is played here. Of readers it writes the pulses of a
second, which rise each 10 ms from its edge on, since such a scenario knows no other times; of devices
it writes when each pulse rose. The first edge comes 50 ms behind the beginning, and the end 20 ms
behind the last edge, or behind the last event of a plant of devices. All is written as it streams:
a scenario is flattened once to see what has to stand at the head of a file, and once for the file,
and that of a device before, to see if it is right."""
from __future__ import annotations

import json
import os
import shutil
import struct
import subprocess
import tempfile
import wave
from heapq import heappop, heappush
from itertools import groupby, zip_longest
from math import gcd
from pathlib import Path
from typing import IO, Any, BinaryIO, Dict, Iterator, List, Optional, Sequence, TextIO, Tuple

from parts.command import program
from parts.comtrade import NO_TIME, leap_field
from parts.oddities import (
    MOST_PULSES, NO_TICK, NO_WIDTH, RESTARTS, RUNS_ON, TOO_MANY, TOUCHES, Oddities,
)

from irig import Leap, Second

ELEMENT_US, SECOND_US = 10_000, 1_000_000
FIRST_EDGE_US, TAIL_US = 50_000, 20_000
MOST_PASS_US = 1_000_000_000  # of a line of a scenario
DEVICES = 4  # the version of a plant that has them
COARSEST_US = 100  # the unit of a value change dump, if all changes allow it
MOST_BYTES = 0xFFFFFFFF - 36  # of a sound, whose head counts them in 32 bits
LOUD = 24_000  # of 32,767, for a sound of 16 bits

Value = Dict[str, Any]
# The time in microseconds, and the lines that are high from then on, a bit for each.
Step = Tuple[int, int]
# A time in microseconds up to which lines stay as they are, and those that are high, a bit each.
Span = Tuple[int, int]
# A time in microseconds from edge 0, and the line whose level changes.
Change = Tuple[int, int]


# ---- a scenario


class Refused(ValueError):
    """The program refuses a line of a scenario."""


def flattened(scenario: IO[bytes], again: bool = False) -> Iterator[str]:
    """What the program writes of the scenario in a file, which is read from its beginning. If it
    refuses the scenario, it says why on the standard error. What it says there it says once."""
    os.lseek(scenario.fileno(), 0, os.SEEK_SET)
    command = [program(), "flatten", "-"]
    with subprocess.Popen(
        command, stdin=scenario, stdout=subprocess.PIPE, encoding="utf-8",
        stderr=subprocess.DEVNULL if again else None,
    ) as ran:
        assert ran.stdout
        try:
            for line in ran.stdout:
                if line.startswith("refused: "):
                    raise Refused(line.strip())
                yield line
        except GeneratorExit:
            ran.kill()  # else it would say that its output took no more
            raise
    if ran.returncode:
        raise ValueError(f"'irig flatten' ended with status {ran.returncode}")


def values(scenario: BinaryIO) -> Iterator[Any]:
    """The value of each line of a file, from its beginning on, but for those that are skipped."""
    scenario.seek(0)
    for line in scenario:
        if line.strip(b" \t\r\n"):
            yield json.loads(line)


def has_devices(scenario: BinaryIO) -> bool:
    """Whether the plant of a scenario has devices in place of readers. If its plant line is wrong,
    the program says so."""
    try:
        plant = next(values(scenario), None)
    except (RecursionError, ValueError):
        return False
    return isinstance(plant, dict) and plant.get("version") == DEVICES


class Lines:
    """The lines of a plant to one that hears them, by its name."""

    def __init__(self, plant: Value, name: str, is_inverted: bool) -> None:
        self.name = name
        self.start = Second.read(plant["start"])
        self.leaps = [Leap(leap["day"], leap["kind"]) for leap in plant["leaps"]]
        self.names = [f"G{number}" for number in range(len(plant["generators"]))]
        self.oddities = Oddities("tick")
        self.unit_us, self.length_us = COARSEST_US, 0
        self._high = (1 << len(self.names)) - 1 if is_inverted else 0  # between pulses

    @property
    def end_us(self) -> int:
        return FIRST_EDGE_US + self.length_us + TAIL_US

    def steps(self) -> Iterator[Step]:
        """Each time at which a line changes, from 0 on."""
        yield 0, self._high
        for time, pulses in self._pulses():
            yield time, pulses ^ self._high

    def spans(self) -> Iterator[Span]:
        """The same, by the times at which what stands there ends."""
        steps = self.steps()
        _, high = next(steps)
        for time, then in steps:
            yield time, high
            high = then
        yield self.end_us, high

    def _pulses(self) -> Iterator[Step]:
        """The lines on which a pulse is, from each change on."""
        raise NotImplementedError


def _chosen(name: Optional[str], names: Sequence[str], kind: str) -> str:
    """The name that is asked for, the first one if none is."""
    if name not in (None, *names):
        raise ValueError(f"it has no {kind} {name!r}; it has {', '.join(names)}")
    return name or names[0]


class DeviceLines(Lines):
    """The lines to a device, the first one if none is named."""

    def __init__(self, scenario: BinaryIO, device: Optional[str], is_inverted: bool) -> None:
        self._scenario = scenario
        for _ in self._flattened():
            pass  # from here on each line is known to be right
        events = values(scenario)
        plant = next(events)
        name = _chosen(device, [one["name"] for one in plant["devices"]], "device")
        super().__init__(plant, name, is_inverted)
        self.oddities = Oddities("edge")
        self._widest_us = ELEMENT_US  # of the pulses to the device
        self._over_us = 0  # when the last pulse by an event is over
        self._read(events)
        for time, _ in self._played(self.oddities):
            self.unit_us = gcd(self.unit_us, time)
        self.unit_us = gcd(self.unit_us, self.end_us)

    def _read(self, events: Iterator[Value]) -> None:
        """How long the scenario takes, and what its events do to the device."""
        for event in events:
            do = event["do"]
            if do in ("pass", "seconds"):
                self.length_us += event.get("us", 0) + SECOND_US * event.get("n", 0)
            elif do == "restart" and event["r"] == self.name:
                self.oddities.add(RESTARTS, self.length_us // SECOND_US)
            elif do == "pulse" and event["r"] == self.name:
                self._widest_us = max(self._widest_us, event["width"])
                self._over_us = max(self._over_us, self.length_us + event["width"])

    def _tail(self) -> List[Value]:
        """Events behind those of the scenario: all pulses that it sent end, and no more are sent."""
        rest = max(TAIL_US, self._over_us + 1 - self.length_us)
        pulled = [{"do": "pull", "g": line, "r": self.name} for line in range(len(self.names))]
        return pulled + [{"do": "pass", "us": min(rest - passed, MOST_PASS_US)}
                         for passed in range(0, rest, MOST_PASS_US)]

    def _flattened(self, tail: Sequence[Value] = ()) -> Iterator[str]:
        """A row for each pulse that has ended."""
        with tempfile.TemporaryFile() as made:
            self._scenario.seek(0)
            shutil.copyfileobj(self._scenario, made)
            made.writelines(b"\n" + json.dumps(event).encode() for event in tail)
            made.flush()
            rows = flattened(made, again=bool(tail))
            next(rows, None)  # the names of the columns
            yield from rows

    def _rows(self) -> Iterator[Tuple[int, int, int]]:
        """The line of each pulse to the device, its rise and its width, in the order of their ends."""
        try:
            for row in self._flattened(self._tail()):
                device, *numbers = row.split(",")
                if device == self.name:
                    line, rise, width = map(int, numbers)
                    yield line, rise, width
        except Refused:
            return  # the years that are served end within the tail

    def _changes(self, oddities: Oddities) -> Iterator[Change]:
        """Each change of a line, in the order of time. Until the last row comes, pulses may follow that
        rose before it ended, by no more than the widest one."""
        coming: List[Change] = []  # a heap
        ends: Dict[int, int] = {}  # of the last pulse on each line
        for line, rise, width in self._rows():
            if width == 0:
                oddities.add(NO_WIDTH, rise // SECOND_US)
                continue
            if ends.get(line) == rise:
                oddities.add(TOUCHES, rise // SECOND_US)
            ends[line] = rise + width
            heappush(coming, (rise, line))
            heappush(coming, (rise + width, line))
            while coming[0][0] < rise + width - self._widest_us:
                yield heappop(coming)
        yield from sorted(coming)

    def _pulses(self) -> Iterator[Step]:
        return self._played(Oddities("edge"))  # they are known

    def _played(self, oddities: Oddities) -> Iterator[Step]:
        changes, pulses = self._changes(oddities), 0
        for time, together in groupby(changes, lambda change: FIRST_EDGE_US + change[0]):
            before = pulses
            for _, line in together:
                pulses ^= 1 << line
            if pulses != before and time < self.end_us:
                yield time, pulses


class ReaderLines(Lines):
    """The lines to the ports of a reader, the first one if none is named. The scenario is a file that
    can be read twice."""

    def __init__(self, scenario: BinaryIO, reader: Optional[str], is_inverted: bool) -> None:
        lines = flattened(scenario)
        plant = json.loads(next(lines))
        name = _chosen(reader, [one["name"] for one in plant["readers"]], "reader")
        super().__init__(plant, name, is_inverted)
        self._scenario = scenario
        for event in map(json.loads, lines):
            if event["r"] == self.name:
                self.length_us += SECOND_US * (event["do"] == "tick")
                self.unit_us = gcd(self.unit_us, *event.get("widths", ()))

    def _pulses(self) -> Iterator[Step]:
        ends: Dict[int, int] = {}  # of the pulses that last
        for number, second in enumerate(self._seconds()):
            edge = FIRST_EDGE_US + number * SECOND_US
            for element, widths in enumerate(zip_longest(*second, fillvalue=0)):
                rise = edge + element * ELEMENT_US
                yield from _fallen(ends, rise)
                before = _bits(ends)
                if _rise(ends, rise, widths):
                    self.oddities.add(RUNS_ON, number + 1)
                if before != _bits(ends):
                    yield rise, _bits(ends)
        yield from _fallen(ends, self.end_us)

    def _seconds(self) -> Iterator[List[List[int]]]:
        """For each tick the widths of the pulses on each line since the one before."""
        lines = flattened(self._scenario, again=True)
        next(lines)
        tick, heard = 1, self._silence()
        for event in map(json.loads, lines):
            if event["r"] != self.name:
                continue
            if event["do"] == "tick":
                yield heard
                tick, heard = tick + 1, self._silence()
            elif event["do"] == "raw":
                self._hear(heard[event["g"]], event["widths"], tick)
            else:
                self.oddities.add(RESTARTS, tick)
        if any(heard):
            self.oddities.add(NO_TICK, tick - 1)

    def _silence(self) -> List[List[int]]:
        return [[] for _ in self.names]

    def _hear(self, heard: List[int], widths: Sequence[int], tick: int) -> None:
        heard += widths
        if len(heard) > MOST_PULSES:
            self.oddities.add(TOO_MANY, tick)
            del heard[MOST_PULSES:]
        if 0 in widths:
            self.oddities.add(NO_WIDTH, tick)


def _bits(lines: Dict[int, int]) -> int:
    return sum(1 << line for line in lines)


def _fallen(ends: Dict[int, int], time: int) -> Iterator[Step]:
    """The changes where pulses end before this time."""
    for end in sorted({end for end in ends.values() if end < time}):
        for line in [line for line, at in ends.items() if at == end]:
            del ends[line]
        yield end, _bits(ends)


def _rise(ends: Dict[int, int], rise: int, widths: Sequence[int]) -> bool:
    """Pulses of these widths begin, of 0 us none. Whether one runs into them."""
    runs_on = False
    for line, width in enumerate(widths):
        end = ends.pop(line, 0)
        runs_on |= bool(end and width)
        if width or end > rise:
            ends[line] = max(end, rise + width)
    return runs_on


def lines_to(scenario: BinaryIO, name: Optional[str], is_inverted: bool) -> Lines:
    """The lines to a reader or a device of a scenario, the first one if none is named."""
    kind = DeviceLines if has_devices(scenario) else ReaderLines
    return kind(scenario, name, is_inverted)


# ---- files


def write_dump(out: TextIO, lines: Lines) -> None:
    """A value change dump. Its unit is as coarse as the changes allow, since sigrok takes a sample
    each unit."""
    unit = next(unit for unit in (100, 10, 1) if lines.unit_us % unit == 0)
    codes = "abcde"[: len(lines.names)]
    out.write(f"$comment The lines to {lines.name}; its first edge is at 50 ms. $end\n")
    out.write(f"$timescale {unit} us $end\n$scope module irig $end\n")
    for code, name in zip(codes, lines.names):
        out.write(f"$var wire 1 {code} {name} $end\n")
    out.write("$upscope $end\n$enddefinitions $end\n")
    before: Optional[int] = None
    for time, high in lines.steps():
        differs = -1 if before is None else high ^ before
        changed = (f"{high >> line & 1}{code}" for line, code in enumerate(codes)
                   if differs >> line & 1)
        out.write(f"#{time // unit} {' '.join(changed)}\n")
        before = high
    out.write(f"#{lines.end_us // unit}\n")


def _levels(lines: Lines) -> List[str]:
    """The end of a row of a table, for each state of the lines."""
    places = range(len(lines.names))
    return ["".join(f",{high >> line & 1}" for line in places) + "\n"
            for high in range(1 << len(lines.names))]


def _table_head(lines: Lines) -> str:
    return ",".join(["Time [s]", *lines.names]) + "\n"


def write_changes(out: TextIO, lines: Lines) -> None:
    """A table with a row for each change, and one at the end."""
    levels, high = _levels(lines), 0
    out.write(_table_head(lines))
    for time, high in lines.steps():
        out.write(f"{time / 1e6:.6f}{levels[high]}")
    out.write(f"{lines.end_us / 1e6:.6f}{levels[high]}")


def write_samples(out: TextIO, lines: Lines, rate: int) -> None:
    """A table with a row for each sample."""
    levels, row = _levels(lines), 0
    out.write(_table_head(lines))
    for end, high in lines.spans():
        last = _sample(end, rate)
        text = levels[high]
        out.writelines(f"{number / rate:.6f}{text}" for number in range(row, last))
        row = last


def write_record(path: Path, lines: Lines, rate: int, is_text: bool) -> None:
    """A disturbance record of COMTRADE, of 2013: a .cfg, and its .dat of text or of numbers."""
    count, length = len(lines.names), _sample(lines.end_us, rate)
    first = lines.start.plus(-1, lines.leaps)  # 950 ms behind it is sample 1
    leap = leap_field(first, first.plus(lines.end_us // SECOND_US + 1, lines.leaps), lines.leaps)
    day, clock = str(first)[:10].split("-"), str(first)[11:19]
    stamp = f"{'/'.join(reversed(day))},{clock}.{SECOND_US - FIRST_EDGE_US:06}"
    channels = [f"{number},{name},,,0" for number, name in enumerate(lines.names, 1)]
    form = "ASCII" if is_text else "BINARY"
    rows = [f"irig,{lines.name},2013", f"{count},0A,{count}D", *channels, "50", "1", f"{rate},{length}",
            stamp, stamp, form, "1", "0,0", f"0,{leap}", ""]
    path.write_bytes("\r\n".join(rows).encode())
    with open(path.with_suffix(".dat"), "wb") as file:
        begin = 0
        for time, high in lines.spans():
            end = _sample(time, rate)
            bits = "".join(f",{high >> line & 1}" for line in range(count))
            for number in range(begin, end):
                at = min(round(number * SECOND_US / rate), NO_TIME)
                file.write(f"{number + 1},{at}{bits}\r\n".encode() if is_text
                           else struct.pack("<IIH", number + 1, at, high))
            begin = end


def write_sound(path: Path, lines: Lines, rate: int) -> None:
    """A sound of 16 bits with a channel for each line."""
    count, length = len(lines.names), _sample(lines.end_us, rate)
    if length * 2 * count > MOST_BYTES:
        most = MOST_BYTES // (2 * count * rate)
        raise ValueError(f"a .wav has room for {most} seconds of {count} lines at this --rate")
    frames = [_frame(high, count) for high in range(1 << count)]
    with wave.open(str(path), "wb") as sound:
        sound.setparams((count, 2, rate, length, "NONE", ""))
        begin = 0
        for time, high in lines.spans():
            end = _sample(time, rate)
            for place in range(begin, end, rate):
                sound.writeframesraw(frames[high] * min(rate, end - place))
            begin = end


def _frame(high: int, count: int) -> bytes:
    values = (LOUD if high >> line & 1 else -LOUD for line in range(count))
    return b"".join(value.to_bytes(2, "little", signed=True) for value in values)


def _sample(time: int, rate: int) -> int:
    """The number of the sample that is nearest to a time."""
    return (2 * time * rate + SECOND_US) // (2 * SECOND_US)
