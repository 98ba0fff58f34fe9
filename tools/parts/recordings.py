"""Recordings of lines, read as they stream: the names of the channels, and each change of a level.

    .vcd       value change dump: PulseView, sigrok-cli, GTKWave, logic analysers
    .csv       sigrok's own, a row a sample; with times in its first column, a row a change or a
               sample, of levels or of volts; or pulses, with the columns port, rise_us, width_us
    .cfg       disturbance records (comtrade.py)

sigrok-cli makes a value change dump of a session of its own (.sr), and a table of volts of a sound
(.wav). It reads tables too, but takes each row for a sample.
"""
from __future__ import annotations

import heapq
import re
import subprocess
import wave
from contextlib import contextmanager
from dataclasses import dataclass
from io import TextIOWrapper
from itertools import chain
from pathlib import Path
from typing import Dict, Iterator, List, Optional, Sequence, TextIO, Tuple

from parts.changes import END, Change, Level, Recording, in_order
from parts.comtrade import open_record

UNITS_US = {"s": 1e6, "ms": 1e3, "us": 1.0, "ns": 1e-3, "ps": 1e-6, "fs": 1e-9}
HERTZ = {"hz": 1.0, "khz": 1e3, "mhz": 1e6, "ghz": 1e9}
MADE = {".sr": "vcd", ".wav": "csv"}  # what sigrok-cli makes of others
WORD = 1 << 32  # at which the times of a list of pulses wrap
LONGEST_US = 1_000_000  # a pulse of a list stands within so much behind another that ended before
PULSE = ["port", "rise_us", "width_us"]  # the columns of a list of pulses


def open_recording(path: Path, threshold: Optional[float]) -> Recording:
    """Reads the head of a recording. The threshold is for voltages, in the channel's own unit."""
    ending = path.suffix.lower()
    if ending in (".vcd", ".sr"):
        return _dump(path)
    if ending == ".csv":
        return _table(path, threshold)
    if ending == ".wav":
        return _table(path, _of_sound(path, threshold or 0.0))
    if ending in (".cfg", ".cff"):
        return open_record(path, threshold)
    if ending == ".dat":
        raise ValueError(f"these are the samples of a record: name its {path.stem}.cfg")
    raise ValueError("it ends with none of .vcd, .sr, .csv, .wav, .cfg, .cff")


def _of_sound(path: Path, threshold: float) -> float:
    """The threshold by sigrok's numbers: of samples of 8 bits these are 0 to 1."""
    try:
        with wave.open(str(path)) as sound:
            return (threshold + 1) / 2 if sound.getsampwidth() == 1 else threshold
    except (wave.Error, EOFError) as error:
        raise ValueError(f"it is no sound as whole numbers: {error}") from None


@contextmanager
def _opened(path: Path) -> Iterator[TextIO]:
    """A text, whatever stands in its remarks. Of what is none sigrok-cli makes one."""
    form = MADE.get(path.suffix.lower())
    with open(path, encoding="utf-8-sig", errors="replace") as file:
        if not form:
            yield file
            return
    words = ["sigrok-cli", "-i", str(path.absolute()), "-O", form]
    try:
        made = subprocess.Popen(words, stdout=subprocess.PIPE, stderr=subprocess.DEVNULL)
    except FileNotFoundError:
        raise ValueError("sigrok-cli is missing, which reads it: apt-get install sigrok-cli") from None
    with made, TextIOWrapper(made.stdout, errors="replace") as text:
        try:
            if not made.stdout.peek(1):
                raise ValueError("sigrok-cli does not read it")
            yield text
            if not text.read(1) and made.wait():
                raise ValueError("sigrok-cli broke off")
        finally:
            made.kill()


def _rate_of(text: str) -> float:
    """Samples a second, of a text as `1 MHz`."""
    found = re.fullmatch(r"([\d.]+)\s*([kMG]?Hz)?", text.strip(), re.IGNORECASE)
    if not found or not float(found[1]):
        raise ValueError(f"{text.strip()!r} is no rate of samples, as 1 MHz")
    return float(found[1]) * HERTZ[(found[2] or "hz").lower()]


# ---- value change dumps


def _dump(path: Path) -> Recording:
    head: List[str] = []
    with _opened(path) as file:
        for line in file:
            head += line.split()
            if "$enddefinitions" in line:
                break
        else:
            raise ValueError("it has no $enddefinitions, as a value change dump has")
    text = " ".join(head)
    found = re.search(r"\$timescale\s+(\d+)\s*(\w+)\s+\$end", text)
    if not found or found[2] not in UNITS_US:
        raise ValueError("it has no $timescale, as a value change dump has")
    unit = int(found[1]) * UNITS_US[found[2]]
    wires: Dict[str, str] = {}
    for code, name in re.findall(r"\$var\s+\w+\s+1\s+(\S+)\s+(.+?)\s+\$end", text):
        wires.setdefault(name, code)

    def changes(wanted: Sequence[int]) -> Iterator[Change]:
        codes = list(wires.values())
        return in_order(_dumped(path, {codes[of]: place for place, of in enumerate(wanted)}, unit))

    return Recording(list(wires), changes)


def _dumped(path: Path, places: Dict[str, int], unit: float) -> Iterator[Change]:
    """The changes of a dump by the codes of its wires; a level that is not known is low."""
    time, words = 0.0, {f"{level}{code}": (place, int(level == "1"))
                        for code, place in places.items() for level in "01xXzZ"}
    with _opened(path) as file:
        for line in file:
            if "$enddefinitions" in line:
                break
        for word in chain.from_iterable(map(str.split, file)):
            if word[0] == "#":
                time = int(word[1:]) * unit
            elif word in words:
                place, level = words[word]
                yield time, place, level
    yield time, END, 0


# ---- tables


@dataclass
class _Head:
    """What stands above a table's rows."""

    names: List[str]
    above: int  # how many lines
    has_times: bool
    unit: float  # of the times, in microseconds
    rate: Optional[float]  # samples a second, if sigrok wrote it


def _cells(line: str) -> List[str]:
    return [cell.strip().strip('"') for cell in line.split(",")]


def _is_remark(line: str) -> bool:
    return not line.strip() or line[0] in ";#%" or line.startswith("META")


def _head_of(path: Path) -> _Head:
    rate, channels, line, number = None, [], "", 0
    with _opened(path) as file:
        for number, line in enumerate(file, 1):
            if not _is_remark(line):
                break
            told = re.match(r"(?:[;#%]|META)\s*(samplerate|channels \(.*\)):\s*(.+)", line, re.I)
            if told and told[1].lower() == "samplerate":
                rate = _rate_of(told[2])
            elif told:
                channels = _cells(told[2])
        else:
            raise ValueError("it has no line with the names of its columns")
    cells = _cells(line)
    has_times = bool(re.match(r"time|(milli|micro|nano|pico|femto)?seconds$", cells[0], re.I))
    if not has_times and rate is None and cells != PULSE:
        raise ValueError("its first column is no time, and no line says '; Samplerate: ..'")
    names = cells[1:] if has_times else cells
    if not names:
        raise ValueError("no ',' stands between its columns; export it with commas")
    if set(names) in ({"logic"}, {""}):  # sigrok's word for each, or none; the names stand above
        names = channels if len(channels) == len(names) else [f"D{of}" for of in range(len(names))]
    return _Head(names, number, has_times, _unit_of(cells[0]), rate)


def _unit_of(cell: str) -> float:
    """The unit of the times under `Time [s]`, in microseconds."""
    told = re.search(r"[\[(](\w+)[\])]", re.sub("[\u00b5\u03bc]", "u", cell))  # both micro signs
    if told and told[1] not in UNITS_US:
        raise ValueError(f"{told[1]!r} is no unit of times; it may be {', '.join(UNITS_US)}")
    return UNITS_US[told[1] if told else "s"]


def _table(path: Path, threshold: Optional[float]) -> Recording:
    head = _head_of(path)
    if head.names == PULSE:
        return Recording([f"port{number}" for number in _ports_in(path, head.above)],
                         lambda wanted: _pulses(path, head.above, wanted))

    def changes(wanted: Sequence[int]) -> Iterator[Change]:
        return in_order(_tabled(path, head, wanted, threshold))

    return Recording(head.names, changes)


def _body(file: TextIO, above: int) -> Iterator[str]:
    """The rows of a table."""
    for number, line in enumerate(file):
        if number >= above and not _is_remark(line):
            yield line


class _Times:
    """When each row of a table was, in microseconds."""

    def __init__(self, head: _Head) -> None:
        self.head = head
        self.step: Optional[int] = None

    def of(self, row: int, line: str) -> float:
        if not self.head.has_times:
            assert self.head.rate
            return row * 1e6 / self.head.rate
        cell = line[: line.find(",")].strip().strip('"')
        if self.head.rate is None or not cell.isdecimal():
            return float(cell) * self.head.unit
        # sigrok cuts the time of one sample to a whole number and multiplies it, from 1 on.
        if self.step is None:
            self.step = int(cell)
        if not self.step:
            raise ValueError("its times are all 0, as sigrok has them of some inputs: omit them")
        return (int(cell) // self.step - 1) * 1e6 / self.head.rate


def _tabled(
    path: Path, head: _Head, wanted: Sequence[int], threshold: Optional[float]
) -> Iterator[Change]:
    """The changes of a table. Rows that are alike but for their times are read once."""
    times, levels = _Times(head), [Level(threshold) for _ in wanted]
    row, before, line = -1, "", ""
    with _opened(path) as file:
        for row, line in enumerate(_body(file, head.above)):
            values = line[line.find(",") + 1:] if head.has_times else line
            if values == before:
                continue
            before = values
            time, cells = times.of(row, line), values.split(",")
            if len(cells) < len(head.names):
                raise ValueError(f"its row {row + 1} has fewer columns than names")
            for place, of in enumerate(wanted):
                if levels[place].hear(cells[of]):
                    yield time, place, levels[place].now
    if row < 0:
        raise ValueError("it has no row")
    yield times.of(row, line), END, 0


# ---- lists of pulses


def _ports_in(path: Path, above: int) -> List[int]:
    """The ports of a list: three or five, of which some may be silent; else those in it."""
    with _opened(path) as file:
        found = sorted({int(line.split(",", 1)[0]) for line in _body(file, above)})
    return next((list(range(count)) for count in (3, 5) if not found or found[-1] < count), found)


def _pulses(path: Path, above: int, wanted: Sequence[int]) -> Iterator[Change]:
    """The changes of a list of pulses. Each was written once it had ended, so that of two channels
    the earlier rise may stand later."""
    ports = _ports_in(path, above)
    places = {ports[of]: place for place, of in enumerate(wanted)}
    waiting: List[Change] = []
    last = end = None
    with _opened(path) as file:
        for line in _body(file, above):
            port, rise, width = map(int, line.split(","))
            if last is None or end is None:
                last = end = rise
                yield from ((rise - LONGEST_US, place, 0) for place in places.values())
            # Times wrap, and go back by no more than a pulse.
            last += (rise - last + LONGEST_US) % WORD - LONGEST_US
            end = max(end, last + width)
            if port in places:
                heapq.heappush(waiting, (last, places[port], 1))
                heapq.heappush(waiting, (last + width, places[port], 0))
            while waiting and waiting[0][0] < end - LONGEST_US:
                yield heapq.heappop(waiting)
    while waiting:
        yield heapq.heappop(waiting)
    yield end or 0, END, 0
