"""Disturbance records: COMTRADE, as IEEE C37.111 has it, of 1991, 1999 and 2013. A record is a .cfg with
a .dat beside it, or both in a .cff; the samples are read as they stream."""
from __future__ import annotations

import math
import re
import struct
from bisect import bisect_left
from pathlib import Path
from typing import BinaryIO, Iterator, List, NamedTuple, Optional, Sequence, Tuple

from parts import package  # noqa: F401
from parts.changes import END, Change, Level, Recording, Stamp, in_order, logical

from irig import Fault, Leap, Second
from irig.seconds import day_number, is_month_end

# How the number of an analog channel is stored, and what stands where one is missing.
NUMBERS = {"BINARY": ("h", -(1 << 15)), "BINARY32": ("i", -(1 << 31)), "FLOAT32": ("f", -math.inf)}
MOST = 3.4e38  # a float beyond it, or that is no number, is missing too
MISSING_TEXTS = ("", "99999", "999999")
NO_TIME = 0xFFFFFFFF
MONTH_FIRST, NANOSECONDS = 1991, 2013  # the editions with such dates, and that may have such times
ROWS = 4096  # that are read at once
SECTION = re.compile(rb"---\s*file type:\s*(\w+)[^:]*(?::\s*(\d+))?\s*---", re.IGNORECASE)
DATE, CLOCK = re.compile(r"(\d+)/(\d+)/(\d+)"), re.compile(r"(\d+):(\d+):(\d+)(?:\.(\d*))?")
ZONE = re.compile(r"([+-]?)(\d\d?)(?:[h:t](\d\d))?[a-z]?", re.IGNORECASE)

# A sample: its number, its time by the record if it has one, and the numbers of the channels that are
# wanted, of which some may be missing; none if all channels are as in the sample before.
Row = Tuple[int, Optional[float], List[Optional[float]]]


class Channel(NamedTuple):
    """A channel, by its place among all, where analog ones stand first. Their numbers are multiplied and
    added to, and are then of a unit, which a digital one has not."""

    name: str
    place: int
    unit: str = ""
    factor: float = 1.0
    addend: float = 0.0


class Configuration(NamedTuple):
    """What a .cfg says, of digital channels first. The rates are samples a second, each up to a sample; a
    time of a sample is in units of so many microseconds."""

    channels: List[Channel]
    rates: List[Tuple[int, float]]
    form: str
    unit_us: float
    stamp: Stamp


class Data(NamedTuple):
    """Where samples stand: in a file from a byte on, so many bytes if that is said."""

    path: Path
    begin: int = 0
    length: float = math.inf


def open_record(path: Path, threshold: Optional[float]) -> Recording:
    """Reads the configuration of a record. The threshold is for analog channels, in their own unit."""
    if path.suffix.lower() == ".cff":
        head, data = _single(path)
    else:
        head, data = path.read_bytes(), Data(_beside(path))
    read = _configuration(head.decode("utf-8-sig", "replace"))

    def changes(wanted: Sequence[int]) -> Iterator[Change]:
        return in_order(_changes(read, data, [read.channels[of] for of in wanted], threshold))

    return Recording([channel.name for channel in read.channels], changes, read.stamp)


def _beside(path: Path) -> Path:
    """The .dat of a .cfg, in letters of any case."""
    names = (path.stem.lower(), ".dat")
    for other in sorted(path.parent.iterdir()):
        if (other.stem.lower(), other.suffix.lower()) == names:
            return other
    raise ValueError(f"its samples are missing: no {path.stem}.dat stands beside it")


def _single(path: Path) -> Tuple[bytes, Data]:
    """The configuration in a single file, and where its samples are."""
    section, head = b"", b""
    with open(path, "rb") as file:
        for line in file:
            found = SECTION.match(line)
            section = found[1].upper() if found else section
            if found and section == b"DAT":
                return head, Data(path, file.tell(), float(found[2] or math.inf))
            if section == b"CFG" and not found:
                head += line
    raise ValueError("no line '--- file type: DAT ASCII ---', or BINARY, stands above its samples")


# ---- the configuration


class _Lines:
    """The lines of a configuration, in order."""

    def __init__(self, text: str) -> None:
        self._lines = [line.split(",") for line in re.split(r"\r\n|\n|\r", text.rstrip())]
        self.number = 0  # of the last line that was taken

    @property
    def is_rate(self) -> bool:
        """Whether the next line may be one of a rate and a sample, not a date."""
        return self.number < len(self._lines) and "/" not in self._lines[self.number][0]

    def take(self, what: str, is_needed: bool = True) -> List[str]:
        """The fields of the next line, without blanks, as many as any line has."""
        if is_needed and self.number >= len(self._lines):
            raise ValueError(f"its configuration ends before {what}")
        cells = self._lines[self.number] if self.number < len(self._lines) else []
        self.number += 1
        return [cell.strip() for cell in cells] + [""] * 13

    def value(self, text: str, what: str, default: Optional[float] = None) -> float:
        """The number of a field of that line that is not below 0, if a default is not given."""
        try:
            value = float(text) if text or default is None else default
        except ValueError:
            value = math.nan
        if not math.isfinite(value) or default is None and value < 0:
            raise ValueError(f"line {self.number} of its configuration: {text!r} is no {what}")
        return value


def _configuration(text: str) -> Configuration:
    lines = _Lines(text)
    revision = int(lines.value(lines.take("its name")[2], "year of an edition", MONTH_FIRST))
    cells = lines.take("the numbers of channels")
    analogs, digitals = (int(lines.value(cell.rstrip("AaDd"), "number of channels")) for cell in cells[1:3])
    channels = [_analog(lines, place) for place in range(analogs)]
    channels[:0] = [Channel(lines.take("all channels")[1] or f"D{number + 1}", analogs + number)
                    for number in range(digitals)]
    lines.take("the line frequency")
    rates = _rates(lines)
    stamps = [",".join(lines.take("the time stamps")[:2]) for _ in range(2)]
    form = lines.take("the type of the samples")[0].upper()
    if form not in ("ASCII", *NUMBERS):
        known = ", ".join(("ASCII", *NUMBERS))
        raise ValueError(f"line {lines.number} of its configuration: {form!r} is none of {known}")
    multiple = lines.value(lines.take("", False)[0], "multiple of times", 1.0)
    more = [*lines.take("", False)[:2], *lines.take("", False)[:2]]
    fine = revision >= NANOSECONDS and len(stamps[0].partition(".")[2]) > 6
    step = 1e6 / rates[0][1] if rates[0][1] else 0.0
    stamp = _stamp(stamps, revision, more, step)
    return Configuration(channels, rates, form, multiple * (0.001 if fine else 1.0), stamp)


def _analog(lines: _Lines, place: int) -> Channel:
    cells = lines.take("all channels")
    factor = lines.value(cells[5], "factor of a channel", 1.0)
    addend = lines.value(cells[6], "addend of a channel", 0.0)
    return Channel(cells[1] or f"A{place + 1}", place, cells[4] or "V", factor, addend)


def _rates(lines: _Lines) -> List[Tuple[int, float]]:
    """Up to which sample there is which rate. Where there is none, its line may be missing."""
    count = int(lines.value(lines.take("the number of rates")[0], "number of rates"))
    rates: List[Tuple[int, float]] = []
    while len(rates) < count or (not rates and lines.is_rate):
        cells = lines.take("all rates")
        rate = lines.value(cells[0], "rate of samples")
        rates.append((int(lines.value(cells[1], "number of a sample")), rate))
        if len(rates) > 1 and rates[-1][0] <= rates[-2][0]:
            raise ValueError(f"line {lines.number} of its configuration: its last sample is not behind"
                             " that of the rate above")
    return rates or [(0, 0.0)]


def _stamp(texts: List[str], revision: int, more: List[str], step_us: float) -> Stamp:
    """The stamp of sample 1, by the texts of it and of the trigger, and the fields of 2013."""
    zone = zone_of(more[0])
    (first, after), (trigger, later) = (_time(text, revision, zone or 0) for text in texts)
    is_known = first and trigger and (first.day == trigger.day or not is_month_end(first.day))
    lag = (trigger - first) * 1_000_000 + later - after if first and trigger and is_known else None
    quality = int(more[2], 16) if re.fullmatch("[0-9a-bA-BfF]", more[2]) else None
    leap = int(more[3]) if re.fullmatch("[0-3]", more[3]) else None
    return Stamp(texts[0], first, after, zone, quality, leap, lag, step_us)


def zone_of(text: str) -> Optional[int]:
    """The minutes that a time is ahead of UTC, of a text as -5h30; None of x."""
    found = ZONE.fullmatch(text)
    minutes = 60 * int(found[2]) + int(found[3] or 0) if found else 0
    return (-minutes if found[1] == "-" else minutes) if found else None


def _time(text: str, revision: int, zone: int) -> Tuple[Optional[Second], int]:
    """The second of a stamp in UTC, and the microseconds behind it; None of what is no such time."""
    date, _, clock = text.partition(",")
    day, when = DATE.fullmatch(date), CLOCK.fullmatch(clock)
    if not day or not when:
        return None, 0
    numbers = [int(day[1]), int(day[2])]
    if (revision <= MONTH_FIRST and numbers[0] <= 12) or numbers[1] > 12:
        numbers.reverse()
    year = int(day[3]) + (2000 if len(day[3]) <= 2 else 0)
    hour, minute, second = (int(when[place]) for place in (1, 2, 3))
    if hour > 23 or minute > 59 or second > 60:
        return None, 0
    after = min(round(float(f"0.{when[4] or 0}") * 1e6), 999_999) + (1_000_000 if second == 60 else 0)
    try:
        number = day_number(f"{year:04}-{numbers[1]:02}-{numbers[0]:02}")
        sod = 3600 * hour + 60 * (minute - zone) + min(second, 59)
        return Second(number, 0) + sod, after
    except Fault:
        return None, 0


def leap_field(first: Second, last: Second, leaps: Sequence[Leap]) -> int:
    """What of a leap second lies in a recording of these seconds: 0 for none, 1 added, 2 deleted."""
    for leap in leaps:
        day = day_number(leap.day)
        if first < Second(day + 1, 0) and (last.day > day or last.is_leap):
            return 1 if leap.kind == "insert" else 2
    return 0


# ---- the samples


class _Clock:
    """When samples are, in microseconds behind the first one: by the rates, or where one is 0 by the
    record's own times."""

    def __init__(self, read: Configuration) -> None:
        self._rates, self._unit = read.rates, read.unit_us
        self._ends = [end for end, _ in read.rates]
        self._has_rates = all(rate for _, rate in read.rates)
        self._begins: List[Tuple[int, float]] = []  # of each rate: the sample before, and its time
        self._first: Optional[float] = None
        begin, time = 1, 0.0
        for end, rate in read.rates:
            self._begins.append((begin, time))
            begin, time = end, time + (end - begin) * 1e6 / (rate or 1.0)

    def at(self, number: int, time: Optional[float]) -> float:
        if self._has_rates:
            place = min(bisect_left(self._ends, number), len(self._ends) - 1)
            begin, before = self._begins[place]
            found = before + (number - begin) * 1e6 / self._rates[place][1]
        elif time is None:
            raise ValueError(f"its sample {number} has no time, and a rate of samples is 0")
        else:
            found = time * self._unit
        self._first = found if self._first is None else self._first
        return found - self._first


def _changes(
    read: Configuration, data: Data, wanted: Sequence[Channel], threshold: Optional[float]
) -> Iterator[Change]:
    for channel in wanted:
        if channel.unit and threshold is None:
            reason = f"--threshold says above how many {channel.unit} it is high"
            raise ValueError(f"{channel.name} is an analog channel: {reason}")
    levels = [Level(threshold if channel.unit else None) for channel in wanted]
    rows = _text_rows if read.form == "ASCII" else _number_rows
    clock, count, number, time = _Clock(read), 0, 0, None
    with open(data.path, "rb") as file:
        file.seek(data.begin)
        for count, (number, time, values) in enumerate(rows(read, file, data, wanted), 1):
            for place, value in enumerate(values):
                if value is not None and levels[place].take(value):
                    yield clock.at(number, time), place, levels[place].now
    last = read.rates[-1][0]
    if max(count, number) < max(last, 1):
        raise ValueError(f"its samples end with number {number}, where it says {last}: it is cut off")
    yield clock.at(number, time), END, 0


def _text_rows(
    read: Configuration, file: BinaryIO, data: Data, wanted: Sequence[Channel]
) -> Iterator[Row]:
    before = ""
    for row, line in enumerate(file, 1):
        text = line.decode("ascii", "replace").rstrip("\r\n\x1a")
        if not text.strip():
            continue
        number, time, values = (text + ",,").split(",", 2)
        found: List[Optional[float]] = []
        if values != before:
            before, cells = values, values.split(",")
            if len(cells) < len(read.channels) + 2:
                raise ValueError(f"line {row} of its samples has fewer fields than the record channels")
            found = [_value(one, cells[one.place], row) for one in wanted]
        yield int(_number(number, row) or row), _number(time, row), found


def _value(channel: Channel, text: str, row: int) -> Optional[float]:
    number = _number(text, row) if channel.unit else logical(text)
    return number if number is None else channel.factor * number + channel.addend


def _number(text: str, row: int) -> Optional[float]:
    """The number of a field, if it is not missing."""
    word = text.strip()
    try:
        return None if word in MISSING_TEXTS else float(word)
    except ValueError:
        raise ValueError(f"line {row} of its samples: {word!r} is no number") from None


def _number_rows(
    read: Configuration, file: BinaryIO, data: Data, wanted: Sequence[Channel]
) -> Iterator[Row]:
    code, missing = NUMBERS[read.form]
    analogs = sum(bool(channel.unit) for channel in read.channels)
    words = -(-(len(read.channels) - analogs) // 16)
    form, before = struct.Struct(f"<II{analogs}{code}{words}H"), None
    first = 0 if any(channel.unit for channel in wanted) else analogs  # that may make a difference

    def value(channel: Channel) -> Optional[float]:
        if not channel.unit:
            word, bit = divmod(channel.place - analogs, 16)
            return int(values[analogs + word]) >> bit & 1
        number: float = values[channel.place]
        is_there = number != missing and abs(number) < MOST
        return channel.factor * number + channel.addend if is_there else None

    end = data.begin + data.length
    while block := file.read(int(min(ROWS * form.size, end - file.tell()))):
        whole = len(block) // form.size * form.size
        for number, time, *values in form.iter_unpack(block[:whole]):
            found = [] if values[first:] == before else [value(channel) for channel in wanted]
            before = values[first:]
            yield number, None if time == NO_TIME else time, found
