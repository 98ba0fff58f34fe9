"""Frames of IRIG-B (code B004) and their control bits.

A frame is a text of a hundred symbols, in ten groups with a blank between, as `irig frame` prints
it: P is a marker, 0 and 1 are data, and ? is a bad pulse. In a frame that is taken, blanks may stand
anywhere or be missing, and it may be given as numbers: 0, 1, 2 for P, 3 for ?.
"""
from __future__ import annotations

import ctypes
from dataclasses import asdict, dataclass, fields
from typing import Iterable, List, Optional, Union

from . import _library as c
from .faults import Fault, check, within
from .seconds import Claim, Second, Time
from .words import MARKS, Kind, Parity, Sense, number_of

LETTERS = "01P?"

Frame = Union[str, Iterable[int]]

MOST = 0xFFFFFFFF  # microseconds of a width
MOST_HALF_HOURS = 31  # of a zone from UTC
CONTROL_BITS, SBS_BITS = 18, 17


def symbols(frame: Frame) -> bytes:
    """The symbols of a frame as numbers: 0, 1, 2 for a marker, 3 for a bad pulse."""
    if not isinstance(frame, str):
        numbers = bytes(frame)
        if any(number > 3 for number in numbers):
            raise ValueError("bad frame numbers: 0 to 3 may stand there; letters come as a str")
        return numbers
    for place, letter in enumerate(frame, 1):
        if letter != " " and letter not in LETTERS:
            raise ValueError(
                f"bad frame text: character {place} is {letter!r};"
                " P, 0, 1, ? and blanks may stand there"
            )
    return bytes(LETTERS.index(letter) for letter in frame if letter != " ")


def text(numbers: bytes) -> str:
    """Symbols as a text, in groups of ten."""
    letters = "".join(LETTERS[number] for number in numbers)
    return " ".join(letters[place : place + 10] for place in range(0, len(letters), 10))


def widths(frame: Frame) -> List[int]:
    """The widths of a frame's pulses in microseconds: 2000, 5000, 8000, and 0 for a bad one."""
    return [c.width_us(number) for number in symbols(frame)]


def classify(width_us: int) -> str:
    """The symbol of a pulse of this width in microseconds: "0", "1", "P" or "?"."""
    return LETTERS[c.classify(within("width_us", width_us, 0, MOST))]


@dataclass(frozen=True)
class Control:
    """What the control bits of a frame say (IEEE 1344).

    leap_pending: a leap second comes at the end of this minute
    leap_delete: the pending leap second is deleted, not inserted
    dst_pending: daylight saving is about to begin or to end
    dst: daylight saving is in force
    offset_half_hours: of the coded time from UTC, -31 to 31
    quality: 0, locked, to 15, failed
    """

    leap_pending: bool = False
    leap_delete: bool = False
    dst_pending: bool = False
    dst: bool = False
    offset_half_hours: int = 0
    quality: int = 0

    def pack(self) -> int:
        """The number of the control bits, bit 0 from element 60; parity and the last bits are 0."""
        word = ctypes.c_uint32()
        check(c.control_pack(self.held(), word))
        return word.value

    @classmethod
    def unpack(cls, word: int) -> Control:
        """What a number of control bits says, below 2^18."""
        held = c.Control()
        check(c.control_unpack(within("word", word, 0, (1 << CONTROL_BITS) - 1), held))
        return cls(
            leap_pending=bool(held.leap_pending),
            leap_delete=bool(held.leap_delete),
            dst_pending=bool(held.dst_pending),
            dst=bool(held.dst),
            offset_half_hours=held.offset_half_hours,
            quality=held.quality,
        )

    def held(self) -> c.Control:
        """The control bits as C holds them."""
        most = MOST_HALF_HOURS
        within("offset_half_hours", self.offset_half_hours, -most, most)
        within("quality", self.quality, 0, 15)
        for name in ("leap_pending", "leap_delete", "dst_pending", "dst"):
            within(name, getattr(self, name), 0, 1)
        return c.Control(**asdict(self))


@dataclass(frozen=True)
class Coded:
    """What a frame codes.

    second: 0 to 60; 60 is an inserted leap second
    minute: 0 to 59
    hour: 0 to 23
    day: of the year, 1 to 366
    year: of the century, 0 to 99, for 2000 to 2099
    control: the 18 control bits as a number, bit 0 from element 60
    sbs: the straight binary seconds of the day, below 2^17
    """

    second: int
    minute: int
    hour: int
    day: int
    year: int
    control: int = 0
    sbs: int = 0

    def __str__(self) -> str:
        clock = f"{self.hour:02}:{self.minute:02}:{self.second:02}"
        date = f"{2000 + self.year}-{self.day:03}"
        return f"coded {date} {clock} control {self.control} sbs {self.sbs}"

    def held(self) -> c.Coded:
        """The coded time as C holds it."""
        for name, (least, most) in RANGES.items():
            within(name, getattr(self, name), least, most)
        return c.Coded(**asdict(self))


RANGES = {
    "second": (0, 60),
    "minute": (0, 59),
    "hour": (0, 23),
    "day": (1, 366),
    "year": (0, 99),
    "control": (0, (1 << CONTROL_BITS) - 1),
    "sbs": (0, (1 << SBS_BITS) - 1),
}


def _coded_held(held: c.Coded) -> Coded:
    return Coded(*(getattr(held, field.name) for field in fields(Coded)))


def encode(time: Union[Coded, Time]) -> str:
    """The frame of a coded time, its elements without a field 0. Of a second, its frame by a clock
    in UTC, as `irig frame TIME` prints it."""
    if not isinstance(time, Coded):
        return frame(time)
    held = c.Symbols()
    check(c.encode(time.held(), held))
    return text(bytes(held))


def decode(frame: Frame) -> Coded:
    """What a frame codes, or its first fault, `Short` to `Range`. Parity and straight binary
    seconds are not compared: `read` does that."""
    numbers, held = symbols(frame), c.Coded()
    check(c.decode(numbers, len(numbers), held))
    return _coded_held(held)


def coded(time: Time, local: int = 0, control: Control = Control()) -> Coded:
    """The coded time of a second by a clock that is `local` half hours ahead of UTC, -31 to 31,
    with these control bits."""
    held = c.Coded()
    check(c.coded_of(_utc(time), _zone(local), held))
    held.control = control.pack()
    return _coded_held(held)


def frame(
    time: Time,
    local: int = 0,
    pending: Optional[Kind] = None,
    parity: Parity = "even",
    sense: Sense = "add",
    *,
    dst: bool = False,
    quality: int = 0,
) -> str:
    """The frame of a second: `irig frame TIME`, with the options of these names.

    time: a Second, its text, or a datetime with a time zone
    local: half hours that the coded time is ahead of UTC, -31 to 31
    pending: the leap second that is coming, "insert" or "delete", or None
    parity: "even" or "odd"
    sense: "add" or "subtract": what is done with the offset to come from coded time to UTC
    dst: whether daylight saving is in force
    quality: 0, locked, to 15, failed
    """
    is_added, zone = number_of(sense, Sense, "sense") == 0, _zone(local)
    control = Control(
        leap_pending=pending is not None,
        leap_delete=pending is not None and number_of(pending, Kind, "pending") == 1,
        dst=dst,
        offset_half_hours=-local if is_added else local,
        quality=quality,
    )
    held, number = c.Symbols(), number_of(parity, Parity, "parity")
    check(c.frame_of(_utc(time), zone, control.held(), number, held))
    return text(bytes(held))


def claim(coded: Coded, control: Optional[Control] = None, sense: Sense = "add") -> Claim:
    """Which second a coded time claims by these control bits, without them by its own; or its
    fault, `NoSuchDay` to `DeletedSecond`."""
    bits = Control.unpack(coded.control) if control is None else control
    held = c.Claim()
    check(c.claim_of(coded.held(), bits.held(), number_of(sense, Sense, "sense"), held))
    return claim_held(held)


def claim_held(held: c.Claim) -> Claim:
    """The claim that C holds."""
    return Claim(Second(held.at.day, held.at.sod), MARKS[held.mark])


def _utc(time: Time) -> c.Utc:
    """A second as C holds it."""
    second = Second.of(time)
    return c.Utc(day=second.day, sod=second.sod)


def _zone(local: int) -> int:
    return within("local", local, -MOST_HALF_HOURS, MOST_HALF_HOURS)


def _whole(frame: Frame) -> ctypes.Array[ctypes.c_uint8]:
    """A hundred symbols as C holds them."""
    numbers = symbols(frame)
    if len(numbers) < 100:
        raise Fault(1, len(numbers))
    if len(numbers) > 100:
        raise Fault(2)
    return c.Symbols(*numbers)


def has_parity(frame: Frame, parity: Parity = "even") -> bool:
    """Whether the ones at elements 1 to 75 are even in number, or odd."""
    return bool(c.has_parity(_whole(frame), number_of(parity, Parity, "parity")))


def with_parity(frame: Frame, parity: Parity = "even") -> str:
    """The frame with element 75 such that it has this parity."""
    held = _whole(frame)
    check(c.set_parity(held, number_of(parity, Parity, "parity")))
    return text(bytes(held))
