"""Runs of scenarios."""
from __future__ import annotations

import ctypes
import mmap
import os
from functools import partial
from pathlib import Path
from sys import intern
from typing import Any, Iterator, NamedTuple, Optional, Sequence, Union

from . import _library as c
from .faults import MEANINGS
from .logs import Announced, DeviceBroken, DeviceTableBroken, DriftBroken, Entry, Lines, Log, Ports, PremiseBroken
from .logs import PremisesKept, Refused, Silent, Stamped, TableBroken, ToldSecond, Verdict
from .scenarios import Scenario, names_in
from .seconds import Second
from .timekeepers import Stamp
from .words import CAUSES, LOCKS

# Room for what a run has, and for the bytes of a log, at first: pages that are not written cost nothing.
ROOM = 1 << 18
LOG_ROOM = 1 << 25
REASON_ROOM = 1 << 12

# As an unknown version a plant of devices is refused by the call of readers' entries, and one of readers by that
# of devices.
VERSION = 27
DEVICE_FIELDS = (
    "edge", "instant_us", "behind_us", "before_us", "lock_count", "day", "sod", "offset_us", "bound_us", "device",
    "kind", "names", "lock", "cause",
)

ENDED = c.NUMBERS["RUN_DONE"], c.NUMBERS["RUN_REFUSED"]

Source = Union[str, bytes, "os.PathLike[str]", Scenario]


class _Ran(NamedTuple):
    """What a run answers: its status, how many entries it has, or stretches or lanes, as many of them as there
    was room for, and its verdict; of a refused line the program's words and where in them is what."""

    status: int
    whole: int
    held: "ctypes.Array[Any]"
    verdict: c.Verdict
    reason: bytes
    refusal: c.Refusal

    @property
    def found(self) -> Sequence[Any]:
        """The entries, stretches or lanes."""
        return self.held[: self.whole]


def _ran(call: Any, kind: Any, text: bytes, room: int, reason_room: int) -> _Ran:
    """One call of the library, for what a run has of this kind."""
    memory, whole = mmap.mmap(-1, room * ctypes.sizeof(kind)), ctypes.c_size_t()
    held, verdict = (kind * room).from_buffer(memory), c.Verdict()
    reason, refusal = (ctypes.c_uint8 * reason_room)(), c.Refusal()
    status = call(text, len(text), held, room, whole, verdict, reason, len(reason), refusal)
    return _Ran(status, whole.value, held, verdict, bytes(reason[: refusal.whole]), refusal)


def played(call: Any, kind: Any, text: bytes) -> _Ran:
    """What a run of a scenario has, as `run_entries` of `c.Entry`: by one call of the library, and another one if
    there was too little room. Raises MemoryError if memory is out."""
    ran = _ran(call, kind, text, ROOM, REASON_ROOM)
    is_cut = ran.whole > ROOM or ran.refusal.whole > REASON_ROOM
    if ran.status in ENDED and is_cut:
        ran = _ran(call, kind, text, max(ran.whole, ROOM), max(ran.refusal.whole, REASON_ROOM))
    if ran.status not in ENDED:
        raise MemoryError("no memory for the run of a scenario")
    return ran


class _Shown(NamedTuple):
    """What a run writes: its log in the library's words; of a refused line the program's words and where in them
    is what."""

    log: str
    reason: bytes
    refusal: c.Refusal


def _shown(text: bytes, all: bool, ports: bool, room: int, reason_room: int) -> _Shown:
    """By one call of the library, and another one if there was too little room."""
    memory, whole = mmap.mmap(-1, room), ctypes.c_size_t()
    log = (ctypes.c_uint8 * room).from_buffer(memory)
    reason, refusal = (ctypes.c_uint8 * reason_room)(), c.Refusal()
    status = c.run_shown(text, len(text), all, ports, log, room, whole, reason, reason_room, refusal)
    if status not in ENDED:
        raise MemoryError("no memory for the log of a scenario")
    if whole.value > room or refusal.whole > reason_room:
        return _shown(text, all, ports, max(room, whole.value), max(reason_room, refusal.whole))
    return _Shown(memory[: whole.value].decode(), bytes(reason[: refusal.whole]), refusal)


def _written(text: bytes, all: bool, ports: bool, room: int) -> str:
    """The log in the library's words."""
    return _shown(text, all, ports, room, REASON_ROOM).log


def run(source: Source, all: bool = False, ports: bool = False) -> Log:
    """Runs a scenario (docs/SCENARIOS.md) and gives its log: what `irig run` prints of it, whether its plant has
    readers or devices.

    source: a path, as a `pathlib.Path` or a str, is a file. A str that has a newline or begins with
        `{` is the scenario's text, and so are bytes, the lines of a `Scenario`, and an empty str.
    all: tell of the silent edges too, or of all seconds that devices told
    ports: tell what each port told, too; devices have no such lines

    Raises Refused if a line is refused, OSError if a file can't be read, and MemoryError if memory
    is out.
    """
    text = _text_of(source)
    ran, names = played(c.run_entries, c.Entry, text), names_in(text)
    lines = Lines(partial(_written, text, all, ports, LOG_ROOM))
    if ran.refusal.number == VERSION:
        told = played(c.run_told, c.DeviceEntry, text)
        if told.refusal.number != VERSION:
            return _logged(told, Log(tuple(_told(told, names, lines, all)), _verdict_on(told.verdict, names), text, lines))
    log = Log(tuple(_entries(ran, names, lines, all, ports)), _verdict(ran.verdict, names), text, lines)
    return _logged(ran, log)


def _logged(ran: _Ran, log: Log) -> Log:
    """The log of a run, unless a line is refused."""
    if ran.refusal.line:
        raise _explained(ran, log)
    return log


def _told(ran: _Ran, names: Sequence[str], lines: Lines, all: bool) -> Iterator[Entry]:
    """What the lines of a log of devices say, by the numbers of a run."""
    size, place = ctypes.sizeof(c.DeviceEntry), -1
    memory = memoryview(ran.held).cast("B")[: ran.whole * size]
    for held in c.unpacked(c.DeviceEntry, memory, *DEVICE_FIELDS):
        edge, instant, behind, before, turns, day, sod, offset, bound, device, kind, is_named, lock, cause = held
        second, name = Second(day, sod) if is_named else None, names[device]
        if kind == c.NUMBERS["DEVICE_STAMP"]:
            place += 1
            yield Stamped(instant, name, Stamp(second, offset, bound) if second else None, lines, place)
        elif second or all:
            place += 1
            stood = LOCKS[lock], turns, CAUSES[cause], behind - before
            yield ToldSecond(edge, name, second, *stood, bound if second else None, lines, place)


def _verdict_on(held: c.Verdict, names: Sequence[str]) -> Optional[Verdict]:
    """The last line of a log of devices, if it is no refusal."""
    if held.kind < 2:
        return PremisesKept() if held.kind else None
    name = names[held.reader]
    if held.kind == 2:
        return DeviceBroken(held.edge, name)
    return DeviceTableBroken(name) if held.kind == 3 else DriftBroken(name)


def _entries(ran: _Ran, names: Sequence[str], lines: Lines, all: bool, ports: bool) -> Iterator[Entry]:
    """What the lines of a log say, by the numbers of a run."""
    size, place, asked = ctypes.sizeof(c.Entry), -1, lines.asked.append
    memory = memoryview(ran.held).cast("B")[: ran.whole * size]
    fields = "edge", "line", "lock_count", "day", "sod", "reader", "announces", "lock", "cause"
    numbers = c.unpacked(c.Entry, memory, *fields)
    for number, (edge, line, turns, day, sod, reader, announces, lock, cause) in enumerate(numbers):
        name = names[reader]
        if announces:
            place += 1
            asked(line)
            yield Announced(edge, name, Second(day, sod), LOCKS[lock], turns, CAUSES[cause], lines, place)
        elif all:
            place += 1
            asked(line)
            yield Silent(edge, name, LOCKS[lock], turns, CAUSES[cause], lines, place)
        if ports:
            place += 1
            asked(line)
            words = tuple(map(intern, lines.at(place).split()[2:]))
            yield Ports(edge, name, words, lines, place, bytes(memory[number * size : (number + 1) * size]))


def _verdict(held: c.Verdict, names: Sequence[str]) -> Optional[Verdict]:
    """The last line of a log, if it is no refusal."""
    if held.kind < 2:
        return PremisesKept() if held.kind else None
    name = names[held.reader]
    return PremiseBroken(held.edge, name) if held.kind == 2 else TableBroken(name)


def _text_of(source: Source) -> bytes:
    """The bytes of a scenario."""
    if isinstance(source, Scenario):
        return source.text().encode()
    if isinstance(source, str):
        if "\n" not in source and not source.startswith("{") and source:
            return Path(source).read_bytes()
        return source.encode(errors="surrogatepass")
    if isinstance(source, os.PathLike):
        return Path(source).read_bytes()
    return bytes(memoryview(source))


def _explained(ran: Union[_Ran, _Shown], log: Log) -> Refused:
    """A refusal with the program's words, and what they say stands where."""

    def part(span: c.Span) -> Optional[str]:
        return ran.reason[span.start : span.end].decode(errors="replace") or None

    why = ran.refusal
    return Refused(
        why.line, why.number, MEANINGS[why.number].name, log, ran.reason.decode(errors="replace") or None,
        part(why.place), part(why.key), part(why.value), part(why.allowed),
    )
