"""Readers: the vote over three ports, five, or one, and the counter that holds over."""
from __future__ import annotations

import ctypes
from array import array
from dataclasses import dataclass
from typing import Iterable, Literal, Optional, Tuple, Union, overload

from . import _library as c
from .faults import MEANINGS, VALUE, Detail, Fault, check, detail_of, whole, within, words_of
from .frames import MOST, Frame, claim_held, widths
from .lines import Held
from .seconds import Claim, Day, Leap, Second, day_number
from .words import CAUSES, LOCKS, Cause, Kind, Lock, Parity, Sbs, Sense, lock_text, number_of

PORTS = (3, 5, 1)  # how many ports, by the number that C has for it


@dataclass(frozen=True)
class Zone:
    """The zone in which clocks write their frames.

    local: local time minus UTC, in half hours
    dst: whether daylight saving is in force
    """

    local: int
    dst: bool


@dataclass(frozen=True)
class Report:
    """What a reader says at an edge. As a text it is the end of a log's line.

    second: the UTC second that begins at this edge; None if the reader is silent
    lock: "unlocked", "acquiring", "locked" or "holdover"
    count: the votes so far while it is acquiring, the edges since the last vote in holdover; else 0
    cause: "voted", "held", "acquiring", "no-vote", "expired", "leap-guard", "jump" or "range-end"

    What its ports told since the edge before; a port that stands in none of these was silent:

    agreed: the ports that told the claim that was voted
    differed: those that told another one; any claim, if none was voted
    faulty: those that told a fault
    poor: those that told a quality that has no vote
    quality: the worst of the frames that agreed, 0, locked, to 9; 15 if nothing was voted
    zone: that of the frames that agreed, if enough of them send one and the same: two of three
        ports, three of five, one of one. None if it is not known.
    against_hold: the ports that told another second than the one to which the reader had come,
        voted or not; none if it had nothing to go on, or a timekeeper missed a second
    """

    second: Optional[Second]
    lock: Lock
    count: int
    cause: Cause
    agreed: Tuple[int, ...] = ()
    differed: Tuple[int, ...] = ()
    faulty: Tuple[int, ...] = ()
    poor: Tuple[int, ...] = ()
    quality: int = 15
    zone: Optional[Zone] = None
    against_hold: Tuple[int, ...] = ()

    def __str__(self) -> str:
        return f"{self.second or '-'} {lock_text(self.lock, self.count)} {self.cause}"


@dataclass(frozen=True)
class Silence:
    """A port heard nothing."""

    def __str__(self) -> str:
        return "silence"


@dataclass(frozen=True)
class Faulty:
    """A port heard a frame with this fault, by its number in docs/FAULTS.md."""

    number: int
    detail: Detail = None

    @property
    def name(self) -> str:
        """The number's name, as "Parity"."""
        return MEANINGS[self.number].name

    def __str__(self) -> str:
        return f"fault {words_of(self.number, self.detail)}"


@dataclass(frozen=True)
class Poor:
    """A port heard a frame of a quality that has no vote, `poor_from` to 15."""

    quality: int

    def __str__(self) -> str:
        return f"poor {self.quality}"


# What a port tells. As a text it is the last line of `irig read`.
Told = Union[Silence, Faulty, Poor, Claim]


def _ports_in(mask: int) -> Tuple[int, ...]:
    """The ports of a mask, of which bit p is port p."""
    return tuple(port for port in range(max(PORTS)) if mask >> port & 1)


def report_held(held: c.Report) -> Report:
    """A report, as C holds it."""
    return Report(
        second=Second(held.day, held.sod) if held.announces else None,
        lock=LOCKS[held.lock],
        count=held.lock_count,
        cause=CAUSES[held.cause],
        agreed=_ports_in(held.agreed),
        differed=_ports_in(held.differed),
        faulty=_ports_in(held.faulty),
        poor=_ports_in(held.poor),
        quality=held.quality,
        zone=Zone(held.local_half_hours, bool(held.dst)) if held.has_local else None,
        against_hold=_ports_in(held.against_hold),
    )


def changed(what: str = "reader") -> Fault:
    """Why a reader or a timekeeper is taken no longer."""
    return Fault(VALUE, reason=f"something else has changed the numbers of this {what}")


def _tick(held: c.Reader) -> c.Report:
    """What a reader says at an edge."""
    report = c.Report()
    if c.reader_tick(held, report):
        raise changed()
    return report


def told_held(held: c.Told) -> Told:
    if held.kind == 0:
        return Silence()
    if held.kind == 1:
        return Faulty(*detail_of(held.fault))
    return Poor(held.quality) if held.kind == 2 else claim_held(held.claim)


def setup_of(
    lock_after: int,
    holdover: int,
    ports: int,
    parity: Parity,
    sense: Sense,
    sbs: Sbs,
    not_before: Optional[Day],
    poor_from: int,
) -> c.Setup:
    """A setup as C holds it."""
    if ports not in PORTS:
        raise Fault(VALUE, reason=f"ports is {ports!r}; 1, 3 or 5 may stand here")
    return c.Setup(
        parity=number_of(parity, Parity, "parity"),
        sense=number_of(sense, Sense, "sense"),
        sbs=number_of(sbs, Sbs, "sbs"),
        redundancy=PORTS.index(ports),
        lock_after=within("lock_after", lock_after, 1, 60),
        holdover=within("holdover", holdover, 0, 1_000_000),
        not_before=0 if not_before is None else day_number(not_before),
        poor_from=within("poor_from", poor_from, 1, 10),
    )


def table_of(until: Optional[Day], leaps: Iterable[Leap]) -> c.Table:
    """A leap table as C holds it."""
    table = c.Table(until=0 if until is None else day_number(until))
    for leap in leaps:
        if table.len == len(table.leaps):
            raise Fault(32)
        kind = number_of(leap.kind, Kind, "the kind of a leap")
        table.leaps[table.len] = c.Leap(day_number(leap.day), kind)
        table.len += 1
    return table


class Hearing(ctypes.Structure):
    """A reader, and where each of five lines stands."""

    _anonymous_ = ("reader",)
    _fields_ = [("reader", c.Reader), ("lines", c.Sync * 5)]


class Ruled(Held):
    """A device that goes by the reader's rule."""

    @property
    def lock_after(self) -> int:
        """The votes in a row before it announces."""
        return int(self._held.setup.lock_after)

    @property
    def holdover(self) -> int:
        """The edges without a vote at which it goes on."""
        return int(self._held.setup.holdover)

    @property
    def ports(self) -> int:
        """How many ports, or lines, it has."""
        number = int(self._held.setup.redundancy)
        if number >= len(PORTS):
            raise changed(self._what)
        return PORTS[number]


class Reader(Ruled):
    """A reader of IRIG-B: frames come to its ports, and at each edge it announces the second that
    begins, or is silent, by the reader's rule (docs/READER.md). What it announces with the cause
    "voted" is the true second if the tick comes as that second begins and no two of its three ports
    (three of five) then tell one and the same wrong time or leap, whatever came before. What it
    announces with the cause "held" is true if the last vote was, each second since was one tick,
    and the leap table is right or `holdover` at most 57 (docs/HEADLINE.md). A reader of one port
    follows its clock: what it announces is true only if that clock tells no wrong time or leap.

    lock_after: votes in a row before it announces, 1 to 60
    holdover: edges without a vote at which it goes on, 0 to 1,000,000
    ports: 3, 5 or 1
    parity: "even" or "odd"
    sense: "add" or "subtract": what is done with the offset to come from coded time to UTC
    sbs: "check" or "ignore" the straight binary seconds
    until: the last day of which `leaps` speaks: up to it there is no other leap second
    leaps: the leap seconds that it knows beforehand, 64 at most
    not_before: the first day that a frame may claim; a frame of an earlier one is faulty
    poor_from: the time quality from which a frame has no vote, 1 to 10
    """

    _what, _form, _kind = "reader", "irig reader 4", Hearing

    def __init__(
        self,
        lock_after: int = 2,
        holdover: int = 3600,
        *,
        ports: Literal[1, 3, 5] = 3,
        parity: Parity = "even",
        sense: Sense = "add",
        sbs: Sbs = "check",
        until: Optional[Day] = None,
        leaps: Iterable[Leap] = (),
        not_before: Optional[Day] = None,
        poor_from: int = 10,
    ) -> None:
        setup = setup_of(
            lock_after, holdover, ports, parity, sense, sbs, not_before, poor_from
        )
        self._held = Hearing()
        for line in self._held.lines:
            c.sync_init(line)
        check(c.reader_init(self._held.reader, setup, table_of(until, leaps)))

    def pulse(self, port: int, width_us: int) -> None:
        """A pulse at a port, 0 to 2 of three, 0 to 4 of five, 0 of one, so many microseconds
        wide."""
        width = within("width_us", width_us, 0, MOST)
        check(c.reader_pulse(self._held.reader, self._port(port), width))

    def pulses(self, port: int, widths_us: Iterable[int]) -> None:
        """Pulses at a port, one after another: the same as `pulse` for each, and faster."""
        number = self._port(port)
        widths = list(widths_us)
        try:
            held = array("I", widths)  # of bytes too, number by number
        except (OverflowError, TypeError):
            for place, width in enumerate(widths):
                within(f"widths_us[{place}]", width, 0, MOST)
            raise
        count = len(held)
        first = (ctypes.c_uint32 * count).from_buffer(held) if count else (ctypes.c_uint32 * 1)()
        check(c.reader_pulses(self._held.reader, number, first, count))

    @overload
    def hear(self, port: int, frame: Frame) -> None: ...

    @overload
    def hear(self, port: int, rise_us: int, /, width_us: int) -> int: ...

    @overload
    def hear(self, port: int, *, rise_us: int, width_us: int) -> int: ...

    def hear(
        self,
        port: int,
        frame: Union[Frame, int, None] = None,
        width_us: Optional[int] = None,
        *,
        rise_us: Optional[int] = None,
    ) -> Optional[int]:
        """`hear(port, frame)`: the pulses of a frame at a port.

        `hear(port, rise_us, width_us)`: a pulse of the line at a port, once it has ended: when it
        rose and how wide it is, in microseconds; of a time the lowest 32 bits count. It answers the
        pulse's place in its frame, 1 to 100, or 0 out of step. The port is emptied where a frame
        begins, and hears what has a place (docs/WIRES.md)."""
        if width_us is None and rise_us is None and frame is not None:
            if isinstance(frame, (int, float)):
                raise TypeError("hear takes a port and a frame, or a port, rise_us and width_us")
            self.pulses(port, widths(frame))
            return None
        rise = frame if rise_us is None else rise_us
        if width_us is None or not isinstance(rise, int):
            raise TypeError("hear takes a port, rise_us and width_us, all of them whole numbers")
        number, width = self._port(port), within("width_us", width_us, 0, MOST)
        line = self._held.lines[number]
        return int(c.reader_hear(self._held.reader, line, number, rise & MOST, width))

    def idle(self, now_us: int) -> None:
        """Puts each line out of step whose last pulse rose a second ago or earlier. To be called at
        each edge if pulses come by `hear(port, rise_us, width_us)`, and at least once in half an
        hour."""
        now = whole("now_us", now_us) & MOST
        for line in self._held.lines:
            c.sync_idle(line, now)

    def tick(self) -> Report:
        """The edge: what the reader says by what its ports heard since the last. They are then
        empty. A reader whose numbers something else has changed is refused, at this edge and at
        each later one."""
        return report_held(_tick(self._held.reader))

    def port(self, port: int) -> Told:
        """What a port would tell if the edge came now."""
        held = c.Told()
        check(c.reader_port(self._held.reader, self._port(port), held))
        return told_held(held)

    def _port(self, port: int) -> int:
        return within("port", port, 0, self.ports - 1)

    def restart(self) -> None:
        """Empties the ports, and forgets what was voted. A reader that a tick refuses stays so."""
        c.reader_restart(self._held.reader)

    def _refuse(self, held: Hearing) -> None:
        _tick(held.reader)

    def __repr__(self) -> str:
        return f"Reader(lock_after={self.lock_after}, holdover={self.holdover}, ports={self.ports})"


def read(
    frame: Frame, parity: Parity = "even", sense: Sense = "add", sbs: Sbs = "check"
) -> Told:
    """What a port tells of a frame: its claim, its fault, or that its quality is poor."""
    reader = Reader(parity=parity, sense=sense, sbs=sbs)
    reader.hear(0, frame)
    return reader.port(0)
