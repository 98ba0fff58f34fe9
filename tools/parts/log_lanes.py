"""What a run of a scenario shows as bars, as the library finds it: for each reader runs of edges at which it stood
alike, for each of its ports runs at which it told alike, and marks at leap seconds, month ends and where a premise
broke. tools/plot draws them, and the page of tools/view; web/worker.js has the same of the same numbers."""
from __future__ import annotations

from collections.abc import Callable, Iterable
from dataclasses import dataclass, field, replace
from typing import TypeVar

from parts import package  # noqa: F401
from parts.command import read_text, shown, warn

import irig
from irig.faults import Fault
from irig.logs import Announced, DeviceBroken, PremiseBroken, RefusedLine, Stamped, Tick, ToldSecond
from irig.scenarios import Leap, Timeline, timeline_in
from irig.seconds import Second
from irig.stretches import Stretch
from irig.words import CAUSES


@dataclass(frozen=True)
class State:
    """How a bar is drawn: a colour of Okabe and Ito, and a pattern for eyes and printers without it.
    Where a second is announced the bar is high, in a silence low."""

    colour: str
    pattern: str
    is_high: bool
    meaning: str


STATES = {
    "locked": State("#0072B2", "plain", True, "announces by a vote"),
    "holdover": State("#E69F00", "stripes", True, "announces, counting alone"),
    "acquiring": State("#56B4E9", "upright", False, "silent, too few votes yet"),
    "unlocked": State("#D55E00", "crosses", False, "silent"),
}

# What a port told: low where it told nothing untrue, so that a lie stands out.
PORT_STATES = {
    "agreed": State("#009E73", "plain", False, "agreed with the scenario"),
    "silent": State("#FFFFFF", "plain", False, "told nothing"),
    "faulty": State("#999999", "crosses", False, "told a fault"),
    "poor": State("#F0E442", "upright", False, "told a poor quality"),
    "another second": State("#D55E00", "plain", True, "told another second"),
    "another mark": State("#CC79A7", "stripes", True, "told another mark"),
}


KINDS = {  # for the scripts of pages: states in the order in which they are drawn, and places of those of ports
    "STATE_NAMES": [*STATES], "PORT_KINDS": [*PORT_STATES],
    "PORT": {name.upper().replace(" ", "_"): place for place, name in enumerate(PORT_STATES)},
}


# ---- a run


@dataclass(frozen=True)
class Ran:
    """A run of a scenario, with silences and what ports told, up to a line that is refused, if one is."""

    log: irig.Log
    refused: irig.Refused | None = None

    @property
    def last_line(self) -> str:
        """The last line of its log."""
        why = self.refused
        return str(RefusedLine(why.line, why.number, why.name) if why else self.log.verdict)

    @property
    def last_edge(self) -> int:
        """The last edge of which it says something: a stamp is of a time within a second."""
        edges = (entry.instant_us // 1_000_000 if isinstance(entry, Stamped) else entry.edge for entry in self.log)
        return max((1, *edges))

    @property
    def names(self) -> tuple[str, ...]:
        """The readers or the devices that have entries, in the order of the first of each."""
        return self.log.devices or self.log.readers

    @property
    def broken(self) -> tuple[int, str] | None:
        """The edge at which a premise broke, and whose it was."""
        verdict = self.log.verdict
        if isinstance(verdict, DeviceBroken):
            return verdict.edge, verdict.device
        return (verdict.edge, verdict.reader) if isinstance(verdict, PremiseBroken) else None


def run_of(scenario: bytes) -> Ran:
    try:
        return Ran(irig.run(scenario, all=True, ports=True))
    except irig.Refused as refused:
        return Ran(refused.log, refused)


def run_of_file(name: str) -> Ran:
    """The run of the scenario in a file, or on standard input if the name is `-`. A ValueError if it is none."""
    text = read_text(name)
    if not text.lstrip().startswith("{"):
        raise ValueError("it does not begin with a plant line; a picture is made of a scenario, not of its log")
    return run_of(text.encode())


def warn_of_refusal(command: str, ran: Ran) -> None:
    """Says, in the name of a command, which line was refused, if one was."""
    if ran.refused:
        warn(command, f"{shown(str(ran.refused))}; what comes before that line is shown")


# ---- what is drawn of it


@dataclass(frozen=True)
class Mark:
    """Something at an edge, or half an edge before it: between two edges."""

    at: float
    kind: str


# By the state of a lane how far from its edge which marks stand.
MARKED = {
    "leap second": [(0, "leap second")],
    "deleted second": [(-0.5, "deleted second"), (-0.5, "month end")],
    "month end": [(-0.5, "month end")],
}


@dataclass(frozen=True)
class Offset:
    """Edges at which ports of a reader told another second than the scenario has, or the reader itself did; the
    cause says who, and how far it was."""

    first: int
    last: int
    cause: str


@dataclass(frozen=True)
class Off:
    """How many microseconds behind true time, or before it if below 0, a device's second began that it told from the
    true edge `at` on, or by its stamp of the true time `at`, in seconds since edge 0; and how far that may be.

    off_us: None of a stamp that was not given, or that is of another second
    bound_us: None where nothing was announced or given
    said: of a stamp, what the device answered
    """

    at: float
    off_us: int | None
    bound_us: int | None
    said: str = ""

    @property
    def is_beyond(self) -> bool:
        """Whether it lay further off than its bound."""
        return self.bound_us is not None and (self.off_us is None or abs(self.off_us) > self.bound_us)


@dataclass
class ReaderLanes:
    """What one reader did: the lanes of how it stood and of what its ports told, marks, and offsets. Of a device also
    how far its told seconds and its stamps lay off."""

    reader: str
    runs: list[irig.Lane] = field(default_factory=list)
    marks: list[Mark] = field(default_factory=list)
    ports: list[list[irig.Lane]] = field(default_factory=list)
    offsets: list[Offset] = field(default_factory=list)
    told: list[Off] = field(default_factory=list)
    stamps: list[Off] = field(default_factory=list)

    def take(self, lane: irig.Lane) -> None:
        """Takes up a lane, in the order of edges and ports."""
        if lane.kind == "mark":
            self.marks += [Mark(lane.first + by, kind) for by, kind in MARKED[lane.state]]
        elif lane.kind == "stood":
            self.runs.append(lane)
        else:
            self.ports += [[]] if lane.port == len(self.ports) else []
            self.ports[lane.port].append(lane)

    def part(self, first: int, last: int) -> ReaderLanes:
        """These edges alone."""
        marks = [mark for mark in self.marks if first - 0.5 < mark.at < last + 0.5]
        ports = [_cut(runs, first, last) for runs in self.ports]
        told, stamps = ([off for off in offs if first - 0.5 < off.at < last + 0.5] for offs in (self.told, self.stamps))
        runs, offsets = (_cut(these, first, last) for these in (self.runs, self.offsets))
        return ReaderLanes(self.reader, runs, marks, ports, offsets, told, stamps)


Edges = TypeVar("Edges", irig.Lane, Offset)


def _cut(runs: Iterable[Edges], first: int, last: int) -> list[Edges]:
    """What is of these edges."""
    found = (run for run in runs if run.first <= last and first <= run.last)
    return [replace(run, first=max(run.first, first), last=min(run.last, last)) for run in found]


Dues = list[tuple[int, Second]]


@dataclass
class Bars:
    """What is drawn of a run over the edges `first` to `last`, what its readers announced, the last line of its log,
    and the true seconds where they do not just count on as days do, with their edges, from edge 0 on."""

    lanes: list[ReaderLanes]
    first: int
    last: int
    last_line: str
    announced: list[Announced | ToldSecond]
    dues: Dues
    kind: str = "reader"  # of what the lanes are: readers, or devices

    def utc(self, edge: int) -> Second | None:
        """The true second that begins at an edge; None beyond the years served."""
        since, second = next(due for due in reversed(self.dues) if due[0] <= edge)
        try:
            return second + (edge - since)
        except Fault:
            return None

    def part(self, first: int, last: int) -> Bars:
        """These edges alone."""
        lanes = [lane.part(first, last) for lane in self.lanes]
        announced = [entry for entry in self.announced if first <= entry.edge <= last]
        return replace(self, lanes=lanes, first=first, last=last, announced=announced)


def bars_of(ran: Ran) -> Bars:
    """What is drawn of a run; a ValueError if it has no edges."""
    if not ran.log:
        raise ValueError(f"no edges to draw: {ran.refused or f'it says {ran.last_line!r} alone'}")
    found, stretches = ran.log.lanes(), ran.log.blame()
    lanes = readers_of(ran, found)
    timeline = timeline_in(ran.log.scenario)
    for lane in lanes:
        lane.offsets = offsets_of(one for one in stretches if one.reader == lane.reader)
        lane.told, lane.stamps = offs_of(ran.log, lane.reader, timeline)
    announced = [entry for entry in ran.log if isinstance(entry, (Announced, ToldSecond)) and entry.second]
    dues, kind = dues_of(timeline, ran.last_edge), "device" if ran.log.devices else "reader"
    return Bars(lanes, 1, ran.last_edge, ran.last_line, announced, dues, kind)


def offs_of(log: irig.Log, device: str, timeline: Timeline) -> tuple[list[Off], list[Off]]:
    """How far the seconds that a device told lay off, and its stamps; nothing of a reader."""
    entries = [entry for entry in log if isinstance(entry, (ToldSecond, Stamped)) and entry.device == device]
    told = [Off(one.edge, one.off_us, one.bound_us) for one in entries if isinstance(one, ToldSecond)]
    return told, [off_of(one, timeline) for one in entries if isinstance(one, Stamped)]


def off_of(asked: Stamped, timeline: Timeline) -> Off:
    """How far off a second began by a stamp, which then is as much too early."""
    at, stamp = asked.instant_us / 1_000_000, asked.stamp
    if stamp is None:
        return Off(at, None, None, "no stamp")
    time = str(stamp.second)[11:19]
    try:
        off_us = asked.instant_us - 1_000_000 * timeline.edge_of(stamp.second) - stamp.offset_us
    except Fault:
        off_us = 1_000_000
    if abs(off_us) >= 1_000_000:
        return Off(at, None, stamp.bound_us, f"{time} + {stamp.offset_us} us, another second")
    by = f"{abs(off_us)} us {'early' if off_us > 0 else 'late'}"
    return Off(at, off_us, stamp.bound_us, f"{time} + {stamp.offset_us} us, {by}")


def readers_of(ran: Ran, lanes: Iterable[irig.Lane]) -> list[ReaderLanes]:
    """The lanes of each reader or device that has edges."""
    found = {name: ReaderLanes(name) for name in ran.names}
    for lane in sorted(lanes, key=lambda it: (it.first, it.port or 0)):
        found[lane.reader].take(lane)
    edge, name = ran.broken or (0, "")
    if name in found:
        found[name].marks.append(Mark(edge, "premise broken"))
    return list(found.values())


def offsets_of(stretches: Iterable[Stretch]) -> list[Offset]:
    """Where seconds are not the scenario's; ports that are as far from it at the same edges have one offset, and
    the reader has its own."""
    found: dict[tuple, list[str]] = {}
    for one in stretches:
        if one.offset:
            ports = found.setdefault((one.first, one.last, one.kind, one.offset), [])
            ports += [] if one.port is None else [f"port {one.port}"]
    return [Offset(first, last, ", ".join([offset, *ports])) for (first, last, _, offset), ports in found.items()]


def apart_of(bars: Bars) -> int | None:
    """How many microseconds two stamps of one instant lie apart at most; None if there are no two near the truth."""
    found: dict[float, list[int]] = {}
    for off in (off for lane in bars.lanes for off in lane.stamps if off.off_us is not None):
        found.setdefault(off.at, []).append(off.off_us)
    return max((max(offs) - min(offs) for offs in found.values() if len(offs) > 1), default=None)


def dues_of(timeline: Timeline, last: int) -> Dues:
    """The first true second, at edge 0, and those up to an edge that do not just count on: leap seconds, and the
    first seconds behind them and behind deleted ones."""
    found = [(0, timeline.second(0))]
    for edge in sorted(edge for leap in timeline.leaps for edge in edges_about(timeline, leap) if 0 < edge <= last):
        found.append((edge, timeline.second(edge)))
    return found


def edges_about(timeline: Timeline, leap: Leap) -> list[int]:
    """The edges at which counting on would be wrong by a leap second: below 0 before the timeline starts."""
    day = Second.of(f"{leap.day}T00:00:00Z").day
    behind = Second(day + 1, 0).since(timeline.second(0), timeline.leaps)
    return [behind - 1, behind] if leap.kind == "insert" else [behind]


# ---- for pages


def drawn(scenario: bytes) -> dict:
    """The bars of a scenario for a page."""
    return drawn_of(run_of(scenario))


def drawn_of(ran: Ran) -> dict:
    """The bars of a run for a page, by numbers, with which lines of its log and of its scenario are of which edges."""
    timeline = timeline_in(ran.log.scenario) if ran.log else None
    placed = _devices_placed if ran.log.devices else _readers_placed
    of_lane = placed(ran.log, timeline) if timeline else dict
    lanes = [
        {
            "reader": lane.reader,
            "marks": [[mark.at, mark.kind] for mark in lane.marks],
            **_columns(lane.runs, STATES),
            "causes": [CAUSES.index(run.cause) for run in lane.runs],
            "ports": [_columns(runs, PORT_STATES) for runs in lane.ports],
            **of_lane(lane),
        }
        for lane in (readers_of(ran, ran.log.lanes()) if ran.log else [])
    ]
    edge, name = ran.broken or (0, "")
    broken = {"edge": edge, "reader": name} if ran.broken else None
    dues = [[edge, second.day, second.sod] for edge, second in dues_of(timeline, ran.last_edge)] if timeline else []
    return {"lanes": lanes, "causes": [*CAUSES], "first": 1, "last": ran.last_edge, "verdict": ran.last_line,
            "broken": broken, "refused": ran.refused and ran.refused.line, "dues": dues}


def _readers_placed(log: irig.Log, _: Timeline) -> Callable[[ReaderLanes], dict]:
    """What a page has of a reader beside its bars."""
    ticks: dict[str, list[tuple[int, Tick]]] = {}
    for number, tick in enumerate(log.ticks()):
        ticks.setdefault(tick.reader, []).append((number, tick))

    def placed(lane: ReaderLanes) -> dict:
        of_reader = ticks[lane.reader]
        lies = _lies(lane, {tick.edge: tick for _, tick in of_reader})
        return {**_placed(of_reader), "lies": lies, "offs": [], "stamps": []}

    return placed


def _devices_placed(log: irig.Log, timeline: Timeline) -> Callable[[ReaderLanes], dict]:
    """The same of a device: its log has a line for each second and for each stamp, and nobody asks for a tick."""
    numbered = [*enumerate(log)]

    def placed(lane: ReaderLanes) -> dict:
        told = [(number, one) for number, one in numbered if isinstance(one, ToldSecond) and one.device == lane.reader]
        told.sort(key=lambda it: (it[1].edge, it[0]))
        offs, stamps = ([[off.at, off.off_us, off.bound_us, off.said] for off in found]
                        for found in offs_of(log, lane.reader, timeline))
        return {
            "edges": [one.edge for _, one in told],
            "lines": [number for number, _ in told],
            "days": [one.second.day if one.second else 0 for _, one in told],
            "sods": [one.second.sod if one.second else 0 for _, one in told],
            **dict.fromkeys(("told_edges", "told_lines", "ends", "makers"), []),
            "lies": dict.fromkeys(("edges", "ports", "days", "sods"), []),
            "offs": offs,
            "stamps": stamps,
        }

    return placed


def _columns(runs: list[irig.Lane], names: Iterable[str]) -> dict[str, list[int]]:
    places = {name: place for place, name in enumerate(names)}
    return {
        "firsts": [run.first for run in runs],
        "lasts": [run.last for run in runs],
        "states": [places[run.state] for run in runs],
    }


def _placed(ticks: list[tuple[int, Tick]]) -> dict[str, list[int]]:
    """Which lines of the log are of a reader's ticks, which are so many in the log and have two lines each; the
    seconds that it announced; and the last edge of each line of the scenario that asked for some."""
    edges, lines = [tick.edge for _, tick in ticks], [2 * number for number, _ in ticks]
    seconds = [tick.second for _, tick in ticks]
    made = dict(zip((tick.said.asked - 1 for _, tick in ticks), edges))
    return {
        "edges": edges,
        "lines": lines,
        "days": [second.day if second else 0 for second in seconds],
        "sods": [second.sod if second else 0 for second in seconds],
        "told_edges": edges,
        "told_lines": [line + 1 for line in lines],
        "ends": [*made.values()],
        "makers": [*made],
    }


def _lies(lane: ReaderLanes, ticks: dict[int, Tick]) -> dict[str, list[int]]:
    """The other seconds that the ports of a reader told, edge by edge."""
    runs = ((port, run) for port, runs in enumerate(lane.ports) for run in runs if run.state == "another second")
    places = sorted((edge, port) for port, run in runs for edge in range(run.first, run.last + 1))
    seconds = [ticks[edge].ports.told[port].second for edge, port in places]
    return {
        "edges": [edge for edge, _ in places],
        "ports": [port for _, port in places],
        "days": [second.day for second in seconds],
        "sods": [second.sod for second in seconds],
    }
