"""Builds scenarios line by line (docs/SCENARIOS.md), and says which readers one has, and its true seconds. It
needs no library.

    from irig.scenarios import Leap, Reader, Replay, Scenario

    plant = Scenario("2016-12-31T23:59:50Z", [Reader("relay")], leaps=[Leap("2016-12-31")])
    plant.until("2016-12-31T23:59:58Z")
    plant.second({(2, "relay"): Replay(0)})      # port 2 hears an old frame
    plant.dark(3600)
    plant.write("mine.jsonl")
"""
from __future__ import annotations

import json
from dataclasses import dataclass
from pathlib import Path
from typing import Any, Dict, Iterable, Iterator, List, Mapping, Optional, Sequence, Tuple, Union

from .faults import VALUE, Fault
from .seconds import Day, Leap, Second, Time, day_number
from .words import Parity, Sbs, Sense

MOST_SECONDS = 100_000  # in one line

Value = Dict[str, Any]  # of a line, or of a part of one

__all__ = [
    "Change", "Damage", "Generator", "Heard", "Leap", "Lost", "Raw", "Reader", "Replay", "Scenario",
    "Table", "Timeline", "has_devices", "line_of", "plant_value", "readers_in", "timeline_in",
]


# ---- what a plant is made of


@dataclass(frozen=True)
class Change:
    """A change of a generator's zone, at the first second of a UTC minute.

    at: that second
    local: half hours that its clock is ahead of UTC from then on, -31 to 31
    dst: whether daylight saving is then in force
    """

    at: Time
    local: int
    dst: bool

    def value(self) -> Value:
        return {"at": _text_of(self.at), "local": self.local, "dst": self.dst}


@dataclass(frozen=True)
class Generator:
    """A generator: a clock that sends frames.

    local: half hours that it is ahead of UTC at the start, -31 to 31
    dst: whether daylight saving is in force at the start
    changes: the changes of its zone, in order, 400 at most
    """

    local: int = 0
    dst: bool = False
    changes: Sequence[Change] = ()

    def value(self) -> Value:
        value: Value = {"local": self.local}
        if self.dst:
            value["dst"] = True
        if self.changes:
            value["changes"] = [change.value() for change in self.changes]
        return value


@dataclass(frozen=True)
class Table:
    """Leap seconds that a reader knows beforehand: up to the day `until` there is no other one."""

    until: Day
    leaps: Sequence[Leap] = ()

    def value(self) -> Value:
        return {"until": str(self.until), "leaps": [leap.value() for leap in self.leaps]}


@dataclass(frozen=True)
class Reader:
    """A reader.

    name: 1 to 16 small letters, digits, `_` and `-`
    lock_after: votes in a row before it announces, 1 to 60
    holdover: seconds for which it counts on alone, 0 to 1,000,000
    table: leap seconds that it knows beforehand
    """

    name: str
    lock_after: int = 2
    holdover: int = 3600
    table: Optional[Table] = None

    def value(self) -> Value:
        value: Value = {
            "name": self.name,
            "lock_after": self.lock_after,
            "holdover": self.holdover,
        }
        if self.table is not None:
            value["table"] = self.table.value()
        return value


def plant_value(
    start: Time,
    readers: Sequence[Reader],
    generators: Sequence[Generator],
    leaps: Sequence[Leap] = (),
    parity: Parity = "even",
    sense: Sense = "add",
    sbs: Sbs = "check",
) -> Value:
    """The plant line, of the first version that has what this plant needs."""
    return {
        "version": _version(generators, readers),
        "start": _text_of(start),
        "leaps": [leap.value() for leap in leaps],
        "parity": parity,
        "sense": sense,
        "sbs": sbs,
        "generators": [generator.value() for generator in generators],
        "readers": [reader.value() for reader in readers],
    }


def _version(generators: Sequence[Generator], readers: Sequence[Reader]) -> int:
    if len(generators) > 3:
        return 3
    return 2 if any(reader.table is not None for reader in readers) else 1


def line_of(value: Value) -> str:
    """A line of a scenario, without its newline."""
    return json.dumps(value, separators=(",", ":"))


def _text_of(time: Time) -> str:
    return str(Second.of(time))


# ---- UTC seconds, with leap seconds


@dataclass(frozen=True)
class Timeline:
    """The true seconds, the first of which is `start`, at edge 0."""

    start: Time
    leaps: Sequence[Leap] = ()

    def edge_of(self, time: Time) -> int:
        """The edge at which a second begins."""
        second, start = Second.of(time), Second.of(self.start)
        is_there = not second.is_leap or second.day in self._days("insert")
        edge = second.since(start, self.leaps) if is_there else -1
        if edge < 0:
            raise Fault(VALUE, reason=f"{time} is no second of the timeline that starts at {start}")
        return edge

    def second(self, edge: int) -> Second:
        """The second that begins at an edge."""
        return Second.of(self.start).plus(edge, self.leaps)

    def second_at(self, edge: int) -> str:
        """The text of the second that begins at an edge."""
        return str(self.second(edge))

    def _days(self, kind: str) -> List[int]:
        return [day_number(leap.day) for leap in self.leaps if leap.kind == kind]


# ---- what may come to a port in place of a frame


@dataclass(frozen=True)
class Lost:
    """Nothing comes."""

    def event(self, where: Value) -> Optional[Value]:
        return None


@dataclass(frozen=True)
class Replay:
    """The true frame of a past edge."""

    edge: int

    def event(self, where: Value) -> Optional[Value]:
        return {"do": "replay", **where, "edge": self.edge}


@dataclass(frozen=True)
class Damage:
    """The frame, with the pulse of one element, 0 to 99, of another width, in microseconds."""

    at: int
    width: int

    def event(self, where: Value) -> Optional[Value]:
        return {"do": "damage", **where, "at": self.at, "width": self.width}


@dataclass(frozen=True)
class Raw:
    """These pulses, in microseconds, 1,000 at most."""

    widths: Sequence[int]

    def event(self, where: Value) -> Optional[Value]:
        return {"do": "raw", **where, "widths": list(self.widths)}


# By generator and reader what comes in place of the frame.
Heard = Mapping[Tuple[int, str], Union[Lost, Replay, Damage, Raw]]


# ---- a scenario


class Scenario:
    """The lines of a scenario, from the plant line on.

    `edge` is the edge that comes next at the generators; `at` is its UTC second.

    start: the UTC second of edge 0
    readers: 1 to 16
    generators: how many, 3 or 5, all of them in UTC; or the generators
    leaps: the leap seconds that truly come
    parity: "even" or "odd"
    sense: "add" or "subtract"
    sbs: "check" or "ignore" the straight binary seconds
    """

    def __init__(
        self,
        start: Time,
        readers: Sequence[Reader],
        generators: Union[int, Sequence[Generator]] = 3,
        leaps: Sequence[Leap] = (),
        parity: Parity = "even",
        sense: Sense = "add",
        sbs: Sbs = "check",
    ) -> None:
        if isinstance(generators, int):
            generators = [Generator()] * generators
        self.timeline = Timeline(start, leaps)
        self.readers = [reader.name for reader in readers]
        self.generators = len(generators)
        self.edge = 0
        self.values: List[Value] = [
            plant_value(start, readers, generators, leaps, parity, sense, sbs)
        ]

    @property
    def at(self) -> str:
        """The UTC second of the edge that comes next."""
        return self.timeline.second_at(self.edge)

    def event(self, do: str, **keys: object) -> None:
        """Adds one line as it is; `edge` does not follow it."""
        self.values.append({"do": do, **keys})

    def seconds(self, count: int = 1) -> None:
        """Whole seconds: each frame comes to each reader."""
        self.edge += count
        while count > 0:
            part = min(count, MOST_SECONDS)
            self.event("seconds", n=part)
            count -= part

    def until(self, time: Time) -> None:
        """Whole seconds, up to the edge at which this second begins."""
        count = self.timeline.edge_of(time) - self.edge
        if count < 0:
            raise ValueError(f"{time} is past: the next edge is that of {self.at}")
        self.seconds(count)

    def second(self, instead: Heard) -> None:
        """One second, in which these come to a port in place of the frame: (generator, reader)."""
        for reader in self.readers:
            for generator in range(self.generators):
                where: Value = {"g": generator, "r": reader}
                other = instead.get((generator, reader))
                value = other.event(where) if other else {"do": "carry", **where}
                if value is not None:
                    self.values.append(value)
        for reader in self.readers:
            self.event("tick", r=reader)
        for generator in range(self.generators):
            self.event("step", g=generator)
        self.edge += 1

    def lose(
        self,
        count: int,
        generators: Optional[Iterable[int]] = None,
        readers: Optional[Iterable[str]] = None,
    ) -> None:
        """So many seconds, in which no frame of these generators comes to these readers."""
        from_all = range(self.generators) if generators is None else list(generators)
        to_all = self.readers if readers is None else list(readers)
        lost = {(generator, reader): Lost() for generator in from_all for reader in to_all}
        for _ in range(count):
            self.second(lost)

    def dark(self, count: int, generators: Optional[Iterable[int]] = None) -> None:
        """So many seconds in which these generators, or all, are silent; then they are repaired."""
        silent = list(range(self.generators) if generators is None else generators)
        for generator in silent:
            self.fault(generator, "silent")
        self.seconds(count)
        for generator in silent:
            self.repair(generator)

    def fault(self, generator: int, kind: str, **keys: object) -> None:
        """A fault from now on, as `fault(1, "skew", by=-5)`."""
        self.event("fault", g=generator, kind=kind, **keys)

    def repair(self, generator: int) -> None:
        """The generator has no fault any more."""
        self.event("repair", g=generator)

    def restart(self, reader: str) -> None:
        """The reader forgets what it heard and where it stood."""
        self.event("restart", r=reader)

    def lines(self) -> Iterator[str]:
        """Its lines, without newlines."""
        return map(line_of, self.values)

    def text(self) -> str:
        """Its text."""
        return "".join(f"{line}\n" for line in self.lines())

    def write(self, path: Union[str, Path]) -> None:
        """Writes it to a file."""
        Path(path).write_text(self.text())


# ---- what a scenario says


def has_devices(scenario: Union[str, bytes]) -> bool:
    """Whether the plant of a scenario has devices in place of readers: the version of its plant line is 4."""
    plant = _plant_in(scenario)
    return isinstance(plant, dict) and type(plant.get("version")) is int and plant["version"] == 4


def readers_in(scenario: Union[str, bytes]) -> List[str]:
    """The names of the readers, by the plant line of a scenario; none if the program refuses it, as far as
    that is seen here."""
    try:
        return [reader["name"] for reader in _plant_in(scenario)["readers"]]
    except (TypeError, KeyError):
        return []


def timeline_in(scenario: Union[str, bytes]) -> Timeline:
    """The true seconds, by the plant line of a scenario, which the program does not refuse."""
    plant = _plant_in(scenario)
    return Timeline(plant["start"], [Leap(leap["day"], leap["kind"]) for leap in plant["leaps"]])


def names_in(scenario: Union[str, bytes]) -> List[str]:
    """The names of the readers, or of the devices, as of `readers_in`."""
    try:
        return [device["name"] for device in _plant_in(scenario)["devices"]]
    except (TypeError, KeyError):
        return readers_in(scenario)


def _plant_in(scenario: Union[str, bytes]) -> Any:
    """The value of the first line that is not blank; None if it is no JSON."""
    text = scenario.decode(errors="replace") if isinstance(scenario, bytes) else scenario
    first = next((line for line in text.split("\n") if line.strip()), "")
    try:
        return json.loads(first)
    except (ValueError, RecursionError):
        return None
