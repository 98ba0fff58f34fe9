"""Random days of a plant with one reader, as scenarios: lost frames, outages of all generators, a
generator that lies, and restarts of the reader. `tools/study` plays them.

A day belongs to its seed and to the rates, and not to the settings of the reader."""
from __future__ import annotations

import math
import random
from collections.abc import Iterator, Sequence
from dataclasses import dataclass
from itertools import pairwise

from parts import package  # noqa: F401

from irig.scenarios import Leap, Lost, Reader, Scenario, Table

DAY = 86_400
READER = "relay"
SHORTEST = 10  # seconds, of an outage and of a lie
MOST_HOURS = 240


@dataclass(frozen=True)
class Model:
    """What happens in a run, and how often: rates are means for 24 hours."""

    start: str = "2016-06-15T00:00:00Z"
    leap: str = ""
    table: str = ""
    hours: float = 24.0
    generators: int = 3
    bursts: float = 24.0
    dark: float = 4.0
    lies: float = 4.0
    longest: int = 7200
    restarts: float = 2.0

    def __post_init__(self) -> None:
        if not 1 <= 3600 * self.hours <= MOST_HOURS * 3600:
            raise ValueError(f"hours is {self.hours:g}; a second to {MOST_HOURS} hours may stand here")
        for name in ("bursts", "dark", "lies", "restarts"):
            if not 0 <= getattr(self, name) <= DAY:
                raise ValueError(f"{name} is {getattr(self, name):g}; 0 to {DAY} may stand here")
        if self.longest < SHORTEST:
            raise ValueError(f"longest is {self.longest}; {SHORTEST} or more may stand here")

    def edges(self) -> int:
        return round(3600 * self.hours)


@dataclass(frozen=True)
class Fault:
    """A fault of a generator, as a line of a scenario has it."""

    kind: str
    key: str = ""
    value: int | str = 0

    def keys(self) -> dict[str, int | str]:
        return {self.key: self.value} if self.key else {}


SILENT = Fault("silent")
LIES = (
    Fault("skew", "by", 1),
    Fault("skew", "by", -1),
    Fault("skew", "by", 3600),
    Fault("stuck"),
    Fault("wrong_offset", "by", 2),
    Fault("no_pending"),
    Fault("false_pending", "leap", "insert"),
)


@dataclass(frozen=True)
class Spell:
    """Edges from one up to another, and the fault that some generators have there."""

    begin: int
    end: int
    generators: Sequence[int] = ()
    fault: Fault | None = None

    def has(self, edge: int) -> bool:
        return self.begin <= edge < self.end


@dataclass(frozen=True)
class Day:
    """All that goes wrong in a run: of two faults of a generator the one that stands first counts."""

    edges: int
    faults: Sequence[Spell] = ()
    bursts: Sequence[Spell] = ()
    restarts: Sequence[int] = ()
    seed: int = 0

    def cuts(self) -> list[int]:
        """The edges at which something begins or ends, from 0 to the last."""
        ends = {edge for spell in (*self.faults, *self.bursts) for edge in (spell.begin, spell.end)}
        return sorted(edge for edge in {0, self.edges, *ends, *self.restarts} if edge <= self.edges)

    def fault_at(self, generator: int, edge: int) -> Fault | None:
        spells = (spell for spell in self.faults if generator in spell.generators)
        return next((spell.fault for spell in spells if spell.has(edge)), None)


# ---- random numbers


def instants(rng: random.Random, rate: float, edges: int) -> Iterator[int]:
    """Edges that come independently of each other, so many in 24 hours on average."""
    at = 0.0
    while rate > 0:
        at -= math.log(1 - rng.random()) * DAY / rate
        if at >= edges:
            return
        yield int(at)


def lengths(rng: random.Random, least: int, most: int) -> Iterator[int]:
    """Lengths between two bounds, as often from 10 to 100 as from 100 to 1,000."""
    while True:
        yield int(least * (most / least) ** rng.random())


def random_day(model: Model, seed: int) -> Day:
    """The day of a seed. Each kind of trouble has random numbers of its own, so a change of one rate
    leaves the other kinds as they are."""
    edges, longest = model.edges(), model.longest
    dark, lies, bursts, restarts = (
        random.Random(f"{seed} {kind}") for kind in ("dark", "lies", "bursts", "restarts")
    )
    everyone = range(model.generators)
    liar = [int(model.generators * lies.random())]
    outages = [
        Spell(begin, begin + length, everyone, SILENT)
        for begin, length in zip(instants(dark, model.dark, edges), lengths(dark, SHORTEST, longest))
    ]
    told = [
        Spell(begin, begin + length, liar, LIES[int(len(LIES) * lies.random())])
        for begin, length in zip(instants(lies, model.lies, edges), lengths(lies, SHORTEST, longest))
    ]
    noise = [
        Spell(begin, begin + length)
        for begin, length in zip(instants(bursts, model.bursts, edges), lengths(bursts, 1, 11))
    ]
    return Day(edges, outages + told, noise, list(instants(restarts, model.restarts, edges)), seed)


# ---- as a scenario


def play(plant: Scenario, day: Day) -> None:
    """Adds the lines of a day to a scenario of one reader."""
    losses = random.Random(f"{day.seed} losses")
    faults: dict[int, Fault | None] = dict.fromkeys(range(plant.generators))
    for begin, end in pairwise(day.cuts()):
        for generator, fault in faults.items():
            faults[generator] = day.fault_at(generator, begin)
            if faults[generator] != fault:
                set_fault(plant, generator, faults[generator])
        if begin in day.restarts:
            plant.restart(READER)
        if any(spell.has(begin) for spell in day.bursts):
            for _ in range(end - begin):
                plant.second(lost_frames(plant, losses))
        else:
            plant.seconds(end - begin)


def set_fault(plant: Scenario, generator: int, fault: Fault | None) -> None:
    if fault:
        plant.fault(generator, fault.kind, **fault.keys())
    else:
        plant.repair(generator)


def lost_frames(plant: Scenario, losses: random.Random) -> dict[tuple[int, str], Lost]:
    """In a second of a burst each frame is lost with a chance of one half."""
    chances = [losses.random() for _ in range(plant.generators)]
    return {(generator, READER): Lost() for generator, chance in enumerate(chances) if chance < 0.5}


def scenario_of(model: Model, lock_after: int, holdover: int, seed: int) -> Scenario:
    """The day of a seed, for a reader with these settings."""
    leaps = [Leap(model.leap)] if model.leap else []
    known = [Leap(model.leap)] if model.leap and model.leap <= model.table else []
    table = Table(model.table, known) if model.table else None
    reader = Reader(READER, lock_after, holdover, table)
    plant = Scenario(model.start, [reader], model.generators, leaps)
    play(plant, random_day(model, seed))
    return plant
