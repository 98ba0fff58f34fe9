"""What a generator sends: docs/SCENARIOS.md, Generators, and their faults."""

from dataclasses import dataclass, replace
from enum import Enum
from functools import lru_cache

from .faults import refuse_if
from .frames import Control, Rules, Sense, frame_of
from .times import Mark, Second, Timeline, leap_of, minute_of, second_at

KINDS = ["silent", "stuck", "skew", "no_pending", "false_pending", "quality", "wrong_offset"]
Kind = Enum("Kind", {word.upper(): word for word in KINDS})


@dataclass(frozen=True)
class Zone:
    """Half hours ahead of UTC, and whether daylight saving is in force."""

    local: int
    daylight: bool


@dataclass(frozen=True)
class Generator:
    """The first zone of a generator, and each later one with its first second."""

    zone: Zone
    changes: tuple[tuple[Second, Zone], ...] = ()


@dataclass(frozen=True)
class GeneratorFault:
    """A fault: its kind, the value of its further key, and the edge at which it was set."""

    kind: Kind
    value: int | Mark | None = None
    since: int = 0


def check_generator(generator: Generator) -> None:
    """Refuses by 15, else by 16 (docs/SCENARIOS.md, Generators, and their faults, the end)."""
    zones = [generator.zone, *(zone for _, zone in generator.changes)]
    refuse_if(15, any(abs(zone.local) > 31 for zone in zones))
    times = [at for at, _ in generator.changes]
    refuse_if(16, any(at.of_day % 60 != 0 or at.of_day == 86400 for at in times))
    refuse_if(16, any(late >= later for late, later in zip(times, times[1:])))


def zone_at(generator: Generator, second: Second) -> Zone:
    """The zone of the last change so far, else the first (docs/SCENARIOS.md, Generators)."""
    past = [zone for at, zone in generator.changes if at <= second]
    return past[-1] if past else generator.zone


def true_control(generator: Generator, timeline: Timeline, sense: Sense, second: Second) -> Control:
    """What the control bits truly say (docs/SCENARIOS.md, the table of control bits)."""
    leap, (minute, _) = leap_of(timeline.leaps, second.day), minute_of(second)
    pending = leap != Mark.NO_LEAP and minute % 1440 == 1439
    changes = any(minute_of(at) == (minute + 1, 0) for at, _ in generator.changes)
    zone = zone_at(generator, second)
    offset = -zone.local if sense == Sense.ADD else zone.local
    return Control(pending, pending and leap == Mark.DELETE, changes, zone.daylight, offset)


def edge_sent(fault: GeneratorFault | None, n: int) -> int | None:
    """The edge whose frame is sent at edge n (docs/SCENARIOS.md, the table of faults)."""
    match fault:
        case GeneratorFault(Kind.SILENT):
            return None
        case GeneratorFault(Kind.STUCK):
            return fault.since
        case GeneratorFault(Kind.SKEW, by):
            return n + by if n + by >= 0 else None
    return n


def control_with(fault: GeneratorFault | None, control: Control) -> Control:
    """What a fault makes of the control bits (docs/SCENARIOS.md, the table of faults)."""
    match fault:
        case GeneratorFault(Kind.NO_PENDING):
            return replace(control, pending=False, deleted=False)
        case GeneratorFault(Kind.FALSE_PENDING, leap):
            return replace(control, pending=True, deleted=leap == Mark.DELETE)
        case GeneratorFault(Kind.QUALITY, quality):
            return replace(control, quality=quality)
        case GeneratorFault(Kind.WRONG_OFFSET, by):
            return replace(control, offset=max(-31, min(31, control.offset + by)))
    return control


@lru_cache(maxsize=4096)
def sent(
    generator: Generator, fault: GeneratorFault | None, timeline: Timeline, rules: Rules, n: int
) -> str:
    """The symbols sent at edge n, none if silent (docs/SCENARIOS.md, the table of faults)."""
    edge = edge_sent(fault, n)
    second = None if edge is None else second_at(timeline, edge)
    if second is None:
        return ""
    control = control_with(fault, true_control(generator, timeline, rules.sense, second))
    return frame_of(second, zone_at(generator, second).local, control, rules.parity)
