"""What the lines of a scenario with devices mean: docs/SCENARIOS.md, A plant of devices."""

from collections.abc import Collection
from dataclasses import dataclass

from .faults import refuse_if
from .frames import Rules
from .generator import Generator
from .meaning import (
    ANY_LENGTH, EVENTS, FIVE, NAME, PLANT, READER, TABLE, WIDTH, Event, Form, G, ReaderSetup, check, clocks_of,
    event_by, items, keys, names_of, reader_of, version_of, whole,
)  # fmt: skip
from .times import Timeline, check_table

MOST_HELD = 490_000  # how far a counter may go wrong in a holdover and two seconds, in microseconds

LATE = whole(0, 1999)
NEEDED = READER | {"drift": whole(0, 100)}
OWN = {
    "table": TABLE, "gain": whole(-1000, 1000), "counter": whole(0, 2**32 - 1), "late": items(LATE, ANY_LENGTH),
    "poll": whole(0, 1_740_000_000),
}  # fmt: skip
DEVICES = items(keys(NEEDED, **OWN), ANY_LENGTH)
STATION = keys(PLANT | {"version": whole(4, 4), "generators": FIVE, "devices": DEVICES})
ON_A_LINE = {"g": G, "r": NAME}
STATION_EVENTS: dict[str, dict[str, Form]] = {
    "pass": {"us": whole(1, 1_000_000_000)}, "pull": ON_A_LINE, "plug": ON_A_LINE, "late": ON_A_LINE | {"us": LATE},
    "pulse": ON_A_LINE | {"width": WIDTH}, "stamp": {"r": NAME, "ago": whole(0, 4_000_000)},
    **{word: EVENTS[word] for word in ("seconds", "repair", "tick", "restart")},
}  # fmt: skip


@dataclass(frozen=True)
class DeviceSetup(ReaderSetup):
    """Of what a device is made: what it has as a reader, and its own."""

    drift: int  # how wrong its counter may be by its setting, in microseconds a second
    gain: int  # how many it truly gains
    counter: int  # what it shows at edge 0
    late: tuple[int, ...]  # how late the lines are
    poll: int | None  # it is ticked each so many microseconds, at 0 by events alone, at None as its wait says


@dataclass(frozen=True)
class StationPlan:
    """What the plant line says."""

    timeline: Timeline
    rules: Rules
    generators: tuple[Generator, ...]
    devices: dict[str, DeviceSetup]


def is_station(value: object) -> bool:
    """Whether a first line is one of version 4 (docs/FAULTS.md, Refusals of a scenario, 2)."""
    return version_of(value) == 4


def device_of(value: dict, lines: int) -> DeviceSetup:
    """A device with so many lines (docs/SCENARIOS.md, A plant of devices, Device)."""
    late = tuple(value.get("late", [0] * lines))
    reader = reader_of(value)
    numbers = value["drift"], value.get("gain", 0), value.get("counter", 0)
    return DeviceSetup(reader.rules, reader.table, *numbers, late, value.get("poll"))


def check_device(device: DeviceSetup) -> None:
    """Refuses by 31 to 34, else by 35 (docs/FAULTS.md, Refusals of a scenario, 4)."""
    if device.table:
        check_table(device.table)
    refuse_if(35, (device.rules.holdover + 2) * device.drift > MOST_HELD)


def station_of(value: dict) -> StationPlan:
    """What a plant line of version 4 says (docs/FAULTS.md, Refusals of a scenario, 3 and 4)."""
    check(STATION, value)
    count = len(value["generators"])
    refuse_if(26, any(len(device.get("late", [0] * count)) != count for device in value["devices"]))
    names = names_of(value["devices"])
    timeline, rules, generators = clocks_of(value)
    devices = [device_of(device, count) for device in value["devices"]]
    for device in devices:
        check_device(device)
    return StationPlan(timeline, rules, generators, dict(zip(names, devices)))


def station_event_of(value: object, names: Collection[str]) -> Event:
    """What the line of an event says (docs/SCENARIOS.md, A plant of devices)."""
    return event_by(STATION_EVENTS, value, names)
