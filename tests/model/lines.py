"""The lines of a scenario: docs/SCENARIOS.md, its start; docs/FAULTS.md, Refusals of a scenario, 1 and 2."""

from collections.abc import Iterator

from .faults import Refused, refuse_if
from .meaning import Event, Plant, event_of, plant_of, value_of_line
from .station_lines import StationPlan, is_station, station_event_of, station_of


def first_of(value: object) -> Plant | StationPlan:
    """What the first line says, of any version."""
    return station_of(value) if is_station(value) else plant_of(value)


def next_of(plant: Plant | StationPlan, value: object) -> Event:
    """What a later line says."""
    if isinstance(plant, StationPlan):
        return station_event_of(value, plant.devices)
    return event_of(value, plant.readers)


def lines(data: bytes) -> Iterator[tuple[int, Plant | StationPlan | Event | Refused]]:
    """Each line that is not skipped, with its number, up to the first refusal (docs/SCENARIOS.md,
    Scenarios; docs/FAULTS.md, Refusals of a scenario, 1)."""
    whole = data.removesuffix(b"\n").split(b"\n") if data else []
    plant = None
    for number, line in enumerate(whole, 1):
        try:
            refuse_if(30, number > 1_000_000)
            refuse_if(23, len(line) > 65_536)
            if not line.strip(b" \t\r"):
                continue
            value = value_of_line(line)
            meaning = next_of(plant, value) if plant else first_of(value)
            plant = plant or meaning
        except Refused as refused:
            yield number, refused
            return
        yield number, meaning
    if plant is None:
        yield len(whole) + 1, Refused(29)
