"""The waves of a scenario, as tests/model plays it: what comes to the lines of its first reader, or of
one of its devices. Tests compare with them what the tools make, and what a log says, so they owe nothing
to the program.

To a reader each second has its pulses at 10 ms from its edge on. The first edge comes after 50 ms. A
restart is no matter of wires, and left out."""
from __future__ import annotations

from collections.abc import Iterable, Iterator, Sequence

from model.lines import lines
from model.meaning import Event
from model.scenario import World, delivered, happen, second_of_events, world_of
from model.station import Station
from model.wires import Pulse

WIDTHS = {"0": 2000, "1": 5000, "P": 8000}
ELEMENT_US, SECOND_US = 10_000, 1_000_000
FIRST_EDGE_US = 50_000

Widths = list[int]  # of pulses that follow one another
Change = tuple[int, int, int]  # the time in microseconds, the line, the level


def widths_of(world: World, event: Event) -> Widths:
    """What an event brings to a port. A damaged pulse may be of no symbol."""
    if event["do"] == "raw":
        return event["widths"]
    widths = [WIDTHS.get(symbol, 0) for symbol in delivered(world, event)]
    if event["do"] == "damage" and widths:
        widths[event["at"]] = event["width"]
    return widths


def seconds_of(text: str) -> list[list[Widths]]:
    """For each tick of a scenario's first reader the widths that came to each of its ports."""
    plant, *events = (meaning for _, meaning in lines(text.encode()))
    world, reader, seconds = world_of(plant), next(iter(plant.readers)), []
    heard: list[Widths] = [[] for _ in plant.generators]
    for event in events:
        for part in second_of_events(plant) * event["n"] if event["do"] == "seconds" else [event]:
            if "r" not in part:
                list(happen(world, part))  # a step, a fault or a repair
            elif part["r"] == reader and part["do"] == "tick":
                seconds.append(heard)
                heard = [[] for _ in plant.generators]
            elif part["r"] == reader and part["do"] != "restart":
                heard[part["g"]] += widths_of(world, part)
    return seconds


def changes_of(seconds: Sequence[list[Widths]], late: Sequence[int] = (0,) * 5) -> list[Change]:
    """The changes of lines on which these widths come, each line so much late. A pulse ends before the next
    one begins."""
    changes = []
    for number, second in enumerate(seconds):
        for line, widths in enumerate(second):
            for element, width in enumerate(widths[:100]):
                rise = FIRST_EDGE_US + number * SECOND_US + element * ELEMENT_US + late[line]
                if width > 0:
                    changes += [(rise, line, 1), (rise + min(width, ELEMENT_US - 1), line, 0)]
    return sorted(changes)


def pulled(changes: Iterable[Change], line: int, begin: int, end: int) -> Iterator[Change]:
    """The changes without those of a line while its cable is out: it is then low."""
    level, is_out = 0, False
    for time, of, to in changes:
        if of == line:
            if not is_out and begin <= time < end:
                is_out = True
                yield from [(begin, line, 0)] * level
            if is_out and time >= end:
                is_out = False
                yield from [(end, line, 1)] * level
            level = to
            if is_out:
                continue
        yield time, of, to


def pulses_of_device(text: str, device: str) -> tuple[list[list[Pulse]], int]:
    """The pulses that rise on each line of a device, from edge 0 on, and how long the scenario takes."""
    plan, *events = (meaning for _, meaning in lines(text.encode()))
    station = Station(plan, "")
    pulses = station.keep_pulses(device)
    for event in events:
        list(station.lines_of(event))
    return pulses, station.now


def changes_of_pulses(pulses: Sequence[Sequence[Pulse]], end: int) -> list[Change]:
    """The changes of lines with these pulses, up to a time of the wave. Pulses that touch are one, and those
    without width are none."""
    changes = []
    for line, on_line in enumerate(pulses):
        high: list[list[int]] = []
        for rise, fall in on_line:
            if high and high[-1][1] == rise:
                high[-1][1] = fall
            else:
                high.append([rise, fall])
        for rise, fall in high:
            if rise < fall:
                changes += [(FIRST_EDGE_US + rise, line, 1), (FIRST_EDGE_US + fall, line, 0)]
    return sorted(change for change in changes if change[0] < end)
