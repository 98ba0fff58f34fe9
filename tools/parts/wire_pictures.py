"""Draws the pictures of docs/wires. What a line carries comes from `irig flatten` of a scenario, seconds and stamps
from its log, and what a port tells of a fault from a reader of the library that hears the line."""
from __future__ import annotations

import json
from collections.abc import Iterator, Sequence
from itertools import groupby
from pathlib import Path
from typing import NamedTuple

from matplotlib.axes import Axes
from matplotlib.figure import Figure
from matplotlib.patches import Patch, Rectangle

from parts.command import ROOT
from parts.drawing import BAND, KINDS, LARGE, NORMAL, SMALL, TINY
from parts.lines import FIRST_EDGE_US, SECOND_US, Step, lines_to

import irig

FRAMES, FRAME_EDGE = ROOT / "examples/leap_inserted.jsonl", 7
SECOND, SECOND_EDGE = ROOT / "docs/wires/second.jsonl", 4
FAULTS, FAULT_EDGE, TOLD = ROOT / "docs/wires/faults.jsonl", 2, range(2, 6)

# Heights and widths are inches, and places of panels milliseconds from an edge.
WIDTH, ABOVE, BELOW = 9.0, 0.75, 0.5  # a picture, its title, its axis
HIGH, ROW = 0.38, 0.58  # a pulse, and its line
SMALL_HIGH, SMALL_ROW = 0.17, 0.36  # where there are many
LINE, GREY = "#0072B2", "#444444"
IN_STEP = {"facecolor": "#BFDDED", "edgecolor": LINE, "linewidth": 0.0}
OUT_OF_STEP = {"facecolor": "#F6C75E", "edgecolor": "#8A5A00", "linewidth": 0.0, "hatch": "//////"}
GOOD, BAD = {"color": "#00674A"}, {"color": "#B00020", "weight": "bold"}


class Pulse(NamedTuple):
    """A pulse of a line: its times from edge 0, and its place in a frame by the library, 0 out of step."""

    rise_us: int
    fall_us: int
    place: int

    def middle(self, zero_us: int) -> float:
        return ((self.rise_us + self.fall_us) / 2 - zero_us) / 1000


# ---- what scenarios say


def pulses_to(scenario: Path, name: str | None = None) -> list[list[Pulse]]:
    """The pulses of each line to a reader or a device, to the first one if none is named."""
    with open(scenario, "rb") as file:
        lines = lines_to(file, name, False)
        steps = list(lines.steps())
    return [list(_pulses_on(steps, line)) for line in range(len(lines.names))]


def _pulses_on(steps: Sequence[Step], line: int) -> Iterator[Pulse]:
    levels = groupby(steps, lambda step: step[1] >> line & 1)
    times = [next(stay)[0] - FIRST_EDGE_US for _, stay in levels][1:]  # it begins low
    sync = irig.Sync()
    for rise, fall in zip(times[::2], times[1::2]):
        yield Pulse(rise, fall, sync.pulse(rise, fall - rise))


def words_of(lines: Sequence[Sequence[Pulse]]) -> list[str]:
    """What port 0 of a reader tells at the edges of TOLD: `ok` if port 1 tells the same, whose line has no fault."""
    reader, words, begin = irig.Reader(), [], 0
    for end in (edge * SECOND_US for edge in TOLD):
        for port, pulses in enumerate(lines):
            for pulse in pulses:
                if begin < pulse.fall_us <= end:
                    reader.hear(port, pulse.rise_us, pulse.fall_us - pulse.rise_us)
        said, begin = reader.port(0), end
        words.append("ok" if said == reader.port(1) else str(said).split(" ", 2)[-1])
        reader.tick()
        reader.idle(end)
    return words


# ---- what pictures have


def figure_of(height: float, title: str, below: str) -> Figure:
    figure = Figure(figsize=(WIDTH, height))
    figure.text(0.3 / WIDTH, 1 - 0.28 / height, title, size=LARGE, weight="bold", va="center")
    figure.text(0.3 / WIDTH, 1 - 0.54 / height, below, size=SMALL, color=GREY, va="center")
    return figure


def panel(figure: Figure, left: float, width: float, ends: tuple[float, float], edge: int) -> Axes:
    """A stretch of time about an edge, with heights in inches above its axis."""
    height = figure.get_size_inches()[1]
    axes = figure.add_axes([left / WIDTH, BELOW / height, width / WIDTH, (height - ABOVE - BELOW) / height])
    axes.set(xlim=ends, ylim=(0, height - ABOVE - BELOW), yticks=[])
    axes.tick_params(labelsize=SMALL)
    axes.set_xlabel(f"ms from edge {edge}", size=SMALL)
    axes.spines[["left", "right", "top"]].set_visible(False)
    return axes


def write(axes: Axes, place: float, height: float, text: str, **look: object) -> None:
    axes.text(place, height, text, **{"size": SMALL, "ha": "center", "va": "center", **look})


def dash(axes: Axes, place: float, foot: float, top: float) -> None:
    axes.plot([place, place], [foot, top], color="black", lw=1.0, ls=(0, (4, 3)))


def shade(axes: Axes, begin: float, end: float, foot: float, top: float, colour: str) -> None:
    axes.add_patch(Rectangle((begin, foot), end - begin, top - foot, color=colour, alpha=0.3, lw=0))


def draw_line(
    axes: Axes, pulses: Sequence[Pulse], zero_us: int, foot: float, high: float, size: float = SMALL
) -> list[Pulse]:
    """A line, with the elements of its pulses below them; and the pulses that are seen."""
    begin, end = axes.get_xlim()
    seen = [pulse for pulse in pulses if begin * 1000 < pulse.rise_us - zero_us < end * 1000]
    places, heights = [begin], [foot]
    for pulse in seen:
        rise, fall = ((time - zero_us) / 1000 for time in (pulse.rise_us, pulse.fall_us))
        axes.add_patch(Rectangle((rise, foot), fall - rise, high, **(IN_STEP if pulse.place else OUT_OF_STEP)))
        places += [rise, rise, fall, fall]
        heights += [foot, foot + high, foot + high, foot]
        element = str(pulse.place - 1) if pulse.place else ""
        write(axes, pulse.middle(zero_us), foot - size / 64, element, size=size, color=GREY)
    axes.plot([*places, end], [*heights, foot], color=LINE, lw=1.3, solid_joinstyle="miter")
    return seen


def draw_second(figure: Figure, ends: tuple[float, float]) -> tuple[Axes, list[Pulse], float]:
    """The lines to the device of second.jsonl, what is seen of them, and how high the last one lies."""
    axes, zero = panel(figure, 0.95, WIDTH - 1.25, ends, SECOND_EDGE), SECOND_EDGE * SECOND_US
    foot, seen = axes.get_ylim()[1] - 0.25, []
    for number, pulses in enumerate(pulses_to(SECOND)):
        foot -= ROW
        found = draw_line(axes, pulses, zero, foot, HIGH, TINY)
        late = next(pulse.rise_us for pulse in found if pulse.place == 1) - zero
        write(axes, ends[0] - 0.4, foot + HIGH / 2, f"line {number}\n+{late} us", ha="right")
        seen += found
    return axes, seen, foot


# ---- the pictures


def frame() -> Figure:
    log, pulses, zero = irig.run(FRAMES.read_bytes()), pulses_to(FRAMES)[0], FRAME_EDGE * SECOND_US
    figure = figure_of(2.75, "What a line carries", (
        "A pulse rises each 10 ms. If it is 2 ms wide, it is a 0; 5 ms are a 1, and 8 ms a marker (P). Below it stands "
        "its element."))
    for left, width, ends, edge in ((0.3, 5.3, (-5, 120), 0), (5.9, 2.8, (955, 1029), 1)):
        axes = panel(figure, left, width, ends, FRAME_EDGE)
        for pulse in draw_line(axes, pulses, zero, 0.3, 0.6):
            symbol = irig.classify(pulse.fall_us - pulse.rise_us)
            write(axes, pulse.middle(zero), 1.02, symbol, size=NORMAL, weight="bold")
        begun = next(entry.second for entry in log if entry.edge == FRAME_EDGE + edge)
        dash(axes, 1000 * edge, 0, 1.45)
        write(axes, 1000 * edge, 1.35, f" {str(begun)[11:19]} begins ", ha="right" if edge else "left")
    return figure


def second() -> Figure:
    """The scenario ends with a tick, a stamp of its instant, and the stamp of an event."""
    before, told, ticked, stamped = irig.run(SECOND.read_bytes(), all=True)[-4:]
    stamp, told_us, tick_us = stamped.stamp, told.edge * SECOND_US + told.off_us, ticked.instant_us
    figure = figure_of(4.55, "One second, from pulse to stamp", (
        "Times are counts of the device's counter, in us. Light stretches show how far off the told edge and the stamp "
        "may be."))
    axes, _, foot = draw_second(figure, (-13, 27))
    top = axes.get_ylim()[1] - 0.2
    edge, tick, event = (time / 1000 - SECOND_EDGE * 1000 for time in (told_us, tick_us, stamped.instant_us))
    for place, end, begin, bound in (
        (edge, foot - 0.3, top, told.bound_us), (event, foot - 0.95, foot - 0.3, stamp.bound_us),
    ):
        shade(axes, place - bound / 1000, place + bound / 1000, end, begin, BAND)
        dash(axes, place, end, begin)
    write(axes, edge, top + 0.1, f"the frame of {str(before.second)[11:19]} ends   ", ha="right")
    write(axes, edge, top + 0.1, f"   that of {str(told.second)[11:19]} begins", ha="left")
    axes.plot([tick], [foot - 0.35], "^", color="black", ms=8)
    write(axes, tick + 0.5, foot - 0.44, f"a tick at {tick_us:,} answers {told.second} {told.lock} {told.cause},\n"
          f"and the told edge {told_us:,}, off by {told.bound_us} us at most", ha="left")
    axes.plot([edge, event], [foot - 0.85] * 2, "o-", color="black", lw=0.8, ms=4)
    write(axes, (edge + event) / 2, foot - 0.76, f"{stamp.offset_us:,} us")
    write(axes, event + 0.5, foot - 1.03, f"the stamp of the event at {stamped.instant_us:,} is {stamp.second} and "
          f"{stamp.offset_us:,} us, off by {stamp.bound_us} us at most", ha="right")
    return figure


def edge() -> Figure:
    figure = figure_of(3.55, "Where a tick belongs", (
        "The last pulse of a frame has ended on every line, and the first one of the next frame has ended on none."))
    axes, seen, foot = draw_second(figure, (-23, 25))
    last, first = ([pulse.fall_us / 1000 - SECOND_EDGE * 1000 for pulse in seen if pulse.place == place]
                   for place in (100, 1))
    begin, end, top = max(last), min(first), axes.get_ylim()[1] - 0.2
    shade(axes, begin, end, foot - 0.2, top, "#009E73")
    write(axes, (begin + end) / 2, top + 0.1, f"a tick is right from {begin:+.1f} to {end:+.1f} ms")
    dash(axes, 0, 0, top)
    return figure


def faults() -> Figure:
    """A row for each device of faults.jsonl, by its name; each has a fault of its own on line 0."""
    names = [device["name"] for device in json.loads(FAULTS.read_text().splitlines()[0])["devices"]]
    figure = figure_of(ABOVE + BELOW + 0.6 + SMALL_ROW * len(names), "What a fault does", (
        "On the left a line about edge 2, with the elements of its pulses; on the right what a port tells of it."))
    axes = panel(figure, 1.45, 4.4, (-22, 45), FAULT_EDGE)
    foot = axes.get_ylim()[1] - 0.2
    columns = {edge: 51 + 11 * number for number, edge in enumerate(TOLD)}
    dash(axes, 0, 0, foot + 0.1)
    for edge, column in columns.items():
        write(axes, column, foot, f"at edge {edge}", color=GREY)
    for name in names:
        foot -= SMALL_ROW
        lines, middle = pulses_to(FAULTS, name), foot + SMALL_HIGH / 2
        draw_line(axes, lines[0], FAULT_EDGE * SECOND_US, foot, SMALL_HIGH, TINY)
        write(axes, -23, middle, name.replace("_", " "), ha="right")
        for column, word in zip(columns.values(), words_of(lines)):
            write(axes, column, middle, word, **(GOOD if word == "ok" else BAD))
    figure.legend(handles=[Patch(label="a pulse in step, which the port hears", **IN_STEP),
                           Patch(label="out of step, which it does not hear", **OUT_OF_STEP)],
                  loc="lower right", fontsize=SMALL, frameon=False)
    return figure


def draw(folder: Path) -> None:
    """Writes the pictures, without what differs from run to run."""
    for picture in (frame, second, edge, faults):
        picture().savefig(folder / f"{picture.__name__}.svg", metadata=KINDS[".svg"])
