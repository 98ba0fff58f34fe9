"""Draws the bars of a run with matplotlib: for tools/plot."""
from __future__ import annotations

from collections import Counter
from collections.abc import Iterable
from functools import lru_cache
from math import ceil
from pathlib import Path

import matplotlib
from matplotlib.axes import Axes
from matplotlib.collections import PatchCollection
from matplotlib.figure import Figure
from matplotlib.patches import Patch, Rectangle
from matplotlib.textpath import TextPath
from matplotlib.ticker import MaxNLocator

from parts.log_lanes import PORT_STATES, STATES, Bars, Off, Offset, ReaderLanes, State, apart_of
from parts.layout import Label, Scale, chosen, ways

from irig import Lane

matplotlib.rcdefaults()  # a picture is the same whatever the user's own settings are
matplotlib.rcParams.update({"svg.hashsalt": "irig", "hatch.linewidth": 0.8})

# Inches, but for the sizes of text, which are points.
SMALL, NORMAL, LARGE = 8.0, 9.0, 12.0
WIDTH = 7.6  # of the bars
HIGH, LOW = 0.30, 0.13
PORT_LANE, PORT_HIGH, PORT_LOW = 0.115, 0.09, 0.045  # a thin lane for each port, and its bars
TINY = 6.0  # the numbers of ports
ABOVE, BELOW = 0.24, 0.05  # a bar: for marks, for labels
OFF_HIGH, BAND, OFF_BEYOND = 0.62, "#56B4E9", "#D55E00"  # how far a device lay off, and how far it may
ROW = 0.17
NARROW = 0.02  # no bar is less wide
PLAIN = 0.06  # less wide ones have no pattern
BOLD = 1.15  # how much wider bold text is
IN_A_ROW, LEGEND_ROW = 3, 0.22  # of the legend
MOST_ROWS = 3
AXIS = 0.8  # below the axis: edges, UTC, the day, what they are
MOST_LABELS = 100
LIMITS = -0.2, WIDTH + 0.2  # of labels

KINDS = {".svg": {"Date": None}, ".pdf": {"CreationDate": None}, ".png": {}}
HATCHES = {"plain": "", "stripes": "////", "upright": "||||", "crosses": "xxxx"}
MARKS = {
    "leap second": "23:59:60 inserted",
    "deleted second": "23:59:59 deleted",
    "month end": "month ends",
    "premise broken": "premise broken",
}
WHAT = {
    "reader": "how each reader stood, and what its ports told",
    "device": "how each device stood, what its lines told, and how far off it was",
}
VERDICTS = {
    "premises kept": "each second announced is as the scenario has it{within}",
    "premises broken: edge": "from there on that {kind} follows its votes, as the scenario has it or not",
    "premises broken: drift": "its counter gains or loses more than its setting says",
    "premises broken: table": "its leap table and the scenario's leap seconds differ",
    "refused": "the lines of the scenario above it were played",
}


# ---- the axis


def ticks_of(bars: Bars, scale: Scale) -> list[int]:
    """The edges that have a number: even steps, or where something changes on a shortened axis."""
    if scale.is_cut:
        edges = [*(int(stretch.first + 0.5) for stretch in scale.stretches), bars.last]
        return [int(label.text) for label, _ in chosen([[tick(edge, scale)] for edge in edges], 1)]
    most = min(12, int(WIDTH / tick(bars.last, scale).width))
    steps = MaxNLocator(nbins=most, integer=True, steps=[1, 2, 5, 10])
    places = steps.tick_values(bars.first, bars.last)
    even = [int(place) for place in places if bars.first <= place <= bars.last]
    return even if len(even) > 1 else [bars.first]


def tick(edge: int, scale: Scale) -> Label:
    width = width_of(max(str(edge), "2000-01-01", key=len), NORMAL) + 0.1
    return Label(str(edge), scale.place(edge), scale.place(edge) - width / 2, width)


def texts_of(bars: Bars, ticks: list[int]) -> list[str]:
    """The edges, with UTC below them, and the day where it is another one than before."""
    texts, before = [], ""
    for edge in ticks:
        day, _, time = str(bars.utc(edge) or "").rstrip("Z").partition("T")
        texts.append("\n".join(filter(None, (str(edge), time, day if day != before else ""))))
        before = day
    return texts


def draw_axis(axes: Axes, bars: Bars, scale: Scale) -> None:
    ticks = ticks_of(bars, scale)
    axes.set_xlim(0, WIDTH)
    axes.set_xticks([scale.place(edge) for edge in ticks], texts_of(bars, ticks))
    axes.set_yticks([])
    axes.tick_params(labelsize=NORMAL)
    label = "edge (one a second), and UTC"
    if scale.is_cut:
        label += "; at slanted lines nothing changes, and the axis is shortened"
    if any(is_widened(run, scale) for lane in bars.lanes for run in amiss_in(lane)):
        label += "; short silences and lies are drawn wider than they are"
    axes.set_xlabel(label, size=NORMAL)
    for side in ("left", "right", "top"):
        axes.spines[side].set_visible(False)


def draw_cuts(axes: Axes, scale: Scale, foot: float, top: float) -> None:
    """A slanted gap through a bar or the axis at each stretch that is shortened."""
    for stretch in scale.stretches:
        if stretch.is_cut:
            middle = stretch.left + stretch.width / 2
            feet, tops = (middle - 0.08, middle), (middle, middle + 0.08)
            axes.fill([*feet, *reversed(tops)], [foot, foot, top, top], "white", zorder=3,
                      clip_on=False)
            for left, right in zip(feet, tops):
                axes.plot([left, right], [foot, top], "black", lw=0.8, zorder=3, clip_on=False)


# ---- text


@lru_cache(None)
def _advance(letter: str, size: float) -> float:
    """How wide a letter is, blanks beside it included."""
    pair, without = (TextPath((0, 0), text, size) for text in (f"|{letter}|", "||"))
    return (pair.get_extents().width - without.get_extents().width) / 72


def width_of(text: str, size: float) -> float:
    return sum(_advance(letter, size) for letter in text)


def label(text: str, place: float, room: float = 0.0) -> list[Label]:
    """How a small label may stand."""
    return ways(text, place, width_of(text, SMALL) + 0.08, room, LIMITS)


def write(axes: Axes, label: Label, height: float) -> None:
    middle = label.left + label.width / 2
    axes.text(middle, height, label.text, size=SMALL, ha="center", va="center")


# ---- a reader


def amiss_in(lane: ReaderLanes) -> list[Lane]:
    """The silences of a reader, and the lies of its ports."""
    silent = [run for run in lane.runs if not STATES[run.state].is_high]
    return silent + [run for runs in lane.ports for run in runs if PORT_STATES[run.state].is_high]


def is_widened(run: Lane, scale: Scale) -> bool:
    return scale.place(run.last + 0.5) - scale.place(run.first - 0.5) < NARROW - 1e-9


def ends_of(runs: Iterable[Lane], scale: Scale) -> list[tuple[float, float]]:
    """Where runs begin and end; narrow ones that touch are one, as no more can be seen."""
    found: list[tuple[float, float]] = []
    for run in runs:
        left, right = scale.place(run.first - 0.5), scale.place(run.last + 0.5)
        is_narrow = right - left < PLAIN
        left = max(min(left, (left + right - NARROW) / 2), 0.0)
        right = min(max(right, left + NARROW), WIDTH)
        if is_narrow and found and left <= found[-1][1] + 1e-9:
            found[-1] = (found[-1][0], max(right, found[-1][1]))
        else:
            found.append((left, right))
    return found


def look_of(name: str, state: State) -> dict:
    """How a state is drawn, in bars and in the legend."""
    return {
        "facecolor": state.colour,
        "edgecolor": "#BBBBBB" if name == "silent" else "white",
        "linewidth": 0.6,
        "hatch": HATCHES[state.pattern],
    }


def draw_bars(axes: Axes, lane: ReaderLanes, scale: Scale, foot: float) -> None:
    """High bars first, then low ones before white: a silence is a gap, however short."""
    for name, state in STATES.items():
        look, height = look_of(name, state), HIGH if state.is_high else LOW
        ends = ends_of((run for run in lane.runs if run.state == name), scale)
        if not state.is_high:
            draw_boxes(axes, ends, foot, HIGH, {"facecolor": "white", "edgecolor": "white", "lw": 0.6})
        narrow = [(left, right) for left, right in ends if right - left < PLAIN]
        wide = [(left, right) for left, right in ends if right - left >= PLAIN]
        draw_boxes(axes, narrow, foot, height, look | {"edgecolor": "none", "hatch": ""})
        draw_boxes(axes, wide, foot, height, look)


def draw_boxes(
    axes: Axes, ends: list[tuple[float, float]], foot: float, height: float, look: dict
) -> None:
    boxes = [Rectangle((left, foot), right - left, height) for left, right in ends]
    axes.add_collection(PatchCollection(boxes, **look))


def draw_ports(axes: Axes, lane: ReaderLanes, scale: Scale, top: float) -> float:
    """What each port told, from this height down, and where that ends. Lies are as high as their
    lane, and drawn last; a silence is a gap."""
    for port, runs in enumerate(lane.ports):
        foot = top - PORT_LANE * port - PORT_HIGH
        axes.text(-0.12, foot + PORT_HIGH / 2, str(port), size=TINY, ha="right", va="center")
        axes.plot([0, WIDTH], [foot, foot], color="#BBBBBB", lw=0.4, zorder=0.5)
        for name, state in PORT_STATES.items():
            ends = ends_of((run for run in runs if run.state == name), scale)
            height = PORT_HIGH if state.is_high else PORT_LOW
            if name != "agreed":
                white = {"facecolor": "white", "edgecolor": "white", "lw": 0.0}
                draw_boxes(axes, ends, foot, PORT_HIGH, white)
            if name != "silent":
                draw_boxes(axes, ends, foot, height, look_of(name, state) | {"linewidth": 0.0})
    ends = top - PORT_LANE * len(lane.ports)
    if lane.ports:
        draw_cuts(axes, scale, ends, top)
    return ends


# ---- how far a device lay off


OFF_PATCHES = (
    Patch(label="by how much its second began late (+) or early (-)", facecolor="black", linewidth=0),
    Patch(label="how much it says that may be", facecolor=BAND, alpha=0.35, linewidth=0),
    Patch(label="more than that", facecolor=OFF_BEYOND, linewidth=0),
)


def most_off(lane: ReaderLanes) -> int:
    """The height of half a strip, in microseconds: a round number that no bound and no error passes."""
    offs = [*lane.told, *lane.stamps]
    most = max([abs(off.off_us or 0) for off in offs] + [off.bound_us or 0 for off in offs] + [10])
    step = 10 ** (len(str(most)) - 1)
    return ceil(most / step) * step


def draw_offs(axes: Axes, lane: ReaderLanes, scale: Scale, top: float) -> float:
    """From this height down how far each told edge lay off up to the next one, in the band of its bound, and the
    stamps of their instants; and where that ends."""
    if not (lane.told or lane.stamps):
        return top
    most, middle = most_off(lane), top - OFF_HIGH / 2
    inch = (OFF_HIGH / 2 - 0.04) / most
    axes.plot([0, WIDTH], [middle, middle], color="#888888", lw=0.4, zorder=0.5)
    for height, text in ((most * inch, f"+{most} us"), (0, "0"), (-most * inch, f"-{most} us")):
        axes.text(-0.12, middle + height, text, size=TINY, ha="right", va="center")
    ends = [*(off.at for off in lane.told[1:]), scale.stretches[-1].last]
    for off, end in zip(lane.told, ends):
        draw_told(axes, off, (scale.place(off.at), scale.place(min(end, off.at + 1))), middle, inch)
    for off in lane.stamps:
        draw_stamp(axes, off, scale.place(off.at), middle, inch)
    draw_cuts(axes, scale, top - OFF_HIGH, top)
    return top - OFF_HIGH


def draw_told(axes: Axes, off: Off, ends: tuple[float, float], middle: float, inch: float) -> None:
    if off.bound_us is not None:
        bound = off.bound_us * inch
        axes.fill_between(ends, middle - bound, middle + bound, color=BAND, alpha=0.35, lw=0, zorder=0.6)
    height = middle + (off.off_us or 0) * inch
    look = {"color": OFF_BEYOND if off.is_beyond else "black", "ls": ":" if off.bound_us is None else "-"}
    axes.plot(ends, [height, height], lw=1.2, solid_capstyle="butt", **look)


def draw_stamp(axes: Axes, off: Off, place: float, middle: float, inch: float) -> None:
    """A rhombus, hollow if no stamp was given."""
    look, height = OFF_BEYOND if off.is_beyond else "black", middle + (off.off_us or 0) * inch
    face = "white" if off.bound_us is None else look
    axes.plot([place], [height], "D", ms=4, mec=look, mfc=face, zorder=5, clip_on=False)


# ---- marks and labels


def draw_marks(axes: Axes, lane: ReaderLanes, scale: Scale, foot: float) -> None:
    top = foot + HIGH + 0.1
    for mark in lane.marks:
        place = scale.place(mark.at)
        if mark.kind == "month end":
            axes.plot([place, place], [foot - 0.03, top], "white", lw=2.4)
            axes.plot([place, place], [foot - 0.03, top], "black", lw=1, ls=(0, (3, 2)))
        else:
            axes.plot([place], [top - 0.02], "X" if mark.kind == "premise broken" else "v", ms=7,
                      mfc="white" if mark.kind == "deleted second" else "black", mec="black", zorder=4)


def causes_of(lane: ReaderLanes, scale: Scale) -> tuple[list[list[Label]], int]:
    """Labels for silences, rare causes first, then long ones, and for offsets; and how many there are."""
    silent = [run for run in lane.runs if not STATES[run.state].is_high]
    counts = Counter(run.cause for run in silent)
    silent.sort(key=lambda run: (counts[run.cause], run.first - run.last, run.first))
    amiss: list[Lane | Offset] = [*silent, *lane.offsets]
    labels = []
    for run in amiss[:MOST_LABELS]:
        edges = f"{run.first}" if run.first == run.last else f"{run.first} to {run.last}"
        left, right = scale.place(run.first - 0.5), scale.place(run.last + 0.5)
        labels.append(label(f"{edges}: {run.cause}", (left + right) / 2, right - left))
    stamps = [label(f"{off.at:.6f}: {off.said}", scale.place(off.at)) for off in lane.stamps[:MOST_LABELS]]
    return stamps + labels, len(amiss) + len(lane.stamps)


def draw_causes(axes: Axes, lane: ReaderLanes, scale: Scale, top: float) -> float:
    """Writes the causes of silences and the offsets below a bar, and says where they end."""
    labels, count = causes_of(lane, scale)
    found = chosen(labels, MOST_ROWS)
    for told, row in found:
        height = top - ROW * (row + 0.5)
        axes.plot([told.place] * 2, [top + BELOW, height + 0.06], "#888888", lw=0.6, zorder=0.6)
        write(axes, told, height)
    depth = max((row for _, row in found), default=-1) + 1
    if len(found) < count:
        kinds = {"silences": True, "lies": lane.offsets, "stamps": lane.stamps}
        what = " and ".join(kind for kind, is_there in kinds.items() if is_there)
        more, *_ = label(f"and {count - len(found)} more {what}: zoom in by --edges", WIDTH, WIDTH)
        write(axes, Label(more.text, WIDTH, WIDTH - more.width, more.width), top - ROW * (depth + 0.5))
        depth += 1
    return top - ROW * depth


def draw_lane(axes: Axes, lane: ReaderLanes, scale: Scale, top: float) -> float:
    """Draws a reader from this height down, and says where it ends."""
    foot = top - ABOVE - HIGH
    axes.text(-0.12, foot + HIGH / 2, lane.reader, size=NORMAL, ha="right", va="center")
    axes.plot([0, WIDTH], [foot, foot], color="#BBBBBB", lw=0.6, zorder=0.5)
    draw_bars(axes, lane, scale, foot)
    draw_cuts(axes, scale, foot - 0.02, foot + HIGH + 0.04)
    draw_marks(axes, lane, scale, foot)
    ports_end = draw_ports(axes, lane, scale, foot - BELOW)
    return draw_causes(axes, lane, scale, draw_offs(axes, lane, scale, ports_end))


# ---- the picture


def draw_top(axes: Axes, bars: Bars, scale: Scale) -> float:
    """Says above all lanes what the marks are; and how high that is."""
    marks = {(mark.at, mark.kind): None for lane in bars.lanes for mark in lane.marks}
    labels = [label(MARKS[kind], scale.place(at)) for at, kind in marks]
    found = chosen(labels[:MOST_LABELS], MOST_ROWS)
    for told, row in found:
        axes.plot([told.place] * 2, [-0.1, ROW * (row + 0.5) - 0.06], "#888888", lw=0.6, zorder=0.6)
        write(axes, told, ROW * (row + 0.5))
    return ROW * (max((row for _, row in found), default=-1) + 1)


def meaning_of(bars: Bars) -> str:
    """What the last line of a log means."""
    found = (meaning for beginning, meaning in VERDICTS.items() if bars.last_line.startswith(beginning))
    within = ", and each edge and stamp lies within its bound" if bars.kind == "device" else ""
    return next(found).format(kind=bars.kind, within=within)


def patches_of(bars: Bars) -> list[list[Patch]]:
    """The states that are drawn, as in the legend: those of readers, and those of ports."""
    readers = {run.state for lane in bars.lanes for run in lane.runs}
    ports = {run.state for lane in bars.lanes for runs in lane.ports for run in runs}
    found = [
        [Patch(label=f"{name}: {state.meaning}", **look_of(name, state))
         for name, state in STATES.items() if name in readers],
        [*OFF_PATCHES] if any(lane.told or lane.stamps for lane in bars.lanes) else [],
        [Patch(label=f"port: {state.meaning}", **look_of(name, state))
         for name, state in PORT_STATES.items() if name in ports],
    ]
    return [patches for patches in found if patches]


def rows_in(patches: list[Patch]) -> int:
    return ceil(len(patches) / IN_A_ROW)


def draw_legend(figure: Figure, bars: Bars, left: float, top: float) -> None:
    """What the states are, three in a line from the left, from this height down."""
    width, height = figure.get_size_inches()
    for patches in patches_of(bars):
        in_lines = [patch for column in range(IN_A_ROW) for patch in patches[column::IN_A_ROW]]
        figure.legend(handles=in_lines, loc="upper left", bbox_to_anchor=(left / width, top / height),
                      ncol=IN_A_ROW, fontsize=SMALL, frameon=False, borderaxespad=0, borderpad=0,
                      labelspacing=0.88, handleheight=1.1, handlelength=2.4)
        top -= LEGEND_ROW * rows_in(patches)


def draw_words(figure: Figure, bars: Bars, title: str, left: float) -> None:
    """The title, and the last line of the log."""
    width, height = figure.get_size_inches()

    def say(inches: float, text: str, size: float, **look: str) -> None:
        figure.text(left / width, inches / height, text, size=size, va="center", **look)

    heading = f"{title}: {WHAT[bars.kind]}".replace("$", r"\$")  # no formula
    wide = width_of(heading, LARGE) * BOLD
    say(height - 0.28, heading, LARGE * min(1.0, WIDTH / wide), weight="bold")
    told = "no second is announced"
    if bars.announced:
        ends = bars.announced[0], bars.announced[-1]
        first, last = (f"{entry.second} at edge {entry.edge}" for entry in ends)
        told = f"first announced: {first}; last: {last}"
    apart = apart_of(bars)
    if apart is not None:
        told += f"; stamps of one instant lie {apart} us apart at most"
    say(height - 0.52, told, SMALL, color="#444444")
    sign = "\N{CHECK MARK}" if bars.last_line == "premises kept" else "\N{BALLOT X}"
    say(0.42, f"{sign} {bars.last_line}", NORMAL, weight="bold")
    say(0.2, meaning_of(bars), SMALL, color="#444444")


def picture_of(bars: Bars, title: str) -> Figure:
    scale = Scale(bars, WIDTH)
    figure = Figure()
    axes = figure.add_axes([0, 0, 1, 1])
    top, foot = draw_top(axes, bars, scale), 0.0
    axes.text(-0.12, -0.06, bars.kind, size=SMALL, color="#444444", ha="right", va="center")
    for lane in bars.lanes:
        foot = draw_lane(axes, lane, scale, foot)
    foot -= 0.12
    draw_cuts(axes, scale, foot - 0.06, foot + 0.06)
    rows = sum(map(rows_in, patches_of(bars)))
    below = 0.66 + AXIS + LEGEND_ROW * rows  # the axis, the legend, the last line of the log
    left = max(width_of(lane.reader, NORMAL) for lane in bars.lanes) + 0.3
    width, height = max(left, 0.7) + WIDTH + 0.3, top - foot + below + 0.75
    figure.set_size_inches(width, height)
    axes.set_position([left / width, below / height, WIDTH / width, (top - foot) / height])
    axes.set_ylim(foot, top)
    draw_axis(axes, bars, scale)
    draw_legend(figure, bars, left, below - AXIS)
    draw_words(figure, bars, title, left)
    return figure


def draw(bars: Bars, title: str, path: Path) -> None:
    """Writes a picture, without what differs from run to run."""
    figure = picture_of(bars, title)
    figure.savefig(path, dpi=150, metadata=KINDS[path.suffix])
