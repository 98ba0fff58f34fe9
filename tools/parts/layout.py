"""Where things stand in a picture: edges on an axis that may be shortened, and labels in rows."""
from __future__ import annotations

from bisect import bisect_right
from collections.abc import Iterable, Sequence
from dataclasses import dataclass
from itertools import combinations, pairwise

from parts.log_lanes import Bars

SHOWN = 0.05  # the least width of a change for which an axis stays even, in inches
CLEAR = 0.15  # and with shortened stretches
LONGEST = (400, 200, 100, 60, 40, 30, 20, 12)  # how many edges a stretch is wide at most


@dataclass(frozen=True)
class Stretch:
    """Places on the axis between which nothing changes: `is_cut` if drawn shorter than it is."""

    first: float
    last: float
    left: float
    width: float
    is_cut: bool


class Scale:
    """Where an edge is drawn, in inches from the left: edge n from n - 1/2 to n + 1/2."""

    def __init__(self, bars: Bars, width: float) -> None:
        ends = {bars.first - 0.5, bars.last + 0.5}
        for lane in bars.lanes:
            for runs in (lane.runs, *lane.ports):
                ends.update(run.first - 0.5 for run in runs)
            ends.update(place for mark in lane.marks for place in (mark.at - 0.5, mark.at + 0.5))
        ends = {end for end in ends if bars.first - 0.5 <= end <= bars.last + 0.5}
        pairs = list(pairwise(sorted(ends)))
        longest = _longest([last - first for first, last in pairs], width)
        drawn = [min(last - first, longest) for first, last in pairs]
        inches, left = width / sum(drawn), 0.0
        self.stretches = []
        for (first, last), wide in zip(pairs, drawn):
            is_cut = wide < last - first
            self.stretches.append(Stretch(first, last, left, wide * inches, is_cut))
            left += wide * inches
        self._starts = [stretch.first for stretch in self.stretches]

    @property
    def is_cut(self) -> bool:
        return any(stretch.is_cut for stretch in self.stretches)

    def place(self, edge: float) -> float:
        stretch = self.stretches[max(bisect_right(self._starts, edge) - 1, 0)]
        part = (edge - stretch.first) / (stretch.last - stretch.first)
        return stretch.left + part * stretch.width


def _longest(lengths: list[float], width: float) -> float:
    """How many edges a stretch is wide at most: as many as it has if no change is too narrow so."""
    narrowest = min(lengths)
    if narrowest * width / sum(lengths) < SHOWN:
        for longest in LONGEST:
            if narrowest * width / sum(min(length, longest) for length in lengths) >= CLEAR:
                return longest
    return max(lengths)


@dataclass(frozen=True)
class Label:
    """A text of some width, from `left` on, with a line from its row to the place that it is for."""

    text: str
    place: float
    left: float
    width: float

    @property
    def right(self) -> float:
        return self.left + self.width


def ways(text: str, place: float, width: float, room: float, limits: tuple[float, float]) -> list[Label]:
    """How a label may stand: in the middle if there is so much room at its place, or to one side."""
    middle = [Label(text, place, place - width / 2, width)] if width <= room else []
    sides = [Label(text, place, place, width), Label(text, place, place - width, width)]
    if place > sum(limits) / 2:
        sides.reverse()
    within = [side for side in sides if limits[0] <= side.left and side.right <= limits[1]]
    return middle + within or [Label(text, place, max(limits[0], limits[1] - width), width)]


def rows_of(labels: Sequence[Label], most: int) -> list[int] | None:
    """The row of each label, so that no text or line crosses a text; None if there is no such way."""
    deeper = []
    for (here, one), (there, other) in combinations(enumerate(labels), 2):
        if one.left < other.right and other.left < one.right:
            is_one_in, is_other_in = (
                other.left < one.place < other.right, one.left < other.place < one.right
            )
            if is_one_in and is_other_in:
                return None
            deeper.append((there, here) if is_one_in or not is_other_in else (here, there))
    rows = [0] * len(labels)
    for _ in range(most):
        for low, high in deeper:
            rows[low] = max(rows[low], rows[high] + 1)
    return rows if max(rows, default=0) < most else None


def chosen(wanted: Iterable[Sequence[Label]], most: int) -> list[tuple[Label, int]]:
    """The labels for which there is room, the first ones first, each in the way that needs least."""
    labels: list[Label] = []
    rows: list[int] = []
    for others in wanted:
        found = [
            (sum(tried), place, tried)
            for place, other in enumerate(others)
            if (tried := rows_of([*labels, other], most)) is not None
        ]
        if found:
            _, place, rows = min(found)
            labels.append(others[place])
    return list(zip(labels, rows))
