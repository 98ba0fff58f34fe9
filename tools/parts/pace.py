"""How fast the clock of a recorder runs, by the lines that it recorded. A timekeeper's counter may be
100 parts in a million off, and that of a recorder 5,000: so a timekeeper is given the time of the lines
in its place."""
from __future__ import annotations

from dataclasses import dataclass
from statistics import median
from typing import Sequence, Tuple

ELEMENT_US, SECOND_US = 10_000, 1_000_000
SMOOTH_S = 16  # over so many seconds the pace is smoothed
KEPT_US = 3_000_000  # no pulse that is told rose so long ago
WEIGHTS = range(-99, 100, 2)  # of the rises of a frame
ALL = ELEMENT_US * sum(weight * place for place, weight in enumerate(WEIGHTS))


def pace_of(frame: Sequence[Tuple[int, int]]) -> float:
    """How many microseconds of a recorder one of a whole frame takes: by the straight line that comes
    nearest to all its rises."""
    return sum(weight * rise for weight, (rise, _) in zip(WEIGHTS, frame)) / ALL


@dataclass(frozen=True)
class _Stretch:
    """From a time of the recorder on, which is a time of the lines, there is one pace."""

    begin: float
    lines_begin: float
    pace: float


class LinesTime:
    """The time of the lines by that of a recorder. It follows a pace that changes slowly, and neither
    time ever jumps by the other."""

    def __init__(self, pace: float) -> None:
        self.pace = pace
        self._stretches = [_Stretch(0.0, 0.0, pace)]

    def at(self, time: float) -> float:
        """The lines' time at one of the recorder, which is not long past."""
        of = next((one for one in reversed(self._stretches) if one.begin <= time), self._stretches[0])
        return of.lines_begin + (time - of.begin) / of.pace

    def back(self, lines_time: float) -> float:
        """The recorder's time at one of the lines."""
        stretches = reversed(self._stretches)
        of = next((one for one in stretches if one.lines_begin <= lines_time), self._stretches[0])
        return of.begin + (lines_time - of.lines_begin) * of.pace

    def follow(self, now: int, paces: Sequence[float]) -> None:
        """A frame has ended: this takes the pace of the last one of each line, and goes by their median,
        as a line whose own clock is wrong has another."""
        begins = self.at(now)
        self.pace += (median(paces) - self.pace) / (SMOOTH_S * len(paces))
        self._stretches.append(_Stretch(now, begins, self.pace))
        while self._stretches[1].begin < now - KEPT_US:
            del self._stretches[0]
