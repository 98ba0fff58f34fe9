"""What no line carries as a scenario has it."""
from __future__ import annotations

from typing import Dict, Iterator, Tuple

MOST_PULSES = 100  # in a second of a line to a reader

RESTARTS = "a restart is no matter of lines, and left out"
TOO_MANY = f"a line has room for {MOST_PULSES} pulses in a second; further ones are left out"
NO_WIDTH = "a pulse of 0 us is none on a line"
RUNS_ON = "a pulse of 10 ms or more runs into the next one"
TOUCHES = "a pulse rises as the one before it ends, and a line shows both as one"
NO_TICK = "what comes behind the last tick is left out"


class Oddities:
    """At how many ticks, or edges, each of them was, and the first one."""

    def __init__(self, unit: str) -> None:
        self._unit = unit
        self._found: Dict[str, Tuple[int, int, int]] = {}

    def add(self, what: str, place: int) -> None:
        count, first, last = self._found.get(what, (0, place, -1))
        self._found[what] = count + (place != last), first, place

    def texts(self) -> Iterator[str]:
        for what, (count, first, _) in self._found.items():
            more = f" and {count - 1} more" if count > 1 else ""
            yield f"{what}: {self._unit} {first}{more}"
