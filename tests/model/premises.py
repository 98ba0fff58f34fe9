"""Whether the calls of a device kept the premises of docs/WIRES.md: docs/SCENARIOS.md, A plant of devices."""

from dataclasses import dataclass, field

from .voting import majority

LATELY = 1_200_000  # how long a pulse counts
TICKS = 1_800_000_000 - 504_000  # so far behind one tick and further the next comes too late


@dataclass
class Heard:
    """The last pulse of a line that was of an element, and the rises for which it is untrue while they count."""

    rise: int = 0
    element: int | None = None
    against: list[int] = field(default_factory=list)

    def hear(self, rise: int, element: int | None) -> None:
        """A pulse is of this element, or of none. While both of two of one element count, one is too many: so
        until the first is forgotten."""
        if element is None:
            self.against.append(rise)
            return
        if element == self.element:
            self.against.append(self.rise)
        self.rise, self.element = rise, element

    def is_untrue(self, now: int) -> bool:
        self.against = [rise for rise in self.against if rise + LATELY >= now]
        return bool(self.against)


class Premises:
    """What a device heard on each line since it was made or restarted, and its last tick, by its counter."""

    def __init__(self, lines: int, now: int):
        self.lines = [Heard() for _ in range(lines)]
        self.last_tick = now
        self.are_kept = True

    def hear(self, line: int, rise: int, element: int | None) -> None:
        self.lines[line].hear(rise, element)

    def is_in_time(self, now: int) -> bool:
        """Whether a tick that comes now comes in time."""
        return self.last_tick <= now < self.last_tick + TICKS

    def tick(self, now: int) -> None:
        untrue = sum(line.is_untrue(now) for line in self.lines)
        if untrue >= majority(len(self.lines)) or not self.is_in_time(now):
            self.are_kept = False
        self.last_tick = now
