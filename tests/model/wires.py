"""What reaches a simulated device by its cables, one pulse at a time, and what its oscillator shows."""

from dataclasses import dataclass, field

SECOND = 1_000_000
Pulse = tuple[int, int]  # when it rises, and when it has ended
END, TICK, SEND = range(3)  # of what falls on one time, in which order it happens


@dataclass
class Cable:
    """A cable that is so late, and the pulse that is on its way."""

    late: int
    is_out: bool = False
    pulse: Pulse | None = None

    def add(self, rise: int, width: int) -> None:
        """A pulse rises, if the line is free."""
        self.pulse = self.pulse or (rise, rise + width)

    def send(self, now: int, width: int) -> None:
        """A clock sends a pulse, which is late."""
        if not self.is_out:
            self.add(now + self.late, width)

    def take(self, now: int) -> Pulse | None:
        """The pulse, if it has ended by now."""
        if not self.pulse or now < self.pulse[1]:
            return None
        ended, self.pulse = self.pulse, None
        return ended


@dataclass
class KeptCable(Cable):
    """A cable of which each pulse that rose on it is kept."""

    rose: list[Pulse] = field(default_factory=list)

    def add(self, rise: int, width: int) -> None:
        """A pulse rises, if the line is free."""
        if self.pulse is None:
            self.rose.append((rise, rise + width))
        super().add(rise, width)


def next_of(pulses: list[Pulse | None], tick: int | None, send: int) -> tuple[int, int, int]:
    """What happens next on these lines: when, of which kind it is, and on which line a pulse ends."""
    ends = [(pulse[1], END, line) for line, pulse in enumerate(pulses) if pulse]
    return min(*ends, (send, SEND, 0), (send, SEND, 0) if tick is None else (tick, TICK, 0))


def shown(first: int, gain: int, time: int) -> int:
    """What a counter shows at a time that gains so much in each second."""
    return first + time * (SECOND + gain) // SECOND


def first_shown(first: int, gain: int, count: int) -> int:
    """When it first shows a count or more: the time rounded up."""
    return max(0, -((first - count) * SECOND // (SECOND + gain)))
