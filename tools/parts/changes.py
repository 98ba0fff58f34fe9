"""What each form of a recording comes to: the changes of its channels, and its stamp if it has one."""
from __future__ import annotations

from dataclasses import dataclass
from typing import Callable, Iterable, Iterator, List, Optional, Sequence, Tuple

from parts import package  # noqa: F401

from irig import Second

# The time in microseconds, the place of the channel among those wanted, the level. What a channel
# begins with is a change too. The last change is the recording's end, of the channel END.
Change = Tuple[float, int, int]
END = -1

HYSTERESIS = 0.1  # of the most that the line was ever off the threshold


@dataclass(frozen=True)
class Stamp:
    """When the recorder had a recording begin, by its own clock.

    text: as it stands in the recording
    second: in UTC; None if it is no time, or not from 2000-01-02 to 2099-12-30
    after_us: how many microseconds after that second; as it is read, a second more for a 60
    zone: the minutes that its text is ahead of UTC; None if the recording names none
    quality: 0, locked, to 11, within 10 seconds, or 15, failed; None if it is not there
    leap: 0 for no leap second, 1 added, 2 deleted, 3 not known; None if it is not there
    trigger_us: how much later the trigger was; None if it is no time
    step_us: from a sample to the next one; 0 if it is not known
    """

    text: str
    second: Optional[Second]
    after_us: int = 0
    zone: Optional[int] = None
    quality: Optional[int] = None
    leap: Optional[int] = None
    trigger_us: Optional[int] = None
    step_us: float = 0.0


@dataclass(frozen=True)
class Recording:
    """The names of its channels, and the changes of those that are wanted, by their places."""

    names: List[str]
    changes: Callable[[Sequence[int]], Iterator[Change]]
    stamp: Optional[Stamp] = None


def in_order(changes: Iterable[Change]) -> Iterator[Change]:
    """The same changes; a time that goes back is refused."""
    last = float("-inf")
    for change in changes:
        if change[0] < last:
            raise ValueError(f"its times go back, from {last:.3f} to {change[0]:.3f} us")
        last = change[0]
        yield change


class Level:
    """A level of what a recording says: 0 and 1, or volts by a threshold."""

    def __init__(self, threshold: Optional[float]) -> None:
        self.threshold = threshold
        self.now = -1
        self.most = 0.0

    def hear(self, text: str) -> bool:
        """Whether the level is another than before."""
        return self.take(logical(text) if self.threshold is None else float(text))

    def take(self, value: float) -> bool:
        """Whether the level is another than before. An edge that is slow, and noisy, crosses once: by
        hysteresis about the threshold."""
        before = self.now
        if self.threshold is None:
            self.now = int(value)
        else:
            off = value - self.threshold
            self.most = max(self.most, abs(off))
            if self.now < 0 or abs(off) > HYSTERESIS * self.most:
                self.now = int(off > 0)
        return self.now != before


def logical(text: str) -> int:
    """The level of a text, 0 or 1."""
    word = text.strip().strip('"')
    if word not in ("0", "1"):
        raise ValueError(f"{word!r} is no level, 0 or 1; of volts --threshold says what is high")
    return int(word)
