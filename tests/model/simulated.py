"""A device that true time passes over, with its cables and its counter: docs/SCENARIOS.md, A plant of devices."""

from collections.abc import Iterator
from dataclasses import dataclass

from .device import STUCK, WRAP, Beat, Device, Stamp
from .frames import Rules, symbol_of
from .premises import Premises
from .station_lines import DeviceSetup
from .wires import END, SECOND, SEND, TICK, Cable, first_shown, next_of, shown

WITHIN = 450  # a pulse rises less than so far from its place
ELEMENT = 10_000
LONGEST = 2_000_000  # from tick to tick of a device that is ticked as it asks
WIDTHS = {"0": 2_000, "1": 5_000, "P": 8_000}


@dataclass(frozen=True)
class Signal:
    """A second of a generator: the symbols that it sends, none if it is silent, and those that a true line has."""

    sent: str
    true: str


Seconds = list[list[Signal]]  # of each second that has begun, by generators


@dataclass(frozen=True)
class ToldSecond:
    """What a tick answered, the number of the edge to which the told one lies nearest, and how far behind that it
    lies by the counter."""

    beat: Beat
    edge: int
    behind: int


@dataclass(frozen=True)
class HeardPulse:
    """A pulse that a device was told: its line, when it rose there, and when it had ended."""

    line: int
    rise: int
    end: int


class Simulated:
    """A device, its lines, and what comes next, in microseconds of true time."""

    def __init__(self, setup: DeviceSetup, rules: Rules):
        self.setup, self.rate = setup, SECOND + setup.gain
        self.cables = [Cable(late) for late in setup.late]
        lines = len(self.cables)
        self.keeper = Device(rules, setup.rules, setup.table, lines, WITHIN, setup.drift, (0,) * lines)
        self.send = 0
        self.heard: list[HeardPulse] = []
        self.begin(0)

    def begin(self, now: int) -> None:
        """It is made or restarted now."""
        self.keeper.restart()
        self.premises = Premises(len(self.cables), self.count(now))
        self.next_tick = self.tick_behind(now, 0)

    def count(self, time: int) -> int:
        """What its counter shows, without the wrap."""
        return shown(self.setup.counter, self.setup.gain, time)

    # ---- when it is ticked

    def end_of_wait(self, now: int, least: int) -> int:
        """When what it asks to wait is over, or 2 s behind its last tick, and its counter shows so much more at
        least."""
        count = self.count(now)
        wait = min(self.keeper.wait(count % WRAP), self.premises.last_tick + LONGEST - count)
        return max(now, first_shown(self.setup.counter, self.setup.gain, count + max(least, wait)))

    def tick_behind(self, now: int, least: int) -> int | None:
        """Its next tick, behind one that comes now, or behind its begin."""
        if self.setup.poll is None:
            return self.end_of_wait(now, least)
        return now + self.setup.poll if self.setup.poll else None

    # ---- what happens to it

    def place(self, element: int) -> int:
        """When an element begins by its counter: so many hundredths of the way from edge to edge."""
        second, of_second = divmod(element, 100)
        return self.setup.counter + second * self.rate + self.rate * of_second // 100

    def element_of(self, line: int, rise: int, width: int, seconds: Seconds) -> int | None:
        """The element of a true line of which a pulse is, if it is of one."""
        about = (rise - self.setup.counter) * 100 // self.rate
        for element in (about, about + 1):
            second, of_second = divmod(element, 100)
            if abs(rise - self.place(element)) < WITHIN and second < len(seconds):
                return element if seconds[second][line].true[of_second] == symbol_of(width) else None
        return None

    def hear(self, line: int, now: int, seconds: Seconds) -> None:
        """A pulse has ended."""
        rise_time, _ = self.cables[line].take(now)
        self.heard.append(HeardPulse(line, rise_time, now))
        rise = self.count(rise_time)
        width = min(self.count(now) - rise, WRAP - 1)
        place = self.keeper.hear(line, rise % WRAP, width)
        if width < STUCK:
            self.premises.hear(line, rise, self.element_of(line, rise, width, seconds))
        if place == 100 and self.setup.poll is None:
            self.next_tick = self.end_of_wait(now, 0)

    def tick(self, now: int) -> Iterator[ToldSecond]:
        """It is ticked, and may tell a second."""
        count = self.count(now)
        self.premises.tick(count)
        beat = self.keeper.tick(count % WRAP)
        self.next_tick = self.tick_behind(now, 1)
        if beat is not None:
            told = count - (count - beat.edge) % WRAP
            edge = max(0, told + self.rate // 2 - self.setup.counter) // self.rate
            yield ToldSecond(beat, edge, told - self.place(100 * edge))

    def carry(self, now: int, seconds: Seconds) -> None:
        """Generators send the element that begins now."""
        second, element = divmod(now // ELEMENT, 100)
        for cable, signal in zip(self.cables, seconds[second]):
            if signal.sent:
                cable.send(now, WIDTHS[signal.sent[element]])
        self.send = now + ELEMENT

    def pass_to(self, stop: int, seconds: Seconds) -> Iterator[ToldSecond]:
        """All happens that comes before a time."""
        while (coming := next_of([cable.pulse for cable in self.cables], self.next_tick, self.send))[0] < stop:
            now, kind, line = coming
            match kind:
                case x if x == END:
                    self.hear(line, now, seconds)
                case x if x == TICK:
                    yield from self.tick(now)
                case x if x == SEND:
                    self.carry(now, seconds)

    def stamp(self, now: int, time: int) -> Stamp | None:
        """The stamp of a time, asked for now. A device that could not be ticked now may not be asked."""
        if not self.premises.is_in_time(self.count(now)):
            self.premises.are_kept = False
        return self.keeper.stamp(self.count(time) % WRAP)
