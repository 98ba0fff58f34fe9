"""What a device would hear of recorded lines: a timekeeper of the package is told their pulses, and
ticked when it has something to do. And of each line what its pulses are."""
from __future__ import annotations

from collections import Counter
from dataclasses import dataclass
from functools import lru_cache, partial
from itertools import product
from statistics import fmean, median
from typing import Callable, Dict, Iterable, Iterator, List, Optional, Sequence, Set, Tuple

from irig import (
    Claim, Coded, Control, Fault, Faulty, Poor, Reader, Silence, Sync, Timekeeper, Told, claim, classify, decode,
)
from irig.words import Sense

from parts.changes import END, Change
from parts.pace import ELEMENT_US, SECOND_US, LinesTime, pace_of

KEPT_US = 100_000  # how long behind its end a timekeeper keeps a frame
AGREE_US = 1_000  # a frame that ends so near to an edge is of it, if lines are as inexact as they may be
MOST_EXACT_US = 450
OFF_US = (0, 1, 1, 1, 1, 10, 100, 1_000)  # and its clock may be so far off, by the quality that it says
BEHIND_US = 6_000  # how long behind a recording's end it is still ticked
FIRST_US = 8_000_000  # for so long behind its first whole frame a recording is looked at beforehand
LATELY_US = 1_500_000  # a line whose last frame ended within this says how fast the recorder's clock runs
WORD = 1 << 32  # at which its counter wraps
MOST_EARLY = 300  # pulses that are kept of a line's beginning
NEVER = float("inf")
POOR = 0  # no fault has this number

symbol_of = lru_cache(maxsize=4096)(classify)


def without_glitches(changes: Iterable[Change], shortest_us: float) -> Iterator[Change]:
    """The changes without levels that last for less. What a channel begins with is none."""
    levels: Dict[int, int] = {}
    waiting: Dict[int, Change] = {}  # a change that may be a glitch's, by its channel; oldest first
    begun: Set[int] = set()
    for change in changes:
        time, channel, level = change
        while waiting:
            oldest = next(iter(waiting.values()))
            if channel != END and time - oldest[0] < shortest_us:
                break
            del waiting[oldest[1]]
            begun.add(oldest[1])
            yield oldest
        if levels.get(channel) == level:
            continue
        levels[channel] = level
        if waiting.pop(channel, None) is None or channel not in begun:
            waiting[channel] = change
    yield from waiting.values()


@dataclass
class Spread:
    """The least, the most and the mean of some times."""

    count: int = 0
    least: float = NEVER
    most: float = -NEVER
    total: float = 0.0

    def add(self, time: float) -> None:
        self.count += 1
        self.total += time
        if time < self.least:
            self.least = time
        if time > self.most:
            self.most = time

    @property
    def mean(self) -> float:
        return self.total / self.count

    def __str__(self) -> str:
        least, most, mean = (time / 1000 for time in (self.least, self.most, self.mean))
        return f"{self.count:8}  {least:.3f} to {most:.3f} ms, mean {mean:.3f}"


class View:
    """A line seen with one polarity."""

    def __init__(self, high: int) -> None:
        self.high = high
        self.hears: List[Callable[[int, int], int]] = [Sync().pulse]  # what says a pulse's place
        self.heard: List[Tuple[int, int]] = []  # rises and widths, in step since a frame began
        self.whole: List[Tuple[int, int]] = []  # those of the last frame
        self.pace = 1.0  # how many microseconds of the recorder one of that frame takes
        self.rise = self.last_rise = -NEVER
        self.early: List[Tuple[float, int]] = []  # the first rises and widths, of a short recording all
        self.pulses = self.frames = self.out_of_step = self.begun = self.on_time = 0
        self.widths = {letter: Spread() for letter in "01P?"}
        self.gaps = Spread()  # between pulses in step
        self.seconds = Spread()  # from the beginning of a frame to that of the next
        self._begun_at = -NEVER  # the last frame
        self._place = 0
        self.rises: Counter[int] = Counter()  # between all, in tenths of a millisecond

    def change(self, time: float, level: int) -> bool:
        """A change of the level; whether a frame ends with it."""
        if level == self.high:
            self.rise = time
            return False
        if self.rise == -NEVER:
            return False
        gap = self.rise - self.last_rise
        if gap >= SECOND_US and not self.frames:
            self.hears = [Sync().pulse]  # as it is idle, even if its clock has wrapped
        place, rise, width = 0, round(self.rise), min(round(time - self.rise), WORD - 1)
        for hear in self.hears:
            place = hear(rise, width)
        self._note(place, width, gap)
        if place == 1:
            self.heard = []
        if place:
            self.heard.append((rise, width))
        if place == 100:
            self.whole, self.heard = self.heard, []
            self.pace = pace_of(self.whole)
        return place == 100

    def _note(self, place: int, width: int, gap: float) -> None:
        self.pulses += 1
        self.out_of_step += not place
        self.begun += place == 1
        self.frames += place == 100
        self.widths[symbol_of(width)].add(width)
        if self.pulses <= MOST_EARLY:
            self.early.append((self.rise, width))
        if gap < NEVER:
            self.rises[min(round(gap / 100), 10_000)] += 1
            is_on_time = 9_000 <= gap < 11_000
            self.on_time += is_on_time
            if place > 1:
                self.gaps.add(gap)
            elif place == 1 and self._place == 100 and is_on_time:
                self.seconds.add(self.rise - self._begun_at)
        if place == 1:
            self._begun_at = self.rise
        self.last_rise, self._place = self.rise, place

    @property
    def second(self) -> float:
        """How long the line's second is, in microseconds; where no frame follows another one, by the
        pulses of frames."""
        return self.seconds.mean if self.seconds.count else 100 * self.gaps.mean


class Line:
    """A line with its polarity, as soon as a frame has shown it: pulses rise each 10 ms, and do not
    end so, so that no frame is found with the other one. Its ports are told of it from that frame
    on. The reader says what a frame tells. All its pulses come so many microseconds late."""

    def __init__(self, name: str, polarity: str, ear: Reader, delay: int = 0) -> None:
        self.name, self.delay = name, delay
        highs = {"normal": (1,), "inverted": (0,)}.get(polarity, (1, 0))
        self.views = [View(high) for high in highs]
        self.ports: List[Callable[[int, int], int]] = []
        self.told: Told = Silence()  # by the last whole frame
        self.off_us = 0  # how far off its clock may be, as the last one says that has a vote
        self.changes = 0
        self.decoded = 0  # frames that are of a time
        self.bare = 0  # those of them whose year and control bits are all 0
        self.shifted: Optional[Coded] = None  # the first of them that has an offset
        self.ahead: Counter[int] = Counter()  # ticks at which it was so many seconds ahead of most
        self.since: Dict[int, Tuple[int, int]] = {}  # the first of them, and its time
        self.late = Spread()  # how long behind most its frames end, where that is too far
        self.near = 0  # frames that end near those of most
        self.voiceless: Counter[int] = Counter()  # frames that have no vote, by their fault, POOR of a quality
        self._ear = ear

    @property
    def view(self) -> View:
        """The polarity that has more pulses on time."""
        return max(self.views, key=lambda view: view.on_time)

    @property
    def frame_end(self) -> float:
        """Where the last whole frame ends, without its delay."""
        whole = self.view.whole
        return whole[-1][0] + (ELEMENT_US - self.delay) * self.view.pace if whole else -NEVER

    @property
    def early(self) -> List[Tuple[float, int]]:
        """Its first pulses without their delay."""
        return [(rise - self.delay, width) for rise, width in self.view.early]

    def change(self, time: float, level: int) -> bool:
        """A change of the level; whether a frame ends with it."""
        self.changes += 1
        if self.changes == 1:  # what the recording begins with
            return False
        for view in self.views:
            if view.change(time, level):
                if view.frames == 1:
                    self._begin(view)
                self._look([width for _, width in view.whole])
                return True
        return False

    def _begin(self, view: View) -> None:
        self.views, view.hears = [view], self.ports
        for hear, pulse in product(self.ports, view.whole):
            hear(*pulse)

    def _look(self, widths: List[int]) -> None:
        self._ear.restart()
        self._ear.pulses(0, widths)
        self.told = self._ear.port(0)
        if isinstance(self.told, (Faulty, Poor)):
            self.voiceless[self.told.number if isinstance(self.told, Faulty) else POOR] += 1
        try:
            coded = decode("".join(map(symbol_of, widths)))
        except Fault:
            return
        self.decoded += 1
        if isinstance(self.told, Claim):
            self.off_us = OFF_US[Control.unpack(coded.control).quality]
        self.bare += coded.year == 0 and coded.control == 0
        if self.shifted is None and Control.unpack(coded.control).offset_half_hours:
            self.shifted = coded

    def heard(self, now: float) -> Tuple[List[int], Told]:
        """The widths that its ports have at a tick, and what they tell: the frame that a timekeeper
        keeps, or the beginning of one."""
        if self.frame_end >= now - KEPT_US * self.view.pace:
            return [width for _, width in self.view.whole], self.told
        heard = self.view.heard
        is_new = bool(heard) and heard[-1][0] > now - SECOND_US
        return [width for _, width in heard] if is_new else [], Silence()


@dataclass(frozen=True)
class Tick:
    """A second begins: at this time of the recording, by a claim on which ports agree or by the
    counter; how far from it their frames end, and the widths that each port heard."""

    edge: int
    claim: Optional[Claim]
    agreed: Tuple[int, ...]
    away: float
    heard: List[List[int]]


def first_pace(changes: Iterable[Change], lines: Sequence[Line]) -> float:
    """How many microseconds of the recorder one of most lines takes when they begin. Of the lines nothing
    else is asked."""
    paces: Dict[int, List[float]] = {}
    end = NEVER
    for line in lines:
        line.ports.append(Sync().pulse)
    for time, number, level in changes:
        if number == END or time > end:
            break
        if lines[number].change(time, level):
            paces.setdefault(number, []).append(lines[number].view.pace)
            end = min(end, time + FIRST_US)
    return median(map(fmean, paces.values())) if paces else 1.0


class Device:
    """A timekeeper with a line to each port, ticked as `c/examples/capture.c` does it, but as much later as
    the line with the longest delay is. Its counter has the time of the lines, whose first pace by the
    recorder is known."""

    def __init__(self, keeper: Timekeeper, ports: Sequence[Line], pace: float) -> None:
        self.ports = ports
        self.lines = list(dict.fromkeys(ports))
        self.count = 0
        self.first: Optional[Tick] = None
        self.last: Optional[Tick] = None
        self.end = 0.0  # of the recording
        self.apart = 0.0  # how far frames that ended near an edge were apart at most
        self.exact = keeper.within_us
        self._near = AGREE_US * self.exact / MOST_EXACT_US
        self._wait = max(0, *(line.delay for line in ports))
        self._keeper = keeper
        self._counter = LinesTime(pace)
        self._due = 0  # by the counter
        self._due_at = -NEVER  # by the recorder; at which the recording begins
        for number, line in enumerate(ports):
            line.ports.append(partial(self._hear, number))

    def ticks(self, changes: Iterable[Change]) -> Iterator[Tick]:
        """Each tick at which a second begins."""
        for time, number, level in changes:
            now = time - self._wait
            if self._due_at <= now:
                yield from self._until(now)
            if number == END:
                self.end = time
                yield from self._until(time + BEHIND_US)
            elif self.lines[number].change(time, level):
                self._follow(round(time))
                self._ask(round(self._counter.at(now)))

    def _hear(self, port: int, rise: int, width: int) -> int:
        return self._keeper.hear(port, round(self._counter.at(rise)), width)

    def _follow(self, now: int) -> None:
        paces = [line.view.pace for line in self.lines if line.frame_end > now - LATELY_US]
        if paces:  # the last pulse of a frame may have been stuck for seconds
            self._counter.follow(now, paces)

    def _ask(self, count: int) -> None:
        """Pulses were told up to this count."""
        self._due = count + self._keeper.wait(count)
        self._due_at = self._counter.back(self._due)

    def _until(self, end: float) -> Iterator[Tick]:
        if self._due_at == -NEVER:
            self._ask(round(self._counter.at(end)))
        while self._due_at <= end:
            count, now = self._due, self._due_at
            beat = self._keeper.tick(count)
            if beat:
                edge = self._counter.back(count - (count - beat.edge_us) % WORD)
                yield self._tick(now, round(edge), beat.report.agreed)
            self._ask(count)

    def _tick(self, now: float, edge: int, agreed: Tuple[int, ...]) -> Tick:
        ends = [line.frame_end for line in self.lines if self._is_near(line, line.frame_end - edge)]
        self.apart = max(self.apart, max(ends, default=0) - min(ends, default=0))
        heard = [line.heard(now) for line in self.ports]
        most, count = Counter(told for _, told in heard).most_common(1)[0]
        claim = most if isinstance(most, Claim) and 2 * count > len(heard) else None
        if claim and not agreed:  # their frames end too far apart
            heard, claim = [([], told) if told == claim else (of, told) for of, told in heard], None
        away = max((abs(self.ports[port].frame_end - edge) for port in agreed), default=0.0)
        self.last = Tick(edge, claim, agreed, away, [widths for widths, _ in heard])
        self.first = self.first or self.last
        self.count += 1
        if claim:
            for line in self.lines:
                self._compare(line, edge, claim)
        return self.last

    def _is_near(self, line: Line, late: float) -> bool:
        """Whether a line's frame ends no further from an edge than lines do that are as exact as these."""
        return abs(late) <= self._near + line.off_us

    def _compare(self, line: Line, edge: int, claim: Claim) -> None:
        """Compares the last frame of a line with the claim of an edge, if it is of that second. One that is
        late by a part of a second is of the second before."""
        second = SECOND_US * self._counter.pace
        behind = round((line.frame_end - edge) / second) if line.frame_end > edge - 2 * second else -2
        late = line.frame_end - edge - behind * second
        is_near = self._is_near(line, late)
        if behind < -1 or (behind and is_near):
            return
        line.near += is_near
        if not is_near:
            line.late.add(late)
        seconds = line.told.second - claim.second - behind if isinstance(line.told, Claim) else 0
        if seconds:
            line.ahead[seconds] += 1
            line.since.setdefault(seconds, (self.count, edge))


# ---- what a line is


def report(line: Line, sense: Sense) -> Iterator[str]:
    """What was found on a line, whose offset is read by this sense."""
    view = line.view
    said = f"{view.pulses} pulses, {view.frames} frames, {view.out_of_step} pulses out of step"
    yield f"{line.name}: {said}{'' if view.high else ', inverted'}"
    for letter, spread in view.widths.items():
        if spread.count:
            yield f"    {letter}   {spread}"
    if view.gaps.count:
        yield f"    gap {view.gaps}"
    if view.frames:
        ppm = round((view.second / SECOND_US - 1) * 1e6, 1)
        word = "shorter" if ppm < 0 else "longer"
        yield f"    a second is {abs(ppm):.1f} ppm {word} than one of the recorder"
    if line.shifted:
        yield f"    {_offset(line.shifted, sense)}"
    oddity = _oddity(line)
    if oddity:
        yield f"    {oddity}"


def _offset(coded: Coded, sense: Sense) -> str:
    """What a frame with an offset says by this sense, and by the other one."""
    half_hours = Control.unpack(coded.control).offset_half_hours
    other: Sense = "subtract" if sense == "add" else "add"
    offset = f"{'-' * (half_hours < 0)}{abs(half_hours) // 2}:{half_hours % 2 * 30:02}"
    read = f"read by {sense!r} as {_second(coded, sense)}"
    return f"it sends an offset of {offset}, {read}; by {other!r} it would be {_second(coded, other)}"


def _second(coded: Coded, sense: Sense) -> str:
    try:
        return str(claim(coded, sense=sense).second)
    except Fault as fault:
        return f"fault {fault}"


def _oddity(line: Line) -> Optional[str]:
    """What a line looks like that is no B004."""
    view = line.view
    if not view.pulses:
        return "nothing is on it"
    if view.frames:
        if line.decoded and line.bare == line.decoded:
            return "its year and control bits are all 0, as of a clock without those of IEEE 1344"
        return None
    if view.pulses == 1:
        return "one pulse alone is on it"
    if not view.widths["0"].count and view.widths["1"].count and view.widths["P"].count:
        return "no pulse of 2 ms is on it: a filter of its input, of milliseconds, takes them away"
    if 2 * view.on_time <= view.pulses - 1:
        tenths = view.rises.most_common(1)[0][0]
        apart = f"its pulses are not 10 ms apart but, most often, {tenths / 10:g} ms"
        return f"{apart}: another code, or a modulated one"
    if not view.begun:
        return "no frame begins: never do two markers follow each other"
    return "frames begin, and none has a hundred pulses, each 10 ms behind the one before"
