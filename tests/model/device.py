"""A device that keeps time by its lines: docs/WIRES.md, A device that keeps time."""

from dataclasses import dataclass, field, replace

from .faults import Fault
from .frames import Poor, Rules, Told, quality_of, symbol_of, told
from .reader import IDLE, Cause, Lock, ReaderRules, Report, State, after_tick, stopped
from .times import Claim, Mark, Second, Table, second_after, table_mark
from .voting import majority

WRAP = 2**32  # where the device's counter wraps
SECOND = 1_000_000
ELEMENT = 10_000
STUCK = 500_000  # what is as wide is no pulse
BEFORE = 3_000  # what ends longer before the first of those that agree has no part in a vote
KEPT = 100_000  # how long a line keeps a frame behind its end
SERVED = 103_000  # how long behind an edge on which lines agree a tick has it
COUNTED = 6_000  # how long behind its edge the counter alone counts a second
LONGEST = 980_000  # what is known of an edge is forgotten if it is longer
AHEAD = 14_000  # how far ahead of a tick a frame may end
SEEN = 1_500_000  # how long behind its end a frame says what its line is
BETWEEN = 990_000  # from the first pulse of a frame to its last one
POOR_FROM = 7  # from this quality on a frame has no vote, unless the setup says otherwise
OFF = (0, 1, 1, 1, 1, 10, 100, 1_000)  # how far off a clock may be, by the quality that it says
MOST_DOUBT = 1_000  # as many seconds at most have to be voted behind a stray
RENEWED = 1_000  # so many seconds behind one anchor the next is set
OLDEST = 2_000  # so many seconds behind it an anchor is dropped


def since(earlier: int, later: int) -> int:
    """From one time to another by a counter that wraps."""
    return (later - earlier) % WRAP


def off(time: int, other: int) -> int:
    """How far a time lies behind another that is less than half a turn away; before it, below 0."""
    return (time - other + WRAP // 2) % WRAP - WRAP // 2


def lies_ahead(time: int, now: int) -> bool:
    """Whether a time is one that has not come: it lies less than half a turn ahead (docs/WIRES.md)."""
    return 0 < since(now, time) < WRAP // 2


def differ(word: Mark, other: Mark) -> bool:
    """Whether two words of a leap both speak, and not alike."""
    return Mark.UNSPOKEN not in (word, other) and word != other


def goes_against(table: Table | None, reader: State, is_locked: bool, vote: Claim | None) -> bool:
    """Whether another second follows by what frames said of a leap than by the table (docs/LINES.md)."""
    hold = reader.hold
    if vote is None and not is_locked:
        return False
    second, word = (vote.second, vote.mark) if vote else (hold.second, hold.heard)
    if word == Mark.UNSPOKEN and hold and hold.second == second:
        word = hold.heard
    known = table_mark(table, second.day)
    return differ(word, known) and second_after(second, word) != second_after(second, known)


@dataclass(frozen=True)
class Anchor:
    """A vote some seconds ago: how far behind the last told edge the true edge of that second lies, at least and at
    most."""

    seconds: int
    least: int
    most: int


@dataclass(frozen=True)
class Rate:
    """The mean of some seconds by the counter, in nanoseconds: at least, at most."""

    seconds: int
    least: int
    most: int


@dataclass(frozen=True)
class Frame:
    """A whole frame: what it says, when it ends, whether it lasts as long as a frame does, and how far from its end
    its edge may lie, if the line is true, but for the drift."""

    word: Told
    end: int
    is_even: bool
    half: int

    @property
    def first(self) -> int:
        """The first time at which its edge may lie."""
        return (self.end - self.half) % WRAP

    @property
    def last(self) -> int:
        return (self.end + self.half) % WRAP

    def agrees(self, other: "Frame") -> bool:
        """Whether the edge of another one of its claim may lie at this one's last time."""
        return other.word == self.word and off(other.first, self.last) <= 0 <= off(other.last, self.last)


@dataclass(frozen=True)
class Vote:
    """What lines agree on: a claim, the edge behind it, and how far that may lie from the true one."""

    claim: Claim
    edge: int
    bound: int


@dataclass
class Line:
    """Where a line stands in its frame, and the last whole frame that it keeps (docs/WIRES.md, From pulses
    to frames)."""

    rise: int = 0
    place: int = 0
    may_begin: bool = True  # whether a marker that comes next begins a frame, also if it is on time
    symbols: str = ""
    begin: int = 0
    frame: Frame | None = None
    seen: Frame | None = None  # the same frame, for longer
    is_heard: bool = False  # a pulse came within a second

    def place_of(self, rise: int, symbol: str) -> int:
        """The table of places, row by row."""
        is_on_time = 9_000 <= since(self.rise, rise) < 11_000
        if symbol == "P" and (self.may_begin or not is_on_time):
            return 1
        if is_on_time and self.place > 0:
            return self.place % 100 + 1
        return 0

    def hear(self, device: "Device", rise: int, width: int) -> int:
        """The place of a pulse; a frame's last one ends the frame."""
        symbol = symbol_of(width)
        self.place = self.place_of(rise, symbol)
        self.rise, self.may_begin, self.is_heard = rise, symbol == "P", True
        if self.place == 1:
            self.symbols, self.begin = "", rise
        if self.place > 0:
            self.symbols += symbol
        if self.place == 100:
            word, end = told(device.rules, self.symbols, device.poor_from), (rise + ELEMENT) % WRAP
            half = device.half(quality_of(self.symbols) if isinstance(word, Claim) else 0)
            self.frame = self.seen = Frame(word, end, device.is_even(self.begin, rise), half)
        return self.place

    def kept(self, now: int) -> Frame | None:
        """The last whole frame, up to 100 ms behind its end."""
        is_late = self.frame and not lies_ahead(self.frame.end, now) and since(self.frame.end, now) > KEPT
        return None if is_late else self.frame

    def settle(self, now: int) -> None:
        """What a tick does first: the line may be idle, and it keeps no late frame."""
        self.frame = self.kept(now)
        if self.seen and (since(self.seen.end, now) + AHEAD) % WRAP > SEEN + AHEAD:
            self.seen = None
        if not lies_ahead(self.rise, now) and since(self.rise, now) >= SECOND:
            self.place, self.may_begin, self.is_heard = 0, True, False


@dataclass(frozen=True)
class Announced:
    """A second that was announced, its told edge, and how far that may lie from the true one."""

    second: Second
    edge: int
    bound: int


@dataclass(frozen=True)
class Beat:
    """What a tick answers: the report, what the lines' frames said, the told edge and how far that may lie
    from the true one, the seconds that passed untold before it, how often the edge before was set right, and whether
    the vote says otherwise of a leap than the table."""

    report: Report
    told: list[Told]
    edge: int
    bound: int
    missed: int
    moved: int
    against_table: bool


@dataclass(frozen=True)
class Stamp:
    """The time of an event: a second, the microseconds since its edge, and the bound of their error."""

    second: Second
    offset: int
    bound: int


@dataclass
class Device:
    """What a timekeeper was made of, and where it stands."""

    rules: Rules
    reader_rules: ReaderRules
    table: Table | None
    redundancy: int
    within: int
    drift: int
    delays: tuple[int, ...]
    prefers_frames: bool = False
    poor_from: int = POOR_FROM
    lines: list[Line] = field(init=False)

    def __post_init__(self) -> None:
        self.restart()

    def restart(self) -> None:
        self.lines = [Line() for _ in range(self.redundancy)]
        self.reader, self.edge, self.voted, self.moved = IDLE, None, 0, 0  # `voted` is the bound of the last vote
        self.last, self.before = None, None  # what was announced at the last told edge, and at the one before
        self.known, self.strays = None, 0  # how far behind `edge` the true one lies by all votes: at least, at most
        self.doubt = 0  # the seconds that have to be voted yet before one is held again
        self.old, self.young = None, None  # anchors to measure from
        self.ended, self.ended_before = None, None  # the second that ended at the last told edge, and at the one before

    def corrected(self, line: int, rise: int) -> int:
        """When a pulse rose at its clock."""
        return (rise - self.delays[line]) % WRAP

    def hear(self, line: int, rise: int, width: int) -> int:
        """The place of a pulse in its frame."""
        return self.lines[line].hear(self, self.corrected(line, rise), width) if width < STUCK else 0

    def half(self, quality: int) -> int:
        """How far from its end the edge of a frame of that quality may lie: as far as a pulse from its place, and as
        far as the clock may be off by what it says."""
        return self.within - 1 + OFF[quality]

    def is_even(self, begin: int, rise: int) -> bool:
        """Whether a frame's first and last pulses are 990 ms apart, but for what they may be off."""
        return abs(since(begin, rise) - BETWEEN) <= 2 * (self.within - 1) + self.drift

    def agreed(self, now: int) -> Vote | None:
        """The edge on which lines agree. Where the edge of one frame may lie at last, so may those of f others of its
        claim; of such frames the one counts whose last time comes first. All of its claim have a part but those whose
        last times come too long before that. The true edge lies no later than the (f + 1)-th earliest of their last
        times, and no earlier than the (f + 1)-th latest of their first ones."""
        enough, kept = majority(self.redundancy), [line.kept(now) for line in self.lines]
        claims = [one for one in kept if one and one.is_even and isinstance(one.word, Claim)]
        agreeing = [one for one in claims if sum(one.agrees(other) for other in claims) >= enough]
        if not agreeing:
            return None
        first = min(agreeing, key=lambda one: off(one.last, agreeing[0].last))
        parts = [one for one in claims if one.word == first.word and off(one.last, first.last) >= -BEFORE]
        most = sorted(off(one.last, first.last) for one in parts)[enough - 1]
        least = sorted(off(one.first, first.last) for one in parts)[-enough]
        bound = (most - least + 1) // 2 + (self.drift > 0)
        return Vote(first.word, (first.last + (least + most) // 2) % WRAP, bound)

    def tick(self, now: int) -> Beat | None:
        """What is said of a second, if one has begun."""
        for line in self.lines:
            line.settle(now)
        told = [line.frame and line.frame.word for line in self.lines]
        agreed = self.agreed(now)
        if agreed is None or not 0 <= off(now, agreed.edge) <= SERVED:
            seconds = self.seconds_alone(now)
            uneven = sum(1 for line in self.lines if line.frame and not line.frame.is_even)
            if seconds and uneven >= majority(self.redundancy):
                self.stray()
            return self.count(seconds, None, told)
        for line in self.lines:
            line.frame = None
        self.voted = agreed.bound
        self.know(agreed)
        if seconds := self.seconds_to(agreed):
            return self.count(seconds, agreed, told)
        self.edge, self.moved = agreed.edge, self.moved + 1
        return None

    def seconds_to(self, vote: Vote) -> int:
        """How many seconds have come by the edge of a vote."""
        return 1 if self.edge is None else (since(self.edge, vote.edge) + SECOND // 2) % WRAP // SECOND

    def carry(self, seconds: int, shift: int) -> None:
        """What is known so many seconds later, of an edge so much further behind than by these seconds."""
        if self.known:
            drift, (least, most) = self.drift * seconds, self.known
            self.known = least - drift - shift, most + drift - shift
            if self.known[1] - self.known[0] > LONGEST:
                self.known = None
        self.old, self.young = (self.later(one, seconds, SECOND * seconds + shift) for one in (self.old, self.young))

    def later(self, anchor: Anchor | None, seconds: int, by: int) -> Anchor | None:
        """An anchor so many seconds later, as seen from an edge so much further on."""
        if anchor is None or self.known is None or anchor.seconds + seconds > OLDEST:
            return None
        return Anchor(anchor.seconds + seconds, anchor.least - by, anchor.most - by)

    def know(self, vote: Vote) -> None:
        """A vote cuts what is known, or contradicts it: then what it says is all that is known."""
        if self.edge is not None:
            seconds = self.seconds_to(vote)
            self.carry(seconds, off(vote.edge, self.edge + SECOND * seconds))
        least, most = self.known or (-vote.bound, vote.bound)
        self.known = max(least, -vote.bound), min(most, vote.bound)
        if self.known[0] > self.known[1]:
            self.known = -vote.bound, vote.bound
            self.stray()
        else:
            self.doubt = max(0, self.doubt - self.seconds_to(vote))
        if self.young is None or self.young.seconds >= RENEWED:
            self.old, self.young = self.young, Anchor(0, *self.known)

    def stray(self) -> None:
        self.old, self.young = None, None
        self.strays = (self.strays + 1) % WRAP
        self.doubt = max(1, min(self.reader_rules.holdover, MOST_DOUBT))

    def seconds_alone(self, now: int) -> int:
        """How many seconds have come by the counter alone."""
        if self.edge is None or lies_ahead(self.edge + COUNTED, now):
            return 0
        return since(self.edge + COUNTED, now) // SECOND

    def count(self, seconds: int, agreed: Vote | None, told: list[Told]) -> Beat | None:
        """The rule of the reader over the seconds that were missed, and one more."""
        if seconds == 0:
            return None
        if agreed is None:
            self.carry(seconds, 0)
        held = self.reader.hold and self.reader.hold.second
        for _ in range(seconds - 1):
            self.step(None)
        vote = agreed and agreed.claim
        report = self.step(vote)
        if vote is None and self.doubt:
            report = replace(report, second=None)
        edge = agreed.edge if agreed else (self.edge + SECOND * seconds) % WRAP
        against = vote is not None and differ(vote.mark, table_mark(self.table, vote.second.day))
        beat = Beat(report, told, edge, self.bound_of(report), seconds - 1, self.moved, against)
        self.ended_before = self.ended if seconds == 1 else None
        ended = vote.second if vote else held if report.second and seconds == 1 else None
        self.ended = ended and Announced(ended, edge, beat.bound)
        self.before = None if vote and report.second is None else self.last
        self.last = report.second and Announced(report.second, edge, beat.bound)
        self.edge, self.moved = edge, 0
        return beat

    def step(self, vote: Claim | None) -> Report:
        """The rule of the reader, but that the table guards the end of a month, unless frames are preferred."""
        is_locked = self.reader.votes == self.reader_rules.lock_after
        if not self.prefers_frames and goes_against(self.table, self.reader, is_locked, vote):
            self.reader, report = stopped(Cause.LEAP_GUARD)
        else:
            self.reader, report = after_tick(self.reader_rules, self.table, self.reader, vote)
        return report

    def rate(self) -> Rate | None:
        """How long seconds were by the counter, from the older anchor on."""
        anchor = self.old or self.young
        if anchor is None or anchor.seconds == 0 or self.known is None:
            return None
        least, most = max(0, self.known[0] - anchor.most), self.known[1] - anchor.least
        each = 1_000 * least // anchor.seconds, -(-1_000 * most // anchor.seconds)
        return Rate(anchor.seconds, *(min(one, WRAP - 1) for one in each))

    def bound_of(self, report: Report) -> int:
        """How far the edge of a second may lie off: as far as the last voted one, and by the drift of each second since
        then."""
        return self.voted + self.drift * (report.count if report.lock == Lock.HOLDOVER else 0)

    def state(self, line: int) -> str:
        """What a line is (docs/EXACTNESS.md)."""
        one = self.lines[line]
        if one.seen is None:
            return "Broken" if one.is_heard else "Silent"
        if isinstance(one.seen.word, Fault):
            return "Faulty"
        if isinstance(one.seen.word, Poor):
            return "Poor"
        return self.judged(one.seen) if one.seen.is_even else "Uneven"

    def judged(self, frame: Frame) -> str:
        """How a claim stands to the told edge at which its second ended."""
        if self.ended is None or off(frame.end, self.ended.edge) >= SECOND // 2:
            return "Unjudged"
        for told in (self.ended, self.ended_before):
            if told and told.second == frame.word.second:
                most = frame.half + (self.drift > 0) + told.bound
                return "Agreed" if abs(off(frame.end, told.edge)) <= most else "Apart"
        is_earlier = off(frame.end, self.ended.edge) <= -SECOND // 2
        return "Unjudged" if is_earlier and self.ended_before is None else "Differed"

    def wait(self, now: int) -> int:
        """How long until a tick has something to do, if no call comes before."""
        if agreed := self.agreed(now):
            return since(now, agreed.edge) if lies_ahead(agreed.edge, now) else 0
        if self.edge is None:
            return SECOND
        due = self.edge + SECOND + COUNTED
        return since(now, due) if lies_ahead(due, now) else 0

    def stamp(self, time: int) -> Stamp | None:
        """The time of an event, by the last told edge or the one before, if that second was announced. The one before
        serves up to the last one's edge, if there is no second between."""
        row = since(self.before.edge, self.last.edge) if self.last and self.before else 0
        for known, next_edge in ((self.last, 0), (self.before, row if row < SECOND + SECOND // 2 else 0)):
            if known and ((offset := since(known.edge, time)) <= SECOND + known.bound or offset < next_edge):
                return Stamp(known.second, offset, known.bound)
        return None
