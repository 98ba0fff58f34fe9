"""Timekeepers: devices that keep time by lines and by a counter of their own."""
from __future__ import annotations

from dataclasses import dataclass
from typing import Iterable, Literal, Optional, Sequence, Tuple

from . import _library as c
from .faults import check, whole, within
from .frames import MOST
from .readers import Report, Ruled, Told, changed, report_held, setup_of, table_of, told_held
from .seconds import Day, Leap, Second
from .words import LINE_STATES, LineState, Parity, Sbs, Sense


@dataclass(frozen=True)
class Beat:
    """What a tick says of a second that begins. As a text it is its report.

    report: what is said of the second, with what the last whole frame of each line told
    edge_us: where it begins, by the counter; never ahead of the tick
    bound_us: how far from its true edge that may lie, if the second is announced
    missed: the seconds that passed untold before it, as no tick came
    moved: how often lines set the edge right since the second that was told before
    strays: how many votes contradicted those before them since the timekeeper was made or restarted
    doubt: how many seconds have to be voted yet before one is announced again without a vote
    against_table: whether the vote and the leap table contradict one another on a leap second; False
        without a vote
    lines: what each line is. An "uneven" line is "faulty" here
    """

    report: Report
    edge_us: int
    bound_us: int
    missed: int
    moved: int
    strays: int
    doubt: int
    against_table: bool
    lines: Tuple[LineState, ...]

    def __str__(self) -> str:
        return str(self.report)


@dataclass(frozen=True)
class Line:
    """What a line is, as of the last tick.

    state: "silent", no pulse came within a second; "broken", pulses come, but no whole frame came within
        1.5 s; by its last whole frame "faulty", "uneven", if its first and last pulse did not rise 990 ms
        apart, or "poor"; "unjudged", it claims a second, and none is told yet to compare it with;
        "agreed", it claims the second that ended at the told edge, and ends there; "apart", it ends
        further from that edge than a true line's frame of its time quality; "differed", it claims
        another second
    told: what its last whole frame tells
    end_us: where that frame ends, or 0
    off_us: how far that lies behind the told edge at which its second ended, below 0 before it; as long
        as no edge was told, behind the end of the first other line's frame of that second; 0 if there
        is neither, as between a frame's last pulse and the tick at its edge
    """

    state: LineState
    told: Told
    end_us: int
    off_us: int


@dataclass(frozen=True)
class Rate:
    """How long seconds were by the timekeeper's counter: 1,000,000,000 ns by a perfect one.

    seconds: of how many seconds it is the mean, 1 to 2,000, up to the one that was counted last
    least_ns: what that mean is at least, in nanoseconds of the counter
    most_ns: what it is at most
    """

    seconds: int
    least_ns: int
    most_ns: int


@dataclass(frozen=True)
class Pace:
    """How long the next seconds are by the timekeeper's counter, as votes have taught it.

    second_ns: in nanoseconds of the counter, 999,900,000 to 1,000,100,000
    within_ns: how much shorter or longer each one may be
    """

    second_ns: int
    within_ns: int


@dataclass(frozen=True)
class Stamp:
    """The time of an event.

    second: a UTC second
    offset_us: how long before the event it began, by the counter; with the error of that edge it may reach
        1,000,000 and bound_us more, when the next second had begun
    bound_us: how far from the true instant the two may lie
    """

    second: Second
    offset_us: int
    bound_us: int


def quality_of(bound_us: int) -> int:
    """The time quality that a device may send on of what lies off by so many microseconds at most, the
    `bound_us` of an announced second or of a stamp: 4 of 1, 5 of 10, 6 of 100, 7 of 1,000, 8 of
    10,000, 9 of 100,000, 10 of 1,000,000, and 15 of more."""
    return int(c.quality_of(within("bound_us", bound_us, 0, MOST)))


def _time(what: str, time_us: int) -> int:
    """A time as the counter has it: the lowest 32 bits count."""
    return whole(what, time_us) & MOST


def _states_in(masks: c.Masks, count: int) -> Tuple[LineState, ...]:
    """What lines are, of which each stands in one mask."""
    names = [state for state in LINE_STATES if state != "uneven"]
    return tuple(
        next(name for name in names if getattr(masks, name) >> line & 1) for line in range(count)
    )


def _tick(held: c.Timekeeper, now_us: int) -> c.Second:
    """What a timekeeper says of a second, if one has begun."""
    second = c.Second()
    if c.timekeeper_tick(held, now_us, second):
        raise changed("timekeeper")
    return second


class Timekeeper(Ruled):
    """A device that hears lines by its own free-running counter of microseconds, and says which UTC
    second begins at which count (docs/WIRES.md). Of each time that it is told the lowest 32 bits
    count, and each that it tells is below 2^32. Each line's pulses are told in order, and `tick` is
    called in order of time, at least once in 29 minutes. After sleep, or if the counter stood still
    or was set: `restart`.

    Whatever came before, a second that it announces with the cause "voted" is the true one, and its
    true edge lies at most `bound_us` from `edge_us`, if no two of its three lines (three of five;
    not the one) were untrue in the last 1.2 s. One with the cause "held" is true if that was so at
    each tick, the counter is as steady as `drift_us` and, if that is above 0, `wander_ppb` say, and the
    leap table is right or `holdover` at most 57. By clocks that say time quality 0 the `bound_us` of a vote is `within_us` if all lines
    claim the second, or enough of them end together, and less than twice that else: by 450 it is 450
    to 899 us, by 10 it is 10 to 19; 1 less if `drift_us` is 0. For each second since the last vote it
    is `drift_us` more, or less once its counter is learned.

    A frame may end further off by what its clock says of itself: 1 us by quality 1 to 4, 10 by 5, 100
    by 6 and 1,000 by 7. That is in the bound. If all clocks say 5, a vote's bound is 20 to 39 us by a
    `within_us` of 10. It is never above 1,099 us, or 2,899 us if `poor_from` is 8
    (docs/EXACTNESS.md).

    Votes contradict one another if they differ from whole seconds by more than the sum of their
    bounds and the drift of the seconds between. `strays` counts those that contradict the ones before
    them, and stays 0 if at each tick no two of its three lines were untrue and the counter is as
    steady as `drift_us` and, if that is above 0, `wander_ppb` say. A device whose `strays` rise should be looked at: its lines, their
    delays, or its counter are not what it was told. Then no second is announced without a vote, until
    as many were voted as `holdover` says, 1,000 at most.

    within_us: how exact lines are that are true: each of their pulses rises less than so many
        microseconds from its place, by the counter, 1 to 450. Enough lines have to end within
        2 * (within_us - 1) for a vote, or further apart by what their clocks say of themselves
    drift_us: the most by which its counter is wrong, in microseconds a second, 0 to 100; then
        (holdover + 2) * drift_us may be 490,000 at most, if wander_ppb is 0
    wander_ppb: how many nanoseconds the length of one second by its oscillator, before the counter cuts
        it to microseconds, may differ from that of any other one that lies no more than the holdover
        and 4,000 seconds from it, 0 to 100,000 (docs/COUNTER.md). By 0 it learns nothing of its
        counter, and holds over by drift_us alone. Else any holdover may be asked for, and ends by
        itself before a second could lie 490 ms further off than at its last vote
    delay_us: how many microseconds later than at its clock each line's pulses rise here, -4,000 to
        4,000, below 0 if it is early: this is taken off
    prefers_frames: whether it follows the frames where they contradict its leap table on a leap second.
        Else it is silent at the second where the two part, and locks anew
    poor_from: the time quality from which a frame has no vote, 1 to 8. By 7 a clock has none that says
        of itself that it may be 1 ms off, and by 8 one that may be 10 ms off. It limits bounds: set it
        as low as the clocks allow

    What else it takes is what a `Reader` takes, and a port is a line.
    """

    _what, _form, _kind = "timekeeper", f"irig timekeeper {c.LAYOUT}", c.Timekeeper

    def __init__(
        self,
        lock_after: int = 2,
        holdover: int = 3600,
        *,
        drift_us: int,
        within_us: int = 450,
        wander_ppb: int = 0,
        delay_us: Sequence[int] = (),
        prefers_frames: bool = False,
        ports: Literal[1, 3, 5] = 3,
        parity: Parity = "even",
        sense: Sense = "add",
        sbs: Sbs = "check",
        until: Optional[Day] = None,
        leaps: Iterable[Leap] = (),
        not_before: Optional[Day] = None,
        poor_from: int = 7,
    ) -> None:
        poor = within("poor_from", poor_from, 1, 8)
        setup = setup_of(
            lock_after, holdover, ports, parity, sense, sbs, not_before, poor
        )
        exact, drift = within("within_us", within_us, 1, 450), within("drift_us", drift_us, 0, 100)
        wander = within("wander_ppb", wander_ppb, 0, 100_000)
        delays = [within("delay_us", delay, -4000, 4000) for delay in delay_us]
        within("how many of delay_us", len(delays), 0, ports)
        wires = c.Wires(exact, drift, c.Delays(*delays), bool(prefers_frames), wander)
        self._held = c.Timekeeper()
        check(c.timekeeper_init(self._held, setup, table_of(until, leaps), wires))

    def hear(self, line: int, rise_us: int, width_us: int) -> int:
        """A pulse on a line, 0 to 2 of three, 0 to 4 of five, 0 of one, once it has ended, and
        before any tick of half a second or more after it rose: when it rose and how wide it is. It
        answers the pulse's place in its frame, 1 to 100, or 0 out of step. A pulse of half a second
        or more is none: the line is stuck, and nothing changes. Behind a place of 100 there may be
        less to wait."""
        number = within("line", line, 0, self.ports - 1)
        width = within("width_us", width_us, 0, MOST)
        return int(c.timekeeper_hear(self._held, number, _time("rise_us", rise_us), width))

    def tick(self, now_us: int) -> Optional[Beat]:
        """Says which second begins, if one has begun since the last call; else None. It may come at
        any time. `now_us` is the time up to which pulses were told, and no other: of pulses in
        a queue the end of the next one, before it is told. A timekeeper whose numbers something
        else has changed is refused, at this tick and at each later one."""
        held = _tick(self._held, _time("now_us", now_us))
        if not held.is_told:
            return None
        report = report_held(held.report)
        states = _states_in(held.lines, self.ports)
        return Beat(
            report, held.edge_us, held.bound_us, held.missed, held.moved, held.strays, held.doubt,
            bool(held.against_table), states,
        )

    def line(self, line: int) -> Line:
        """What a line is, as of the last tick, from the first pulse on and whether seconds are told or
        not. What a tick would refuse is refused."""
        held, number = c.LineSaid(), within("line", line, 0, self.ports - 1)
        if c.timekeeper_line(self._held, number, held):
            self._refuse(c.Timekeeper.from_buffer_copy(self._held))
        return Line(LINE_STATES[held.state], told_held(held.told), held.end_us, held.off_us)

    def wait(self, now_us: int) -> int:
        """How long until a tick has something to do, in microseconds, if no call comes before it.
        0, if one at once has, and if it would be refused."""
        return int(c.timekeeper_wait(self._held, _time("now_us", now_us)))

    def stamp(self, time_us: int) -> Optional[Stamp]:
        """The time of an event: by the second that was told last, if it lies behind that one's
        edge, else by the one before. None if these were not announced, or if it lies behind them by
        more than a second and the error of the edge. What a tick would refuse is refused."""
        held = c.Stamp()
        if c.timekeeper_stamp(self._held, _time("time_us", time_us), held):
            self._refuse(c.Timekeeper.from_buffer_copy(self._held))
            return None
        return Stamp(Second(held.day, held.sod), held.offset_us, held.bound_us)

    def rate(self) -> Optional[Rate]:
        """How long the last seconds were by the counter, 2,000 of them at most. None until a second was
        counted behind the first vote, or behind one that contradicts those before it; while no interval
        is known; and once votes lie too far back, 2,000 s at most. What a tick would refuse is
        refused."""
        held = c.Rate()
        if c.timekeeper_rate(self._held, held):
            self._refuse(c.Timekeeper.from_buffer_copy(self._held))
            return None
        return Rate(held.seconds, held.least_ns, held.most_ns)

    def pace(self) -> Optional[Pace]:
        """What it has learned of its counter, by which it holds over. None if it goes by `drift_us`
        alone. What a tick would refuse is refused."""
        self._refuse(c.Timekeeper.from_buffer_copy(self._held))
        held = self._held.pace
        return Pace(held.second_ns, held.within_ns) if held.second_ns else None

    def restart(self) -> None:
        """Forgets all that was heard and counted. A timekeeper that a tick refuses stays so."""
        c.timekeeper_restart(self._held)

    @property
    def drift_us(self) -> int:
        """The most by which its counter is wrong, in microseconds a second."""
        return int(self._held.wires.drift_us)

    @property
    def within_us(self) -> int:
        """How exact its lines are: pulses rise less than so many microseconds from their places."""
        return int(self._held.wires.within_us)

    @property
    def wander_ppb(self) -> int:
        """How much the length of a second by its counter may change, in nanoseconds: 0 if it learns
        nothing of it."""
        return int(self._held.wires.wander_ppb)

    @property
    def delay_us(self) -> Tuple[int, ...]:
        """How late each line is."""
        return tuple(self._held.wires.delay_us[: self.ports])

    @property
    def prefers_frames(self) -> bool:
        """Whether it follows frames against its leap table."""
        return bool(self._held.wires.prefers_frames)

    @property
    def strays(self) -> int:
        """How many votes contradicted those before them."""
        return int(self._held.strays)

    def _refuse(self, held: c.Timekeeper) -> None:
        _tick(held, 0)

    def __repr__(self) -> str:
        return (
            f"Timekeeper(lock_after={self.lock_after}, holdover={self.holdover}, "
            f"drift_us={self.drift_us}, within_us={self.within_us}, wander_ppb={self.wander_ppb}, "
            f"prefers_frames={self.prefers_frames}, ports={self.ports})"
        )
