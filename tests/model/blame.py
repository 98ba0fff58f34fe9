"""Who lied in a scenario, and what it cost: docs/OUTPUT.md, Who lied: irig blame."""

from collections.abc import Iterator
from dataclasses import dataclass, field

from .faults import Fault
from .frames import Poor, Told
from .reader import Cause, Report
from .scenario import Readers, Result, Run, port_word, result_of
from .station import Station
from .times import Claim, Second, Timeline, second_at, text_of_second, truth_at
from .voting import vote

DAY = 86_400
MEANINGS = {
    Cause.VOTED: "most ports told the second that had just ended",
    Cause.HELD: "there was no vote, and the reader counted on",
    Cause.ACQUIRING: "not yet enough votes in a row",
    Cause.NO_VOTE: "there was no vote, and nothing to count from",
    Cause.EXPIRED: "there was no vote for longer than the holdover",
    Cause.LEAP_GUARD: "a month ended, and nothing told if a leap second came, or the frames and the leap table contradicted one another",
    Cause.JUMP: "the vote was for another second than the one that followed",
    Cause.RANGE_END: "the next second would have been after 2099-12-30",
}
DID = {
    "silent": "was silent", "faulty": "was faulty", "poor": "was poor",
    "another second": "told another second", "another mark": "told another mark",
}  # fmt: skip
KINDS = ("agreed", *DID)
SILENCE, UNTRUE = "silence", "untrue"


@dataclass(frozen=True)
class Tick:
    """A tick of a reader, or a second that a device told, at its edge: the report, what the ports told, the true claim
    of the frame that ended there and the second that began; of a device how far behind the edge, and the bound."""

    edge: int
    report: Report
    told: list[Told]
    truth: Claim | None
    second: Second | None
    behind: int = 0
    bound: int = 0

    @property
    def is_untrue(self) -> bool:
        return self.report.second is not None and self.report.second != self.second

    def kind(self, port: int) -> str:
        """The kind of what a port told."""
        match self.told[port]:
            case None:
                return "silent"
            case Fault():
                return "faulty"
            case Poor():
                return "poor"
            case Claim() as claim:
                if self.truth is None or claim.second != self.truth.second:
                    return "another second"
                return "agreed" if claim == self.truth else "another mark"

    def state(self, track: int | str) -> object:
        """What is wrong on a track: the kind of a port, the cause of a silence, an untrue second; None if nothing."""
        if track == SILENCE:
            return self.report.cause if self.report.second is None else None
        if track == UNTRUE:
            return self.is_untrue or None
        return self.kind(track) if self.kind(track) != "agreed" else None

    def ahead(self, track: int | str) -> int | None:
        """By how many seconds what is told on a track is ahead of the truth, if both are known."""
        if track == UNTRUE:
            return seconds_ahead(self.second, self.report.second)
        word = self.told[track]
        return seconds_ahead(self.truth and self.truth.second, word.second if isinstance(word, Claim) else None)


@dataclass
class Observed:
    """A reader or device: its ticks so far, what is open on each track, its last vote, and that of its untrue ones."""

    name: str
    ticks: list[Tick] = field(default_factory=list)
    open: dict[int | str, list[Tick]] = field(default_factory=dict)
    vote: Tick | None = None
    basis: Tick | None = None


def seconds_ahead(true: Second | None, told: Second | None) -> int | None:
    """How many seconds, of which 23:59:60 has one more to a later day."""
    if true is None or told is None:
        return None
    first, last = min(true, told), max(true, told)
    size = (last.day - first.day) * DAY + last.of_day - first.of_day
    size += first.of_day == DAY and last.day > first.day
    return size if told > true else -size


def offset_text(ahead: int) -> str:
    size = abs(ahead)
    counts = {"d": size // DAY, "h": size // 3600 % 24, "min": size // 60 % 60, "s": size % 60}
    parts = [f"{count} {unit}" for unit, count in counts.items() if count]
    return " ".join([*parts, "behind" if ahead < 0 else "ahead"])


class Blame:
    """The lines of a run, by the names of recorded lines, none of a scenario that is no recording."""

    def __init__(self, played: Run, recorded: str):
        self.played, self.names = played, recorded.split(",")
        self.untrue_word = "unlike most lines" if recorded else "untrue"
        self.untrue_seconds = "seconds unlike most lines" if recorded else "untrue seconds"

    # ---- parts of lines

    def port(self, port: int) -> str:
        name = self.names[port] if port < len(self.names) else ""
        return name or f"port {port}"

    def when(self, ticks: list[Tick], track: int | str) -> str:
        first, last = ticks[0], ticks[-1]
        if track in (SILENCE, UNTRUE):
            seconds = [first.second, last.second]
        else:
            seconds = [tick.truth and tick.truth.second for tick in (first, last)]
        times = [text_of_second(second) for second in seconds if second is not None]
        one = first.edge == last.edge
        edges = f"edge {first.edge}" if one else f"edges {first.edge} to {last.edge}"
        when = (times[0] if one else " to ".join(times)) + ", " if len(times) == 2 else ""
        return f"{when}{edges}: "

    def offsets(self, ticks: list[Tick], track: int | str) -> str:
        aheads = [tick.ahead(track) for tick in ticks]
        if aheads[0] is None or aheads[-1] is None:
            return ""
        if len(set(aheads)) == 1:
            return f", {offset_text(aheads[0])}"
        return f", {offset_text(aheads[0])} at first, {offset_text(aheads[-1])} at last"

    def seconds(self, announced: int, untrue: int) -> str:
        if announced == 0:
            return "nothing"
        if announced == 1:
            return "1 second" + (f", {self.untrue_word}" if untrue else "")
        return f"{announced} seconds" + (f", {untrue} of them {self.untrue_word}" if untrue else "")

    def basis(self, tick: Tick | None) -> str:
        """The vote on which untrue seconds rest."""
        voted = vote(tick.told, len(tick.told)) if tick else None
        if tick is None:
            return ""
        if voted is None or voted == tick.truth:
            return ", held by its table"
        ports = [self.port(port) for port, word in enumerate(tick.told) if word == voted]
        return f", as {', '.join(ports)} told at edge {tick.edge}"

    # ---- lines

    def line(self, seen: Observed, track: int | str, ticks: list[Tick]) -> str:
        first, when = ticks[0], self.when(ticks, track)
        if track == SILENCE:
            cause = first.report.cause
            return f"{when}{seen.name} announced nothing: {cause.value}, {MEANINGS[cause]}"
        if track == UNTRUE:
            said = f"announced {self.untrue_seconds}{self.offsets(ticks, track)}{self.basis(seen.basis)}"
            return f"{when}{seen.name} {said}"
        kind = first.kind(track)
        offsets = self.offsets(ticks, track) if kind == "another second" else ""
        word = "" if kind == "silent" else f", first {first_word(first, track)}"
        untrue = sum(tick.is_untrue for tick in ticks) if kind.startswith("another") else 0
        announced = sum(tick.report.second is not None for tick in ticks)
        did = f"{self.port(track)} of {seen.name} {DID[kind]}{offsets}{word}"
        return f"{when}{did}; {seen.name} announced {self.seconds(announced, untrue)}"

    def ended(self, seen: Observed, tick: Tick) -> Iterator[str]:
        """The lines of what a tick ends."""
        seen.ticks.append(tick)
        if tick.report.cause == Cause.VOTED:
            seen.vote = tick
        for track in (*range(len(tick.told)), SILENCE, UNTRUE):
            state, run = tick.state(track), seen.open.get(track, [])
            if run and run[0].state(track) != state:
                yield self.line(seen, track, run)
                run = []
            if track == UNTRUE and state and not run:
                seen.basis = seen.vote
            seen.open[track] = [*run, tick] if state else []

    def totals(self, seen: Observed, ports: int) -> Iterator[str]:
        ticks = seen.ticks
        announced = [tick for tick in ticks if tick.report.second is not None]
        untrue, silent = sum(tick.is_untrue for tick in ticks), len(ticks) - len(announced)
        yield (
            f"{seen.name}: {len(ticks)} edges, {len(announced)} announced, {untrue} {self.untrue_word}, {silent} silent"
        )
        if announced and isinstance(self.played.plant, Station):
            offs, bounds = [tick.behind for tick in announced], [tick.bound for tick in announced]
            yield f"edges of {seen.name}: {min(offs):+d} to {max(offs):+d} us off, bound at most {max(bounds)} us"
        for port in range(ports):
            kinds = [tick.kind(port) for tick in ticks]
            counts = ", ".join(f"{kinds.count(kind)} {kind}" for kind in KINDS)
            yield f"{self.port(port)} of {seen.name}: {counts}"

    def lines(self) -> Iterator[str]:
        plant = self.played.plant
        if plant is not None:
            names, ports = names_of(plant)
            seen = {name: Observed(name) for name in names}
            for name, tick in ticks_of(plant):
                yield from self.ended(seen[name], tick)
            for one in seen.values():
                for track in (*range(ports), SILENCE, UNTRUE):
                    if one.open.get(track):
                        yield self.line(one, track, one.open[track])
            for one in seen.values():
                yield from self.totals(one, ports)
        yield self.played.last


def first_word(tick: Tick, port: int) -> str:
    """The word of a port, as a log has it, also where no claim would be true."""
    told = tick.told[port]
    if tick.truth is None and isinstance(told, Claim):
        return text_of_second(told.second)
    return port_word(told, tick.truth)


def names_of(plant: Readers | Station) -> tuple[list[str], int]:
    """The names of readers or devices, and how many ports or lines each has."""
    if isinstance(plant, Station):
        return list(plant.devices), len(plant.plan.generators)
    return list(plant.world.readers), len(plant.world.plant.generators)


def at_edge(timeline: Timeline, edge: int) -> tuple[Claim | None, Second | None]:
    """The true claim of the frame that ended at an edge, and the second that began there."""
    return (truth_at(timeline, edge - 1), second_at(timeline, edge)) if edge else (None, None)


def ticks_of(plant: Readers | Station) -> Iterator[tuple[str, Tick]]:
    """The ticks of a run, in order, each with the name of its reader or device."""
    if isinstance(plant, Station):
        for name, told in plant.told_seconds:
            truth, second = at_edge(plant.plan.timeline, told.edge)
            yield name, Tick(told.edge, told.beat.report, told.beat.told, truth, second, told.behind, told.beat.bound)
    else:
        for entry in plant.ticked:
            truth, second = at_edge(plant.world.plant.timeline, entry.n)
            yield entry.name, Tick(entry.n, entry.report, entry.told, truth, second)


def blame(played: Run, recorded: str = "") -> Result:
    """What is said of a scenario, or of a recording of these lines, with a comma between their names."""
    return result_of(played, Blame(played, recorded).lines())
