"""The reader's rule and its hold: docs/READER.md, The rule, and The hold."""

from dataclasses import dataclass, replace
from enum import Enum

from .times import LAST_DAY, Claim, Mark, Second, Table, second_after, table_mark, text_of_second

# docs/OUTPUT.md, LOCK and CAUSE.
LOCKS = ["unlocked", "acquiring", "locked", "holdover"]
CAUSES = ["voted", "held", "acquiring", "no-vote", "expired", "leap-guard", "jump", "range-end"]
Lock = Enum("Lock", {word.upper(): word for word in LOCKS})
Cause = Enum("Cause", {word.upper().replace("-", "_"): word for word in CAUSES})


@dataclass(frozen=True)
class ReaderRules:
    """A reader's own rules (docs/READER.md, The rule)."""

    lock_after: int
    holdover: int


@dataclass(frozen=True)
class Hold:
    """The second it has come to, the seconds alone, what it heard of that day's leap."""

    second: Second
    alone: int
    heard: Mark


@dataclass(frozen=True)
class State:
    """Idle without a hold, locked with `lock_after` votes, else acquiring."""

    hold: Hold | None = None
    votes: int = 0


@dataclass(frozen=True)
class Report:
    """What a reader says at an edge (docs/OUTPUT.md, TIME, LOCK and CAUSE)."""

    second: Second | None
    lock: Lock
    cause: Cause
    count: int | None = None  # N of acquiring and holdover


def said_of(report: Report) -> str:
    """TIME, LOCK and CAUSE (docs/OUTPUT.md, The log of a scenario)."""
    time = "-" if report.second is None else text_of_second(report.second)
    lock = report.lock.value if report.count is None else f"{report.lock.value}:{report.count}"
    return f"{time} {lock} {report.cause.value}"


IDLE = State()


def onward(hold: Hold, table: Table | None, alone: int) -> Hold | Cause:
    """The hold a second on, or why it stops (docs/READER.md, The hold, "Going on")."""
    day = hold.second.day
    spoken = table_mark(table, day) if hold.heard == Mark.UNSPOKEN else hold.heard
    second = second_after(hold.second, spoken)
    if second is None:
        return Cause.RANGE_END if day == LAST_DAY else Cause.LEAP_GUARD
    return Hold(second, alone, hold.heard if second.day == day else Mark.UNSPOKEN)


def started(claim: Claim, table: Table | None) -> Hold | Cause:
    """The step "start, with a claim" (docs/READER.md, The hold)."""
    return onward(Hold(claim.second, 0, claim.mark), table, 0)


def voted(hold: Hold, claim: Claim, table: Table | None) -> Hold | Cause:
    """The step "voted, with a claim" (docs/READER.md, The hold)."""
    if claim.second != hold.second:
        return Cause.JUMP
    heard = hold.heard if claim.mark == Mark.UNSPOKEN else claim.mark
    return onward(replace(hold, heard=heard), table, 0)


def stopped(cause: Cause) -> tuple[State, Report]:
    """A stop says nothing, and the reader is idle (docs/READER.md, The rule)."""
    return IDLE, Report(None, Lock.UNLOCKED, cause)


def counted(rules: ReaderRules, hold: Hold | Cause, votes: int) -> tuple[State, Report]:
    """The paragraph "Counted", or a stop (docs/READER.md, The rule)."""
    if isinstance(hold, Cause):
        return stopped(hold)
    if votes == rules.lock_after:
        return State(hold, votes), Report(hold.second, Lock.LOCKED, Cause.VOTED)
    return State(hold, votes), Report(None, Lock.ACQUIRING, Cause.ACQUIRING, votes)


def after_tick(
    rules: ReaderRules, table: Table | None, state: State, vote: Claim | None
) -> tuple[State, Report]:
    """The next state and the report (docs/READER.md, The rule, its table)."""
    is_locked = state.votes == rules.lock_after
    if vote is not None:
        hold = voted(state.hold, vote, table) if state.hold else Cause.JUMP
        if hold == Cause.JUMP and not is_locked:
            return counted(rules, started(vote, table), 1)
        return counted(rules, hold, state.votes if is_locked else state.votes + 1)
    if not is_locked:
        return stopped(Cause.NO_VOTE)
    if state.hold.alone == rules.holdover:
        return stopped(Cause.EXPIRED)
    hold = onward(state.hold, table, state.hold.alone + 1)
    if isinstance(hold, Cause):
        return stopped(hold)
    return replace(state, hold=hold), Report(hold.second, Lock.HOLDOVER, Cause.HELD, hold.alone)
