"""The words of scenarios and logs. Each stands at the place of the number by which C knows it."""
from __future__ import annotations

from typing import Any, Literal, Sequence, Tuple, get_args

from .faults import VALUE, Fault

# words, made
Parity = Literal["even", "odd"]
Sense = Literal["add", "subtract"]
Sbs = Literal["check", "ignore"]
Kind = Literal["insert", "delete"]
Mark = Literal["unspoken", "no-leap", "insert", "delete"]
Lock = Literal["unlocked", "acquiring", "locked", "holdover"]
Cause = Literal["voted", "held", "acquiring", "no-vote", "expired", "leap-guard", "jump", "range-end"]
LineState = Literal["silent", "broken", "faulty", "uneven", "poor", "unjudged", "agreed", "apart", "differed"]
# words, end
PortKind = Literal["agreed", "silent", "faulty", "poor", "another second", "another mark"]

MARKS: Tuple[Mark, ...] = get_args(Mark)
LOCKS: Tuple[Lock, ...] = get_args(Lock)
CAUSES: Tuple[Cause, ...] = get_args(Cause)
LINE_STATES: Tuple[LineState, ...] = get_args(LineState)


def lock_text(lock: Lock, count: int) -> str:
    """A lock with how long it has been so, if it counts that."""
    return f"{lock}:{count}" if count else lock


def listed(words: Sequence[str]) -> str:
    """The words as a message lists them: `a, b or c`."""
    return " or ".join(filter(None, (", ".join(words[:-1]), words[-1])))


def number_of(word: str, words: Any, what: str) -> int:
    """The number of a word, where `words` is the type that has it."""
    known: Sequence[str] = get_args(words)
    if word not in known:
        raise Fault(VALUE, reason=f"{what} is {word!r}; {listed(known)} may stand here")
    return known.index(word)
