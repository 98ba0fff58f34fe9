"""Who lied, and what it cost, as the library finds it: stretches of edges at which a port told no truth,
silences of readers and their untrue seconds."""
from __future__ import annotations

from dataclasses import dataclass
from typing import Dict, List, Literal, Optional, Sequence, Tuple, Union, get_args

from . import _library as c
from .faults import detail_of, words_of
from .logs import UNTRUE, Said
from .scenarios import names_in
from .scenes import played
from .seconds import DAY, Second
from .words import CAUSES, MARKS, Cause, PortKind

ReaderKind = Literal["announced nothing", "announced untrue seconds"]
StretchKind = Union[PortKind, ReaderKind]

# By the numbers of C, of which the first is 1.
KINDS: Tuple[StretchKind, ...] = (*get_args(PortKind)[1:], *get_args(ReaderKind))

DID: Dict[str, str] = {
    "silent": "was silent",
    "faulty": "was faulty",
    "poor": "was poor",
    "another second": "told another second",
    "another mark": "told another mark",
}

# What a cause means, as `irig blame` has it.
MEANINGS: Dict[Cause, str] = {
    "voted": "most ports told the second that had just ended",
    "held": "there was no vote, and the reader counted on",
    "acquiring": "not yet enough votes in a row",
    "no-vote": "there was no vote, and nothing to count from",
    "expired": "there was no vote for longer than the holdover",
    "leap-guard": "a month ended, and nothing told if a leap second came, or the frames and the leap table "
    "contradicted one another",
    "jump": "the vote was for another second than the one that followed",
    "range-end": "the next second would have been after 2099-12-30",
}


def offset_text(ahead: int) -> str:
    """So many seconds ahead of the truth, or behind it if below 0, as `1 h 30 min behind`."""
    size = abs(ahead)
    counts = {"d": size // DAY, "h": size // 3600 % 24, "min": size // 60 % 60, "s": size % 60}
    parts = [f"{count} {unit}" for unit, count in counts.items() if count]
    return " ".join([*parts, "behind" if ahead < 0 else "ahead"])


@dataclass(frozen=True, repr=False)
class Stretch(Said):
    """A longest run of ticks of a reader at which one of its ports told no truth in one way, or at
    which it announced nothing for one cause, or untrue seconds. As a text it is a line of
    `irig blame`.

    reader: its name
    port: the port; None of a silence and of untrue seconds of the reader
    kind: how the port told no truth: "silent", "faulty", "poor", "another second" or "another
        mark"; of the reader "announced nothing" or "announced untrue seconds"
    first, last: its edges
    announced: at how many of them the reader announced a second; of its own untrue seconds how many edges they span,
        of which a device may have told fewer
    untrue: how many of those seconds are not true
    word: what the port told at the first edge, as a log has it; None of the reader
    cause: why the reader was silent; None if it was not
    since, until: the true seconds of its first and its last edge: of a port those of the frames
        that ended there, of the reader those that began; None beyond the years served
    ahead: by how many seconds the port's second, or the reader's, was ahead of the true one, below
        0 if behind; None if that was not the same at all edges, or is not known
    ahead_first, ahead_last: the same at the first and at the last edge
    vote: the edge of the vote on which untrue seconds of the reader stand; None of all others
    ports: the ports that told what was voted then; none if that was the truth
    """

    reader: str
    port: Optional[int]
    kind: StretchKind
    first: int
    last: int
    announced: int
    untrue: int
    word: Optional[str] = None
    cause: Optional[Cause] = None
    since: Optional[Second] = None
    until: Optional[Second] = None
    ahead: Optional[int] = None
    ahead_first: Optional[int] = None
    ahead_last: Optional[int] = None
    vote: Optional[int] = None
    ports: Tuple[int, ...] = ()

    @property
    def edges(self) -> int:
        """How many edges it has."""
        return self.last - self.first + 1

    @property
    def offset(self) -> str:
        """How far ahead or behind, as `1 h ahead`; nothing if it is not known."""
        if self.ahead is not None:
            return offset_text(self.ahead)
        if self.ahead_first is None or self.ahead_last is None:
            return ""
        return f"{offset_text(self.ahead_first)} at first, {offset_text(self.ahead_last)} at last"

    def __str__(self) -> str:
        offset = self.offset and f", {self.offset}"
        if self.port is None:
            return f"{self._when()}: {self.reader} {self.kind}{offset}{self._why()}"
        word = "" if self.kind == "silent" else f", first {self.word}"
        did = f"port {self.port} of {self.reader} {DID[self.kind]}{offset}{word}"
        return f"{self._when()}: {did}; {self.reader} announced {self._announced()}"

    def _when(self) -> str:
        one = self.edges == 1
        edges = f"edge {self.first}" if one else f"edges {self.first} to {self.last}"
        times = f"{self.since}, " if one else f"{self.since} to {self.until}, "
        return f"{times}{edges}" if self.since and self.until else edges

    def _why(self) -> str:
        if self.ports:
            carriers = ", ".join(f"port {port}" for port in self.ports)
            return f", as {carriers} told at edge {self.vote}"
        if self.vote is not None:
            return ", held by its table"
        return f": {self.cause}, {MEANINGS[self.cause]}" if self.cause else ""

    def _announced(self) -> str:
        if not self.announced:
            return "nothing"
        untrue = self.untrue if self.kind in UNTRUE else 0
        if self.announced == 1:
            return f"1 second{', untrue' if untrue else ''}"
        more = f", {untrue} of them untrue" if untrue else ""
        return f"{self.announced} seconds{more}"


def stretches_of(scenario: bytes) -> List[Stretch]:
    """The stretches of a scenario, each at the edge that ends it, and at the end those that are open: what
    `irig blame` has a line of. Raises MemoryError if memory is out."""
    names = names_in(scenario)
    return [_stretch(held, names) for held in played(c.run_stretches, c.Stretch, scenario).found]


def _stretch(held: c.Stretch, names: Sequence[str]) -> Stretch:
    """A stretch by its numbers."""
    kind, edges = KINDS[held.kind - 1], held.last_edge - held.first_edge + 1
    is_silence, is_own = kind == "announced nothing", kind in get_args(ReaderKind)
    own = 0 if is_silence else edges
    first, last = _ahead(held.first_offset), _ahead(held.last_offset)
    carriers = (port for port, told in enumerate(held.carriers) if told and not held.vote_is_true)
    return Stretch(
        names[held.reader], None if is_own else held.port, kind, held.first_edge, held.last_edge,
        own if is_own else held.announced, own if is_own else held.untrue,
        None if is_own else _word(kind, held.told), CAUSES[held.cause] if is_silence else None,
        _second(held.first_second), _second(held.last_second), first if held.is_steady else None, first, last, held.vote_edge or None, tuple(carriers),
    )


def _second(utc: c.Utc) -> Optional[Second]:
    """A true second; on day 0 there is none that is served."""
    return Second(utc.day, utc.sod) if utc.day else None


def _ahead(offset: c.Offset) -> Optional[int]:
    return offset.ahead - offset.behind or None


def _word(kind: StretchKind, told: c.Told) -> str:
    """What a port told, as a log has it."""
    if kind == "faulty":
        return f"fault:{words_of(*detail_of(told.fault)).replace(' ', ':')}"
    if kind == "poor":
        return f"poor:{told.quality}"
    if kind == "another mark":
        return str(MARKS[told.claim.mark])
    return "silence" if kind == "silent" else str(Second(told.claim.at.day, told.claim.at.sod))
