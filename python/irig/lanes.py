"""What a picture of a run shows, as the library finds it: edges at which a reader stood alike, or one of its ports
told alike, and where leap seconds and months begin."""
from __future__ import annotations

from dataclasses import dataclass
from typing import Dict, List, Literal, Optional, Sequence, Tuple, Union, get_args

from . import _library as c
from .scenarios import names_in
from .scenes import played
from .words import CAUSES, LOCKS, Cause, Lock, PortKind

LaneKind = Literal["stood", "told", "mark"]
MarkKind = Literal["leap second", "deleted second", "month end"]
LaneState = Union[Lock, PortKind, MarkKind]

# By the numbers of C: of kinds and marks the first is 1, of locks and ports 0.
KINDS: Tuple[LaneKind, ...] = get_args(LaneKind)
STATES: Dict[LaneKind, Sequence[LaneState]] = {"stood": LOCKS, "told": get_args(PortKind), "mark": get_args(MarkKind)}


@dataclass(frozen=True)
class Lane:
    """A longest run of ticks of a reader at which it stood alike, or one of its ports told alike; or a mark, of
    one tick. Of a plant of devices a device is the reader, its lines are the ports, and its ticks are the seconds
    that it told, each at the true edge to which it lies nearest: an edge that it did not tell may lie between the
    first and the last, and behind a restart an edge may come again.

    reader: its name
    port: the port; None of what is the reader's own
    kind: "stood", "told" or "mark"
    first, last: its edges
    state: of a reader its lock, as "locked"; of a port what it told, as `PortWord.kind` has it; of a mark "leap
        second" if 23:59:60 begins there, "month end" if a month does, and "deleted second" if a month does
        whose last second, 23:59:59, was left out. Marks are by the scenario, whatever was announced
    cause: why the reader stood so; None of ports and marks
    """

    reader: str
    port: Optional[int]
    kind: LaneKind
    first: int
    last: int
    state: LaneState
    cause: Optional[Cause]


def lanes_of(scenario: bytes) -> List[Lane]:
    """The lanes of a scenario, each at the edge that ends it, and at the end those that are open. Raises
    MemoryError if memory is out."""
    names = names_in(scenario)
    return [_lane(held, names[held.reader]) for held in played(c.run_lanes, c.Lane, scenario).found]


def _lane(held: c.Lane, reader: str) -> Lane:
    """A lane by its numbers."""
    kind = KINDS[held.kind - 1]
    state = STATES[kind][held.state - (kind == "mark")]
    port, cause = held.port if kind == "told" else None, CAUSES[held.cause] if kind == "stood" else None
    return Lane(reader, port, kind, held.first_edge, held.last_edge, state, cause)
