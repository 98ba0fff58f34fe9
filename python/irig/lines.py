"""Lines: which element of a frame a pulse is, by when it rose and how wide it is."""
from __future__ import annotations

import ctypes
from typing import Any, Tuple

from . import _library as c
from .faults import Fault, VALUE, whole, within
from .frames import MOST

class Held:
    """What is its numbers and no more: it can be copied and pickled, and goes on from there. A copy is
    equal to it, until one of them hears something."""

    _what: str  # as messages call it
    _form: str  # what its state begins with: another form of its numbers is another word
    _kind: Any
    _held: Any

    def _refuse(self, held: Any) -> None:
        """Refuses numbers that something else has changed; they are a copy."""

    def __eq__(self, other: object) -> bool:
        """Whether it has the same numbers, and so goes on alike."""
        if not isinstance(other, type(self)):
            return NotImplemented
        return c.same(self._held, other._held)

    def __getstate__(self) -> Tuple[str, bytes]:
        return self._form, bytes(self._held)

    def __setstate__(self, state: Tuple[str, bytes]) -> None:
        form, numbers = state
        if form != self._form or len(numbers) != ctypes.sizeof(self._kind):
            raise Fault(VALUE, reason=f"these are the numbers of a {self._what} of another version")
        self._refuse(self._kind.from_buffer_copy(numbers))
        self._held = self._kind.from_buffer_copy(numbers)


class Sync(Held):
    """Where a line stands in its frame (docs/WIRES.md).

    place: of the last pulse in its frame, 1 to 100, or 0 out of step
    """

    _what, _form, _kind = "line", "irig sync 1", c.Sync

    def __init__(self) -> None:
        self._held = c.Sync()
        c.sync_init(self._held)

    def pulse(self, rise_us: int, width_us: int) -> int:
        """The place of the next pulse in its frame, 1 to 100, or 0 out of step. It rose at this
        time in microseconds and is so many wide; of a time the lowest 32 bits count."""
        width = within("width_us", width_us, 0, MOST)
        return int(c.sync_pulse(self._held, whole("rise_us", rise_us) & MOST, width))

    def idle(self, now_us: int) -> None:
        """Puts the line out of step if its last pulse rose a second ago or earlier. To be called at
        each edge, and at least once in half an hour."""
        c.sync_idle(self._held, whole("now_us", now_us) & MOST)

    @property
    def place(self) -> int:
        """The place of the last pulse in its frame, 1 to 100, or 0 out of step."""
        held = int(self._held.place)
        return held if held <= 100 else 0

    def __repr__(self) -> str:
        return f"Sync(place={self.place})"
