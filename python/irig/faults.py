"""Faults and refusals, by their numbers in docs/FAULTS.md."""
from __future__ import annotations

import re
from operator import index
from typing import Iterator, NamedTuple, Optional, Tuple, Union

from ._library import NUMBERS, lines_of

Detail = Union[int, str, None]

FIELDS = tuple(name[6:].lower() for name in NUMBERS if name.startswith("FIELD_"))


class Meaning(NamedTuple):
    """What a number means. In the cause `{}` stands for the detail."""

    name: str
    cause: str
    example: str
    cure: str


def _meanings() -> Iterator[Tuple[int, Meaning]]:
    """The rows of the tables of docs/FAULTS.md; in a cause one letter stands for the detail."""
    for line in lines_of("docs/FAULTS.md"):
        row = re.match(r"\| (\d+) \| (\w+)(?: (\w+))? \| (.+) \| (.+) \| (.+) \|", line.replace("`", ""))
        if row:
            number, name, detail, cause, *others = row.groups()
            if detail and len(detail) == 1:
                cause = re.sub(rf"\b{detail}\b", "{}", cause)
            yield int(number), Meaning(name, cause, *others)


MEANINGS = dict(_meanings())
VALUE = NUMBERS["FAULT_VALUE"]


def detail_of(answer: int) -> Tuple[int, Detail]:
    """The number in what a call of the library answers, and what it says beside it."""
    number, detail = answer & 255, answer >> 8
    if number in (1, 3, 4):
        return number, detail
    if number in (5, 6):
        return number, FIELDS[detail]
    return number, None


def words_of(number: int, detail: Detail) -> str:
    """A number with its name and detail, as `irig read` prints them."""
    words = f"{number} {MEANINGS[number].name}"
    return words if detail is None else f"{words} {detail}"


class Fault(ValueError):
    """Why a frame, a value or a leap table is not taken.

    number: as docs/FAULTS.md and `irig explain` have it
    detail: how many symbols of `Short`, the element of `Pulse` and `Marker`, the field of `Digit`
        and `Range`, as "hour"; else None
    """

    def __init__(self, number: int, detail: Detail = None, reason: Optional[str] = None) -> None:
        super().__init__(number, detail, reason)
        self.number = number
        self.detail = detail
        self.reason = reason

    @property
    def name(self) -> str:
        """The number's name, as "Parity"."""
        return MEANINGS[self.number].name

    def __str__(self) -> str:
        reason = self.reason or MEANINGS[self.number].cause.format(self.detail)
        return f"{words_of(self.number, self.detail)}: {reason}"


def check(answer: int) -> None:
    """Raises the fault that a call answered, if any."""
    if answer:
        raise Fault(*detail_of(answer))


def whole(what: str, value: int) -> int:
    """The number; a TypeError that names it, if it is no whole one."""
    try:
        return index(value)
    except TypeError:
        raise TypeError(f"{what} is {value!r}; a whole number may stand here") from None


def within(what: str, value: int, least: int, most: int) -> int:
    """The number, if it is from the least to the most; a fault or a TypeError that names it, if it
    is not."""
    number = whole(what, value)
    if not least <= number <= most:
        raise Fault(VALUE, reason=f"{what} is {number}; {least} to {most} may stand here")
    return number
