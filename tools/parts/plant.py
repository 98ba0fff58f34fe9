"""Words of the command line that are parts of a plant line. What is wrong is a ValueError, or for
argparse its own error."""
from __future__ import annotations

from argparse import ArgumentTypeError
from typing import Iterable

from parts import package  # noqa: F401

from irig.scenarios import Leap, Reader
from irig.seconds import day_number, is_month_end


def count(text: str) -> int:
    """A whole number that is not below 0."""
    if not text.isdecimal():
        raise ValueError(f"{text!r} is no whole number from 0 on")
    return int(text)


def one_of(text: str, known: Iterable[object]) -> str:
    """A word that is among those known."""
    words = [str(word) for word in known]
    if text not in words:
        raise ValueError(f"{text!r} is none of {', '.join(words)}")
    return text


def reader(text: str) -> Reader:
    """A reader: its name, and perhaps its lock_after and holdover."""
    name, *numbers = text.split(",")
    if not name or len(numbers) > 2 or not all(word.isdecimal() for word in numbers):
        raise ArgumentTypeError(f"{text!r} is not NAME[,LOCK_AFTER[,HOLDOVER]], as relay,2,3600")
    return Reader(name, *map(int, numbers))


def leap(text: str) -> Leap:
    """A leap second: its day, and perhaps its kind."""
    day, _, kind = text.partition(":")
    try:
        is_end = is_month_end(day_number(day))
    except ValueError:
        is_end = False
    if not is_end or kind not in ("", "insert", "delete"):
        reason = f"{text!r} is not DAY or DAY:delete, of a month's last day, as 2016-12-31"
        raise ArgumentTypeError(reason)
    return Leap(day, "delete" if kind == "delete" else "insert")
