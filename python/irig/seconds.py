"""Seconds of UTC, with leap seconds, and what frames claim of them. It needs no library, so that logs
and scenarios are read and written without one; `python/tests` compares it with the proved calls."""
from __future__ import annotations

import re
from dataclasses import dataclass
from datetime import date, datetime, timedelta, timezone
from functools import lru_cache
from typing import Dict, Iterable, Iterator, List, Optional, Tuple, Union, overload

from .faults import VALUE, Fault, whole, within
from .words import Kind, Mark, number_of

EPOCH = date(2000, 1, 1)  # day 0
FIRST_DAY, LAST_DAY = 1, 36_523  # 2000-01-02 and 2099-12-30
DAY = 86_400
LAST_MINUTE = 1439  # of a day

FORM_OF_DAY = re.compile(r"\d{4}-\d\d-\d\d", re.ASCII)
FORM_OF_MINUTE = re.compile(r"T([01]\d|2[0-3]):([0-5]\d):", re.ASCII)
FORM_OF_SECOND = re.compile(r"([0-5]\d|60)(Z|[+-]\d\d:?\d\d)", re.ASCII)

Time = Union["Second", datetime, str]
Day = Union[date, str]


@dataclass(frozen=True)
class Leap:
    """A leap second at the end of a month's last day, as a date or a text like 2016-12-31."""

    day: Day
    kind: Kind = "insert"

    def value(self) -> Dict[str, str]:
        """As a scenario has it."""
        return {"day": str(self.day), "kind": self.kind}


@dataclass(frozen=True, order=True, repr=False)
class Second:
    """A second of UTC, from 2000-01-02 to 2099-12-30. It is written, and compared, as such.

    day: counted from 2000-01-01 as day 0
    sod: the second of the day, 0 to 86399; 86400 in an inserted leap second, 23:59:60 of a month's
        last day

    It does not know which leap seconds there are. So `second + 5`, `second - 5` and
    `second - another` count days of 86,400 seconds: no sum is a 23:59:60. Only what is itself a
    23:59:60 counts as such: it is the second after 23:59:59 of its day. `plus` and `since` take
    leap seconds along, and count as UTC does.
    """

    day: int
    sod: int

    def __post_init__(self) -> None:
        day, sod = self.day, self.sod
        if type(day) is type(sod) is int and FIRST_DAY <= day <= LAST_DAY and 0 <= sod < DAY:
            return  # most of a log's
        within("day", self.day, FIRST_DAY, LAST_DAY)
        within("sod", self.sod, 0, DAY if is_month_end(self.day) else DAY - 1)

    @classmethod
    def of(cls, time: Time, floor: bool = False) -> Second:
        """The second of a text, as 2016-12-31T23:59:60Z, or of a datetime with a time zone; with
        `floor` that in which a datetime is."""
        if isinstance(time, Second):
            return time
        if isinstance(time, str):
            return cls.read(time)
        if isinstance(time, datetime):
            return cls.of_datetime(time, floor)
        raise TypeError(f"{time!r} is no Second, no text and no datetime")

    @classmethod
    def read(cls, text: str) -> Second:
        """The second whose text this is: YYYY-MM-DDTHH:MM:SSZ. In place of Z +00:00 may stand, as
        `datetime.isoformat` writes it."""
        day, minute, ends = _day_in(text[:10]), _minute_in(text[10:17]), _second_in(text[17:])
        if day is None or minute is None or ends is None:
            raise _no_second(text)
        second, zone = ends
        if zone not in ("Z", "+00:00"):
            raise Fault(VALUE, reason=f"{text!r} is not in UTC: Z or +00:00 may stand at its end")
        if second == 60 and not (minute == LAST_MINUTE and is_month_end(day)):
            raise _no_second(text)
        return cls(day, 60 * minute + second)

    @classmethod
    def of_datetime(cls, time: datetime, floor: bool = False) -> Second:
        """The second of a datetime that has a time zone and no microseconds, or with `floor` that
        in which it is."""
        if time.utcoffset() is None:
            raise Fault(VALUE, reason=f"{time!r} has no time zone, as tzinfo=timezone.utc")
        if time.microsecond and not floor:
            reason = f"{time!r} is inside a second, and none begins there; floor=True takes that one"
            raise Fault(VALUE, reason=reason)
        utc = time.astimezone(timezone.utc)
        return cls((utc.date() - EPOCH).days, 3600 * utc.hour + 60 * utc.minute + utc.second)

    @property
    def is_leap(self) -> bool:
        """Whether it is an inserted leap second, 23:59:60."""
        return self.sod == DAY

    def to_datetime(self) -> datetime:
        """The datetime, in UTC. An inserted leap second has none, and is refused."""
        if self.is_leap:
            raise Fault(VALUE, reason=f"{self} is a leap second, and a datetime has no second 60")
        midnight = datetime(2000, 1, 1, tzinfo=timezone.utc) + timedelta(self.day)
        return midnight + timedelta(seconds=self.sod)

    def next(self, mark: Mark = "unspoken") -> Optional[Second]:
        """The second after it, by what is said of a leap second: "unspoken", "no-leap", "insert" or
        "delete". None if that is not known to follow, as after 23:59:59 of a month's last day
        if nothing was said."""
        number_of(mark, Mark, "mark")
        is_end = is_month_end(self.day)
        if is_end and mark == "unspoken" and self.sod in (DAY - 2, DAY - 1):
            return None
        last = DAY - 1
        if is_end and mark != "unspoken":
            last += (mark == "insert") - (mark == "delete")
        if self.sod < last:
            return Second(self.day, self.sod + 1)
        return Second(self.day + 1, 0) if self.day < LAST_DAY else None

    def plus(self, seconds: int, leaps: Iterable[Leap] = ()) -> Second:
        """The second that is so many later, or earlier if it is a number below 0, by these leap
        seconds."""
        known = self._known(dict(_changes(leaps)))
        day, sod = _at(_count(self, known) + whole("seconds", seconds), known)
        if not FIRST_DAY <= day <= LAST_DAY:
            reason = f"{seconds} seconds from {self} is not from 2000-01-02 to 2099-12-30"
            raise Fault(VALUE, reason=reason)
        return Second(day, sod)

    def since(self, other: Second, leaps: Iterable[Leap] = ()) -> int:
        """How many seconds it is later than another, by these leap seconds."""
        known = other._known(dict(self._known(dict(_changes(leaps)))))
        return _count(self, known) - _count(other, known)

    def _known(self, changes: Dict[int, int]) -> Changes:
        """These changes, and the one of this second, if it is a leap second itself."""
        if self.is_leap:
            changes.setdefault(self.day, 1)
        if self.sod >= DAY + changes.get(self.day, 0):
            raise Fault(VALUE, reason=f"{self} is no second by these leap seconds")
        return sorted(changes.items())

    def __add__(self, seconds: int) -> Second:
        return self.plus(seconds) if isinstance(seconds, int) else NotImplemented

    @overload
    def __sub__(self, other: int) -> Second: ...

    @overload
    def __sub__(self, other: Second) -> int: ...

    def __sub__(self, other: Union[int, Second]) -> Union[int, Second]:
        if isinstance(other, Second):
            return self.since(other)
        return self.plus(-other) if isinstance(other, int) else NotImplemented

    def __str__(self) -> str:
        minute = min(self.sod // 60, LAST_MINUTE)
        clock = f"{minute // 60:02}:{minute % 60:02}:{self.sod - 60 * minute:02}"
        return f"{day_text(self.day)}T{clock}Z"

    def __repr__(self) -> str:
        return f"Second.read({str(self)!r})"


@dataclass(frozen=True)
class Claim:
    """What a frame claims: the second that began with it, and what it says of the leap second at
    the end of that day: "insert", "delete", "no-leap", or "unspoken" if nothing is said."""

    second: Second
    mark: Mark = "unspoken"

    def __str__(self) -> str:
        return f"claim {self.second} {self.mark}"


# ---- days


# The parts of a text are read alike again and again in a log, and so kept.


@lru_cache(maxsize=1024)
def _day_in(text: str) -> Optional[int]:
    """The number of a day in the form YYYY-MM-DD that is served."""
    try:
        day = (date.fromisoformat(text if FORM_OF_DAY.fullmatch(text) else "") - EPOCH).days
    except ValueError:
        return None
    return day if FIRST_DAY <= day <= LAST_DAY else None


@lru_cache(maxsize=2048)
def _minute_in(text: str) -> Optional[int]:
    """The minute of the day in the form THH:MM: with its two colons."""
    found = FORM_OF_MINUTE.fullmatch(text)
    return 60 * int(found[1]) + int(found[2]) if found else None


@lru_cache(maxsize=1024)
def _second_in(text: str) -> Optional[Tuple[int, str]]:
    """The second, and what stands behind it."""
    found = FORM_OF_SECOND.fullmatch(text)
    return (int(found[1]), found[2]) if found else None


@lru_cache(maxsize=1024)
def day_text(day: int) -> str:
    """The text of a day, as 2016-12-31."""
    return (EPOCH + timedelta(day)).isoformat()


@lru_cache(maxsize=1024)
def is_month_end(day: int) -> bool:
    """Whether a day is a month's last."""
    return (EPOCH + timedelta(day + 1)).day == 1


def day_number(day: Day) -> int:
    """A day as C counts it, from 2000-01-01 as day 0. The text of one is as 2016-12-31."""
    if isinstance(day, str):
        try:
            day = date.fromisoformat(day if FORM_OF_DAY.fullmatch(day) else "")
        except ValueError:
            raise Fault(VALUE, reason=f"{day!r} is no day, as 2016-12-31") from None
    number = (day - EPOCH).days
    if number < 0:
        raise Fault(VALUE, reason=f"{day} is a day before 2000-01-01")
    return number


def _no_second(text: str) -> Fault:
    return Fault(VALUE, reason=f"{text!r} is no second served, as 2016-12-31T23:59:60Z")


# ---- seconds, counted from the beginning of day 0 on

Changes = List[Tuple[int, int]]  # by how much days are longer, oldest first


def _changes(leaps: Iterable[Leap]) -> Iterator[Tuple[int, int]]:
    for leap in leaps:
        is_delete = number_of(leap.kind, Kind, "the kind of a leap") == 1
        yield day_number(leap.day), -1 if is_delete else 1


def _count(second: Second, changes: Changes) -> int:
    earlier = sum(change for day, change in changes if day < second.day)
    return DAY * second.day + second.sod + earlier


def _at(count: int, changes: Changes) -> Tuple[int, int]:
    """The day, and the second of the day."""
    earlier = 0
    for day, change in changes:
        end = DAY * (day + 1) + earlier + change
        if count < end:
            if change == 1 and count == end - 1:
                return day, DAY
            break
        earlier += change
    return divmod(count - earlier, DAY)
