"""Seconds of UTC, claims, timelines, tables: docs/FRAME.md, from "What a frame claims" on."""

import re
from dataclasses import dataclass
from datetime import date, timedelta
from enum import Enum
from functools import lru_cache

from .faults import Fault, refuse_if

DAY_ZERO = date(2000, 1, 1)
FIRST_DAY, LAST_DAY = 1, 36523  # 2000-01-02 and 2099-12-30, the days that are served

# What is said of the leap at the end of a day; a leap that comes is INSERT or DELETE.
MARKS = {"UNSPOKEN": "unspoken", "NO_LEAP": "no-leap", "INSERT": "insert", "DELETE": "delete"}
Mark = Enum("Mark", MARKS)
Leaps = tuple[tuple[int, Mark], ...]  # days and their leaps
DAY_LENGTH = {Mark.NO_LEAP: 86400, Mark.INSERT: 86401, Mark.DELETE: 86399}


@dataclass(frozen=True, order=True)
class Second:
    """A second of UTC: its day, counted from 2000-01-01 as 0, and its second of the day."""

    day: int
    of_day: int


@dataclass(frozen=True)
class Claim:
    """A second of UTC together with a mark."""

    second: Second
    mark: Mark


@dataclass(frozen=True)
class Timeline:
    """A start and the leaps of days that end months."""

    start: Second
    leaps: Leaps


@dataclass(frozen=True)
class Table:
    """A reader's leap table: its last day, and the leaps up to it."""

    until: int
    leaps: Leaps


def day_number(year: int, day_of_year: int) -> int:
    """The day of a year from 2000 and a place in it (docs/FRAME.md, What a frame claims)."""
    return 365 * year + (year + 3) // 4 + day_of_year - 1


@lru_cache(maxsize=None)
def is_month_end(day: int) -> bool:
    """Whether a day is its month's last (docs/FRAME.md, What a frame claims)."""
    return (DAY_ZERO + timedelta(days=day + 1)).day == 1


def minute_of(second: Second) -> tuple[int, int]:
    """The minute from 2000-01-01, 1440 a day, and the second in it, 60 of a leap second
    (docs/FRAME.md, What a frame claims)."""
    minute = min(second.of_day // 60, 1439)
    return 1440 * second.day + minute, second.of_day - 60 * minute


def day_of_text(text: str) -> int | None:
    """The day of a text as 2016-12-31, 2000 to 2099 (docs/scenario.schema.json, day)."""
    try:
        is_day = re.fullmatch("20[0-9]{2}-[0-9]{2}-[0-9]{2}", text)
        return (date.fromisoformat(text) - DAY_ZERO).days if is_day else None
    except ValueError:
        return None


def second_of_text(text: str) -> Second | None:
    """The second of a text as 2016-12-31T23:59:60Z (docs/scenario.schema.json, second)."""
    clock = re.fullmatch("(.{10})T([01][0-9]|2[0-3]):([0-5][0-9]):([0-5][0-9]|60)Z", text)
    day = day_of_text(clock[1]) if clock else None
    if day is None or not FIRST_DAY <= day <= LAST_DAY:
        return None
    hour, minute, second = int(clock[2]), int(clock[3]), int(clock[4])
    if second == 60 and not ((hour, minute) == (23, 59) and is_month_end(day)):
        return None
    return Second(day, 3600 * hour + 60 * minute + second)


def text_of_second(second: Second) -> str:
    """A second as 2016-12-31T23:59:60Z (docs/OUTPUT.md, the column TIME)."""
    minute, of_minute = minute_of(second)
    day = (DAY_ZERO + timedelta(days=second.day)).isoformat()
    return f"{day}T{minute % 1440 // 60:02}:{minute % 60:02}:{of_minute:02}Z"


def claim_of(minute: int, second: int, said: Mark) -> Claim | Fault:
    """What a frame of a UTC minute claims, or its fault (docs/FRAME.md, What a frame claims)."""
    day, minute_of_day = divmod(minute, 1440)
    if not FIRST_DAY <= day <= LAST_DAY:
        return Fault(8)
    is_last_minute = minute_of_day == 1439 and is_month_end(day)
    if second == 60 and not is_last_minute:
        return Fault(9)
    mark = said if is_last_minute and 1 <= second <= 59 else Mark.UNSPOKEN
    if second == 59 and mark == Mark.DELETE:
        return Fault(10)
    return Claim(Second(day, 60 * minute_of_day + second), mark)


def second_after(second: Second, mark: Mark) -> Second | None:
    """The second after, if it is known (docs/FRAME.md, The second after)."""
    length = DAY_LENGTH[Mark.NO_LEAP]
    if is_month_end(second.day) and second.of_day in (86398, 86399):
        if mark == Mark.UNSPOKEN:
            return None
        length = DAY_LENGTH[mark]
    if second.of_day + 1 < length:
        return Second(second.day, second.of_day + 1)
    return Second(second.day + 1, 0) if second.day < LAST_DAY else None


def leap_of(leaps: Leaps, day: int) -> Mark:
    """The leap of a day by a list, or none (docs/FRAME.md, The true seconds)."""
    return next((leap for leap_day, leap in leaps if leap_day == day), Mark.NO_LEAP)


@lru_cache(maxsize=4096)
def second_at(timeline: Timeline, n: int) -> Second | None:
    """T(n), if a day served has it (docs/FRAME.md, The true seconds: days laid end to end)."""
    day, left = timeline.start.day, timeline.start.of_day + n
    for leap_day, leap in sorted(timeline.leaps, key=lambda pair: pair[0]):
        if leap_day < day or left < 86400 * (leap_day - day):
            continue
        day, left = leap_day, left - 86400 * (leap_day - day)
        if left < DAY_LENGTH[leap]:
            return Second(day, left)
        day, left = day + 1, left - DAY_LENGTH[leap]
    day, left = day + left // 86400, left % 86400
    return Second(day, left) if day <= LAST_DAY else None


@lru_cache(maxsize=4096)
def truth_at(timeline: Timeline, n: int) -> Claim | None:
    """The true claim of T(n), that of edge n + 1 (docs/FRAME.md, The true seconds)."""
    second = second_at(timeline, n)
    return second and claim_of(*minute_of(second), leap_of(timeline.leaps, second.day))


def table_mark(table: Table | None, day: int) -> Mark:
    """What a table says of a month's end (docs/FRAME.md, The true seconds)."""
    if table is None or day > table.until:
        return Mark.UNSPOKEN
    return leap_of(table.leaps, day)


def check_timeline(timeline: Timeline) -> None:
    """Refuses by 14, 12, 13, 11 (docs/FAULTS.md, below the refusals of a scenario)."""
    days = [day for day, _ in timeline.leaps]
    for place, day in enumerate(days):
        refuse_if(14, not FIRST_DAY <= day <= LAST_DAY)
        refuse_if(12, not is_month_end(day))
        refuse_if(13, day in days[:place])
    start = timeline.start
    refuse_if(11, start.of_day >= DAY_LENGTH[leap_of(timeline.leaps, start.day)])


def check_table(table: Table) -> None:
    """Refuses by 31, 32, 33, 34 (docs/FAULTS.md, below the refusals of a scenario)."""
    days = [day for day, _ in table.leaps]
    refuse_if(31, table.until > LAST_DAY)
    refuse_if(32, len(days) > 64)
    for place, day in enumerate(days):
        refuse_if(33, not is_month_end(day) or day > table.until)
        refuse_if(34, day in days[:place])


def is_true_table(table: Table | None, timeline: Timeline) -> bool:
    """Whether a table says what the timeline has (docs/SCENARIOS.md, The audit)."""
    days = {day for day, _ in table.leaps + timeline.leaps} if table else set()
    judged = [day for day in days if timeline.start.day <= day <= table.until]
    return all(leap_of(table.leaps, day) == leap_of(timeline.leaps, day) for day in judged)
