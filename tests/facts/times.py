"""Seconds of UTC: timelines with leaps, tables, what comes next, and what is refused."""

import os
import re
import time
from collections.abc import Iterator
from datetime import date
from pathlib import Path
from random import Random

from model.meaning import Plant, leaps_of, plant_of
from model.times import (
    Mark, Second, Table, Timeline, check_table, check_timeline, is_true_table, second_after, second_at,
    second_of_text, table_mark, text_of_second, truth_at,
)  # fmt: skip
from random_scenarios import EPOCH, LAST_DAY, MONTH_ENDS, random_leaps, random_plant

from . import values as v
from .antt import question, some

Pairs = Iterator[tuple]
ZONES = Path("/usr/share/zoneinfo")
LATE = MONTH_ENDS[-3:]  # what searches the days to the end of the years is quick from here on
BOUNDS = (0, 1, 59, 60, 3599, 3600, 86339, 86340, 86341, 86397, 86398, 86399, 86400)
YEAR_ENDS = (1, 2, 59, 365, 366, 36218, 36493, 36522, 36523)
MONTHS = "JanFebMarAprMayJunJulAugSepOctNovDec"


def some_plant(random: Random, ends: list[int] = MONTH_ENDS) -> Plant:
    """A plant that starts about the end of one of these months."""
    return plant_of(random_plant(random, ends))


def random_second(random: Random, first: int = 1) -> Second:
    """A second that is served: of a month's or the years' end, at a bound of the day, or any."""
    ends = [day for day in (*YEAR_ENDS, *MONTH_ENDS) if day >= first]
    day = random.choice(ends) if random.random() < 0.6 else random.randint(first, LAST_DAY)
    of_day = random.choice(BOUNDS) if random.random() < 0.6 else random.randrange(86400)
    return Second(day, min(of_day, 86400 if day in MONTH_ENDS else 86399))


@question("model", "irig_time.second_at irig_time.truth_at")
def seconds(random: Random) -> Pairs:
    """Of most timelines late, and about the end of a day or of the years, or of any edge."""
    for ends in [*[LATE] * 120, *[MONTH_ENDS] * 6]:
        timeline = some_plant(random, ends).timeline
        days = random.choice((1, 1, 2, 30, LAST_DAY + 1 - timeline.start.day))
        to_end = 86_400 * days - timeline.start.of_day + random.randint(-62, 3)
        n = max(0, random.choice((random.randrange(20), to_end, random.randrange(200_000))))
        yield (timeline, n), (some(second_at(timeline, n)), some(truth_at(timeline, n)))


def utc_of(count: int) -> Second:
    """The second of UTC of a count of the zone right/UTC, by the system's C library."""
    before = os.environ.get("TZ")
    os.environ["TZ"] = "right/UTC"
    time.tzset()
    when = time.localtime(count)
    os.environ.pop("TZ") if before is None else os.environ.update(TZ=before)
    time.tzset()
    day = (date(when.tm_year, when.tm_mon, when.tm_mday) - EPOCH).days
    return Second(day, 3600 * when.tm_hour + 60 * when.tm_min + when.tm_sec)


def leap_seconds() -> list[tuple[int, int]]:
    """The days of leap seconds since 2000 by the system's table, and their counts."""
    table = (ZONES / "leapseconds").read_text()
    found = re.findall(r"^Leap\t(\d+)\t(\w+)\t(\d+)\t23:59:60\t\+", table, re.MULTILINE)
    days = [date(int(year), MONTHS.index(month) // 3 + 1, int(day)) for year, month, day in found]
    counts = [86_400 * ((day - date(1970, 1, 1)).days + 1) + place for place, day in enumerate(days)]
    return [((day - EPOCH).days, count) for day, count in zip(days, counts) if day > EPOCH]


@question("tzdata", "irig_time.second_at")
def leaps(random: Random) -> Pairs:
    """Seconds about leap seconds of 2005 to 2016, where the system has the zone."""
    if not (ZONES / "right" / "UTC").exists() or not (ZONES / "leapseconds").exists():
        print("skipped: leap seconds, as there is no zone right/UTC")
        return
    inserted = tuple((day, Mark.INSERT) for day, _ in leap_seconds())
    for _ in range(12):
        _, near = random.choice(leap_seconds())
        first = near - random.choice((1, 5, 60, 3600, 86_400, random.randrange(10**8)))
        n = max(0, near - first + random.randint(-5, 5))
        yield (Timeline(utc_of(first), inserted), n), some(utc_of(first + n))


@question("model", "irig_time.next_of")
def following(random: Random) -> Pairs:
    for _ in range(300):
        second, mark = random_second(random), random.choice(list(Mark))
        yield (second, mark), some(second_after(second, mark))


@question("model", "irig_time.table_mark")
def marks(random: Random) -> Pairs:
    """Of tables about a month's end, with the leaps up to their last day."""
    for _ in range(160):
        day = random.choice(MONTH_ENDS)
        until = random.choice((0, day, day - 1, day + 1, random.randint(0, LAST_DAY)))
        leaps = leaps_of(random_leaps(random, day, random.choice((0, 1, 3))))
        table = Table(until, tuple(leap for leap in leaps if leap[0] <= until))
        asked = random.choice([day, *dict(leaps)])
        yield (table, asked), table_mark(table, asked)


@question("model", "irig_plant.is_true_table")
def true_tables(random: Random) -> Pairs:
    """Tables of a late timeline: with its leaps, or with others."""
    for _ in range(60):
        plant, other = some_plant(random, LATE), some_plant(random, LATE)
        for reader in (*plant.readers.values(), *other.readers.values()):
            if reader.table:
                yield (plant.timeline, reader.table), is_true_table(reader.table, plant.timeline)


def leaps_with_faults(random: Random) -> tuple[tuple[int, Mark], ...]:
    """Leaps among which may be one twice, or one of no month's end or of no year that is served."""
    leaps = list(leaps_of(random_leaps(random, random.randint(1, LAST_DAY), random.randint(0, 4))))
    if leaps and random.random() < 0.4:
        leaps.append((random.choice(leaps)[0], Mark.DELETE))
    if random.random() < 0.3:
        leaps.append((random.choice((0, 36_524, 100, random.randrange(40_000))), Mark.INSERT))
    return tuple(random.sample(leaps, len(leaps)))


@question("model", "irig_time.timeline_fault")
def timeline_faults(random: Random) -> Pairs:
    for _ in range(100):
        leaps = leaps_with_faults(random)
        day = random.choice([day for day, _ in leaps if 1 <= day <= LAST_DAY] or [LAST_DAY])
        start = Second(day, random.choice((0, 86_397, 86_398, 86_399, 86_400)))
        yield (start, v.leaps(leaps)), v.refused_by("TimelineFault", check_timeline, Timeline(start, leaps))


@question("model", "irig_time.table_fault")
def table_faults(random: Random) -> Pairs:
    """Among them tables of as many leaps as are read, and of more."""
    long = [tuple((day, Mark.INSERT) for day in MONTH_ENDS[:count]) for count in (63, 64, 65, 1200)]
    for leaps in [*long, *(leaps_with_faults(random) for _ in range(100))]:
        last = max([0, *dict(leaps)])
        until = random.choice((0, 36_522, LAST_DAY, 36_524, random.randrange(36_524), last))
        until = last if leaps in long else until
        yield (until, v.leaps(leaps)), v.refused_by("TableFault", check_table, Table(until, leaps))


@question("model", "irig_time.is_valid")
def valid_seconds(random: Random) -> Pairs:
    """What has a text is valid."""
    for _ in range(200):
        day = random.choice((0, 1, 2, 36_522, LAST_DAY, 36_524, *random.sample(MONTH_ENDS, 4)))
        of_day = random.choice((0, 86_399, 86_400, 86_401, random.randrange(86_400)))
        second = Second(day, of_day)
        yield (second,), second_of_text(text_of_second(second)) is not None
