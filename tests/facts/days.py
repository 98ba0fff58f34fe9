"""The calendar of irig_time: every day from 2000-01-01 to 2099-12-31 by Python's datetime."""

from collections.abc import Callable, Iterator
from datetime import timedelta

from model.frames import Coded
from random_scenarios import EPOCH

from .antt import Fact, antt, equal, question

DAYS, AT_ONCE = 36525, 125


def every_day(asks: str, answer: Callable) -> Iterator[Fact]:
    for first in range(0, DAYS, AT_ONCE):
        answers = [antt(answer(day)) for day in range(first, min(first + AT_ONCE, DAYS))]
        yield equal(f"map {asks} (range_with_len {first} {len(answers)})", answers)


@question("datetime", "irig_time.is_month_end")
def month_ends() -> Iterator[Fact]:
    """Of the days served: the last of all days, which comes behind them, is none."""
    return every_day("is_month_end", lambda day: day < 36524 and (EPOCH + timedelta(day + 1)).day == 1)


@question("datetime", "irig_time.day_number irig_time.year_length")
def years() -> Iterator[Fact]:
    """The length of each year, and the number of each of its days."""
    for year in range(100):
        first, behind = ((EPOCH.replace(year=one) - EPOCH).days for one in (2000 + year, 2001 + year))
        left = f"year_length {year} ∷ map (day_number {year}) (range_with_len 1 {behind - first})"
        yield equal(left, [behind - first, *range(first, behind)])


def shown_on(day: int, minute: int, second: int) -> Coded:
    """What a clock shows on a day, in this minute and second of it."""
    when = (EPOCH + timedelta(day)).timetuple()
    return Coded(second, minute % 60, minute // 60, when.tm_yday, when.tm_year - 2000, 0, 60 * minute + second)


@question("datetime", "irig_time.shown_in")
def shown() -> Iterator[Fact]:
    """What a clock shows in one minute of each day."""
    asks = "(λ day. shown_in (1440 * day + day * 7919 % 1440) (day * 31 % 60))"
    return every_day(asks, lambda day: shown_on(day, day * 7919 % 1440, day * 31 % 60))
