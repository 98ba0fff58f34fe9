"""What lines say of a recording's stamp, and of a recording that is too short for a vote of whole frames:
by the elements that were seen, each line tells a second near the stamp, if only one fits."""
from __future__ import annotations

import math
from dataclasses import replace
from functools import lru_cache
from itertools import product
from typing import Collection, Dict, Iterator, List, NamedTuple, Optional, Sequence, Set, Tuple

from parts.changes import Stamp
from parts.listening import AGREE_US, Line, symbol_of
from parts.pace import ELEMENT_US, SECOND_US

from irig import Fault, Leap, Second, frame
from irig.seconds import DAY, LAST_DAY, day_number, day_text, is_month_end
from irig.stretches import offset_text
from irig.words import Kind, Sense, listed

EXPLAINED_US = 60_000_000  # so near to a whole number of half hours a stamp may be local time
HALF_HOUR_US = 1_800_000_000
ACCURACY = ("1 ns", "10 ns", "100 ns", "1 us", "10 us", "100 us", "1 ms", "10 ms", "100 ms", "1 s", "10 s")
LEAPS = ("none is in it", "one is added", "one is deleted", "the recorder's clock knows of none")
# The elements that do not hang on the second: without a field, leap, daylight, quality and parity.
FREE = {5, 14, 18, 24, 27, 28, 34, 54, 98, *range(42, 49), *range(60, 64), *range(71, 79)}
BINARY_SECONDS = {*range(80, 89), *range(90, 98)}
KINDS: Tuple[Kind, ...] = ("insert", "delete")
ZONES = range(-24, 29)  # half hours that a line, or a stamp, may be ahead of UTC


class Zero(NamedTuple):
    """When a recording begins: so many microseconds behind a second, by these leap seconds. Of the other
    days it is known that they have none."""

    second: Second
    after_us: float
    leaps: Sequence[Leap]
    days: Collection[int] = range(LAST_DAY + 1)

    @classmethod
    def behind(
        cls, second: Second, us: float, leaps: Sequence[Leap], days: Collection[int] = range(LAST_DAY + 1)
    ) -> Zero:
        """So many microseconds behind a second, or before it if below 0."""
        seconds, rest = divmod(us, SECOND_US)
        return cls(second.plus(int(seconds), leaps), rest, leaps, days)

    @classmethod
    def of(cls, stamp: Stamp, leaps: Sequence[Leap]) -> Zero:
        """As a stamp has it that is a time. A second that is deleted is the one behind 23:59:58."""
        assert stamp.second
        is_deleted = any(leap.kind == "delete" and stamp.second == Second(day_number(leap.day), DAY - 1)
                         for leap in leaps)
        return cls(stamp.second - is_deleted, stamp.after_us + 1_000_000 * is_deleted, leaps)

    def open_end(self, other: Second) -> Optional[int]:
        """A month's last day that ends between it and another second, and may have a leap second."""
        first, last = sorted((self.second, other))
        days = range(first.day + first.is_leap, last.day)
        return next((day for day in days if is_month_end(day) and day not in self.days), None)

    def __str__(self) -> str:
        seconds, rest = divmod(round(self.after_us / 1000), 1000)  # of milliseconds
        return str(self.second.plus(seconds, self.leaps)).replace("Z", f".{rest:03}Z")


def in_zone(stamp: Stamp, zone: Optional[int]) -> Stamp:
    """The same stamp as one that is so many minutes ahead of UTC, if that is said. A 60 that can be no
    leap second there is no time."""
    if zone is not None and stamp.second:
        stamp = replace(stamp, second=stamp.second + 60 * ((stamp.zone or 0) - zone), zone=zone)
    if stamp.second is None or stamp.after_us < SECOND_US:
        return stamp
    is_leap = stamp.second.sod == DAY - 1 and is_month_end(stamp.second.day)
    second = Second(stamp.second.day, DAY) if is_leap else None
    return replace(stamp, second=second, after_us=stamp.after_us - SECOND_US)


def verdict(stamp: Stamp, zero: Zero, by: str) -> Iterator[str]:
    """What the lines that stand behind `by` say of a stamp, a sentence each."""
    if not _is_time(stamp, zero.leaps):
        yield f"the record's stamp, {stamp.text}, is no time that can be compared with the lines"
        return
    told = Zero.of(stamp, zero.leaps)
    late, within, end = _after(told, zero), AGREE_US + stamp.step_us, zero.open_end(told.second)
    read = "" if stamp.zone is not None else ", read as UTC, as it names no zone"
    by += "" if end is None else f", if {day_text(end)} has no leap second, which --leap would say"
    yield (f"the record's stamp {_late(late, within)} by {by}: it says {stamp.text} for sample 1, "
           f"that is {told}{read}")
    other = _exchanged(told)
    if other and abs(_after(other, zero)) <= EXPLAINED_US:
        yield f"with its day and month exchanged it {_late(_after(other, zero), within)}"
    half_hours = round(late / HALF_HOUR_US)
    rest = late - half_hours * HALF_HOUR_US
    if read and half_hours and half_hours in ZONES and abs(rest) <= EXPLAINED_US:
        minutes = 30 * abs(half_hours)
        zone = f"{'-' if half_hours < 0 else '+'}{minutes // 60}:{minutes % 60:02}"
        yield f"read as local time of UTC{zone} it {_late(rest, within)}"
    if stamp.trigger_us:
        yield f"by that its trigger was at {zero._replace(after_us=zero.after_us + stamp.trigger_us)}"
    if stamp.quality is not None:
        yield f"by its time quality the recorder's clock was {_quality(stamp.quality)}"


def _is_time(stamp: Stamp, leaps: Sequence[Leap]) -> bool:
    """Whether a stamp is a time, and no 23:59:60 of a day that has a second less."""
    second = stamp.second
    if second is None:
        return False
    return not (second.is_leap and Leap(day_text(second.day), "delete") in leaps)


def _exchanged(told: Zero) -> Optional[Zero]:
    """The time of the same date with the month first, where that is another one."""
    year, month, day = day_text(told.second.day).split("-")
    if month == day or int(day) > 12 or told.second.is_leap:
        return None
    return told._replace(second=Second(day_number(f"{year}-{day}-{month}"), told.second.sod))


def _after(one: Zero, other: Zero) -> float:
    """How many microseconds one is later, by the leap seconds of the other."""
    return one.second.since(other.second, other.leaps) * 1e6 + one.after_us - other.after_us


def _late(us: float, within: float) -> str:
    if abs(us) <= within:
        return f"agrees within {math.ceil(within / 100) / 10} ms"
    seconds, rest = divmod(round(abs(us) / 1000), 1000)  # of milliseconds
    amount = f"{seconds % 60}.{rest:03} s" if rest or seconds < 60 else ""
    long = offset_text(seconds - seconds % 60 * bool(amount)).rpartition(" ")[0]
    return f"is {' '.join(filter(None, (long, amount)))} {'late' if us > 0 else 'early'}"


def signed(seconds: int) -> str:
    """An offset as `irig blame` has it, with a sign."""
    return f"{'-' if seconds < 0 else '+'}{offset_text(seconds).rpartition(' ')[0]}"


def _quality(code: int) -> str:
    if code > len(ACCURACY):
        return "out of order"
    return f"not locked, and right within {ACCURACY[code - 1]}" if code else "locked"


# ---- short recordings


class Seen(NamedTuple):
    """What is seen of a line: when the first second begins, and the symbols by their elements from
    there on, of which those below 0 are earlier."""

    begins_us: float
    symbols: Dict[int, str]


class Reading(NamedTuple):
    """How lines are read."""

    sense: Sense
    free: Set[int]  # elements that say nothing

    @classmethod
    def of(cls, sense: Sense, sbs: str) -> Reading:
        return cls(sense, FREE | BINARY_SECONDS if sbs == "ignore" else FREE)


class Search(NamedTuple):
    """Where seconds are searched: so many seconds about a stamp, by lists of leap seconds that may be."""

    stamp: Stamp
    within: int
    leaps: Sequence[Sequence[Leap]]
    reading: Reading

    @classmethod
    def about(cls, stamp: Stamp, within: int, known: Sequence[Leap], reading: Reading) -> Search:
        """A search about a stamp. If no leap second is known, one of either kind may come."""
        if stamp.second is None or not _is_time(stamp, known):
            raise ValueError(f"undecided: the record's stamp, {stamp.text}, is no time")
        leaps: List[Sequence[Leap]] = [known]
        end = stamp.second.day - (stamp.second.sod < within)
        if not known and is_month_end(end):
            leaps += [[Leap(day_text(end), kind)] for kind in KINDS[: 1 if stamp.second.is_leap else 2]]
        return cls(stamp, within, leaps, reading)


def short_verdict(ports: Sequence[Line], search: Search) -> Iterator[str]:
    """What most ports say of the stamp of a recording that is too short for a vote of whole frames. If
    they say nothing it is a ValueError."""
    told: Dict[Line, Zero] = {}
    heard: Dict[Line, str] = {}
    tries: Set[str] = set()
    for line in dict.fromkeys(ports):
        seen = _seen(line.early)
        zeros = _fitting(seen, search) if seen else []
        if seen and _is_poor(seen):
            heard[line] = f"{line.name} says itself that its clock is off by a second or more"
        elif len(zeros) == 1:
            told[line] = zeros[0]
            heard[line] = f"{line.name} has the recording begin at {zeros[0]}"
        elif seen:
            heard[line] = f"on {line.name} {len(zeros) or 'none'} of the seconds there fit"
            tries |= {"--within", "--leap" if zeros else "--zone"}
        else:
            heard[line] = f"{line.name} shows no beginning of a second"
    for zero in told.values():
        agreed = [line for line in ports if line in told and abs(_after(told[line], zero)) <= AGREE_US]
        if 2 * len(agreed) > len(ports):
            lines = f"{len(set(agreed))} of {len(set(ports))} lines"
            yield f"0.000 s of the recording is {zero}, by {lines}"
            yield from verdict(search.stamp, zero, f"{lines}, if it is right within {search.within} s")
            for line in [line for line in heard if line not in agreed]:
                off = round(_after(told[line], zero) / 1e6) if line in told else 0
                yield f"{line.name} differs by {signed(off)}" if off else heard[line]
            yield "the recording is too short for a scenario, so none is written"
            return
    near = f"within {search.within} s of the stamp, {Zero.of(search.stamp, ())}"
    tries -= {"--zone"} if search.stamp.zone is not None else set()
    tries -= {"--leap"} if len(search.leaps) == 1 else set()
    said = [*heard.values(), *([f"{listed(sorted(tries, reverse=True))} may decide it"] if tries else [])]
    raise ValueError(f"undecided: most lines do not tell the same second {near}: {'; '.join(said)}")


def reckoned(
    zero: Zero, start: Second, before_us: float, ports: Sequence[Line], reading: Reading
) -> Optional[Zero]:
    """When a recording begins, that long before a second. Where a month ends between them, and it is
    not known if with a leap second, by what is seen of the lines there; None if that is not enough."""
    day = zero.open_end(start)
    if day is None:
        return zero
    days = {*zero.days, day}
    leaps = [[*zero.leaps, *([Leap(day_text(day), kind)] if kind else [])] for kind in (None, *KINDS)]
    zeros = [Zero.behind(start, -before_us, of, days) for of in leaps]
    votes = [0] * len(zeros)
    for line in ports:
        seen = _seen(line.early)
        begins = seen.begins_us * SECOND_US / line.view.second if seen else 0.0
        fitting = [place for place, one in enumerate(zeros) if seen and _fits(
            seen, one.second.plus(round((one.after_us + begins) / SECOND_US), one.leaps), one.leaps, reading)]
        if len(fitting) == 1:
            votes[fitting[0]] += 1
    return next((one for one, count in zip(zeros, votes)
                 if 2 * count > len(ports) and one.open_end(start) is None), None)


def _seen(pulses: Sequence[Tuple[float, int]]) -> Optional[Seen]:
    """What is seen of a line by its pulses around the first two markers in a row, as far as they come
    in steps of 10 ms; nothing if there are no such two."""
    symbols: Dict[int, str] = {}
    place = begins = 0
    first = last = -math.inf
    for rise, width in pulses:
        steps = round((rise - last) / ELEMENT_US) if symbols else 0
        if not symbols or abs(rise - last - steps * ELEMENT_US) > AGREE_US:
            if begins:
                break
            symbols, place, first, last, steps = {}, 0, rise, rise, 0
        place, last = place + steps, rise
        symbols[place] = symbol_of(width)
        if not begins and symbols[place] == symbols.get(place - 1) == "P":
            begins = place
    if not begins:
        return None
    return Seen(first + begins * ELEMENT_US, {at - begins: symbol for at, symbol in symbols.items()})


def _is_poor(seen: Seen) -> bool:
    """Whether a frame says that it is of a quality from 10 on, which tells no second."""
    ones = {element for element, symbol in seen.symbols.items() if symbol == "1"}
    return any({at + 74, at + bit} <= ones for at in (-100, 0, 100, 200) for bit in (72, 73))


def _fitting(seen: Seen, search: Search) -> List[Zero]:
    """The beginnings of a recording that fit all that is seen of a line."""
    found: Dict[Tuple[int, Second], Zero] = {}
    for leaps, away in product(search.leaps, range(-search.within, search.within + 1)):
        zero = _fitting_at(seen, search, leaps, away)
        if zero:
            found.setdefault((away, zero.second), zero)
    return list(found.values())


def _fitting_at(seen: Seen, search: Search, leaps: Sequence[Leap], away: int) -> Optional[Zero]:
    """That so many seconds away from the stamp, if it fits. A second that is not served fits nothing."""
    told = Zero.of(search.stamp, leaps)
    try:
        second = told.second.plus(round((told.after_us + seen.begins_us) / 1e6) + away, leaps)
        fits = _fits(seen, second, leaps, search.reading)
        return Zero.behind(second, -seen.begins_us, leaps) if fits else None
    except Fault:
        return None


def _fits(seen: Seen, second: Second, leaps: Sequence[Leap], reading: Reading) -> bool:
    """Whether all that is seen fits, if this second is the first that begins, in a zone."""
    numbers = {element // 100 for element in seen.symbols}
    seconds = {number: second.plus(number, leaps) for number in numbers}
    return any(_fits_in(zone, seen, seconds, reading) for zone in ZONES)


def _fits_in(zone: int, seen: Seen, seconds: Dict[int, Second], reading: Reading) -> bool:
    frames = {number: _frame(second, zone, reading.sense) for number, second in seconds.items()}
    return all(
        frames[element // 100][element % 100] == symbol for element, symbol in seen.symbols.items()
        if symbol != "?" and element % 100 not in reading.free
    )


@lru_cache(maxsize=1 << 17)
def _frame(second: Second, zone: int, sense: Sense) -> str:
    return frame(second, zone, sense=sense).replace(" ", "")
