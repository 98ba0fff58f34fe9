"""The hundred symbols of a second, as a text of 0, 1, P and ?: docs/FRAME.md, docs/READER.md."""

from dataclasses import dataclass
from enum import Enum
from functools import lru_cache

from .faults import NAMES, Fault
from .times import Claim, Mark, Second, claim_of, day_number, minute_of

# docs/FRAME.md, the first table, row by row.
ELEMENTS = """
    PR   s1   s2   s4   s8   .    s10  s20  s40  P1
    m1   m2   m4   m8   .    m10  m20  m40  .    P2
    h1   h2   h4   h8   .    h10  h20  .    .    P3
    d1   d2   d4   d8   .    d10  d20  d40  d80  P4
    d100 d200 .    .    .    .    .    .    .    P5
    y1   y2   y4   y8   .    y10  y20  y40  y80  P6
    LP   LD   DP   DS   o-   o1   o2   o4   o8   P7
    o½   q1   q2   q4   q8   par  .    .    .    P8
    b0   b1   b2   b3   b4   b5   b6   b7   b8   P9
    b9   b10  b11  b12  b13  b14  b15  b16  .    P0
""".split()
MARKERS = {0, *range(9, 100, 10)}
FIELDS = {"second": (0, 60), "minute": (0, 59), "hour": (0, 23), "day": (1, 366), "year": (0, 99)}


def places_of(letter: str) -> list[tuple[int, int]]:
    """A letter's elements and numbers in the table (docs/FRAME.md, the first table)."""
    return [(place, int(name[1:])) for place, name in enumerate(ELEMENTS) if name[0] == letter]


PLACES = {field: places_of(field[0]) for field in FIELDS}
BINARY_SECONDS = [(place, 2**power) for place, power in places_of("b")]
CONTROL_WORD = [(place, 2**bit) for bit, place in enumerate([*range(60, 69), *range(70, 79)])]
Parity = Enum("Parity", {"EVEN": "even", "ODD": "odd"})
Sense = Enum("Sense", {"ADD": "add", "SUBTRACT": "subtract"})


@dataclass(frozen=True)
class Rules:
    """By which rules ports read (docs/SCENARIOS.md, The plant line)."""

    parity: Parity = Parity.EVEN
    sense: Sense = Sense.ADD
    check_binary_seconds: bool = True


@dataclass(frozen=True)
class Control:
    """What the control bits say, the offset in half hours (docs/FRAME.md, the table of bits)."""

    pending: bool = False
    deleted: bool = False
    daylight_pending: bool = False
    daylight: bool = False
    offset: int = 0
    quality: int = 0


@dataclass(frozen=True)
class Coded:
    """The numbers that a frame reads as (docs/FRAME.md, Reading)."""

    second: int
    minute: int
    hour: int
    day: int
    year: int
    control: int
    binary_seconds: int


@dataclass(frozen=True)
class Poor:
    """What a port tells of a frame without a vote: of quality 10 to 15 (docs/READER.md); of a timekeeper's line, of the
    quality from which the setup says that it has none (docs/EXACTNESS.md)."""

    quality: int


Told = Claim | Poor | Fault | None  # None is silence


def symbol_of(width: int) -> str:
    """The symbol of a pulse in microseconds (docs/FRAME.md, the table of symbols)."""
    starts = [(9500, "?"), (6500, "P"), (3500, "1"), (500, "0"), (0, "?")]
    return next(symbol for start, symbol in starts if width >= start)


def word_of(control: Control) -> int:
    """The control word, its parity bit 0 (docs/FRAME.md, the table of bits)."""
    hours, half = divmod(abs(control.offset), 2)
    flags = [control.pending, control.deleted, control.daylight_pending, control.daylight]
    word = sum(2**bit for bit, flag in enumerate([*flags, control.offset < 0]) if flag)
    return word + 2**5 * hours + 2**9 * half + 2**10 * control.quality


def control_of(word: int) -> Control:
    """What a control word says; parity and unused bits are ignored (docs/FRAME.md, as word_of)."""
    flags = [bool(word >> bit & 1) for bit in range(5)]
    half_hours = 2 * (word >> 5 & 15) + (word >> 9 & 1)
    return Control(*flags[:4], -half_hours if flags[4] else half_hours, word >> 10 & 15)


def has_parity(symbols: str, parity: Parity) -> bool:
    """Whether the ones among data elements 1 to 75 are even or odd (docs/FRAME.md, Parity)."""
    ones = [place for place in range(1, 76) if symbols[place] == "1" and place not in MARKERS]
    return len(ones) % 2 == (parity == Parity.ODD)


def value_of(symbols: str, places: list[tuple[int, int]]) -> int:
    """The sum of the weights where a one stands (docs/FRAME.md, below the first table)."""
    return sum(weight for place, weight in places if symbols[place] == "1")


def ones_of(number: int, places: list[tuple[int, int]]) -> list[int]:
    """Where the ones of a number stand, greatest weight first (docs/FRAME.md, as value_of)."""
    ones = []
    for place, weight in reversed(places):
        if number >= weight:
            ones, number = [*ones, place], number - weight
    return ones


@lru_cache(maxsize=4096)
def frame_of(second: Second, local: int, control: Control, parity: Parity) -> str:
    """The frame of a UTC second, coded `local` half hours ahead of UTC (docs/FRAME.md)."""
    utc_minute, shown = minute_of(second)
    day, minute = divmod(utc_minute + 30 * local, 1440)
    year = max(year for year in range(100) if day_number(year, 1) <= day)
    numbers = [shown, minute % 60, minute // 60, day - day_number(year, 1) + 1, year]
    ones = ones_of(60 * minute + shown, BINARY_SECONDS) + ones_of(word_of(control), CONTROL_WORD)
    for number, places in zip(numbers, PLACES.values()):
        ones += ones_of(number, places)
    symbols = ["P" if place in MARKERS else "1" if place in ones else "0" for place in range(100)]
    if not has_parity("".join(symbols), parity):
        symbols[ELEMENTS.index("par")] = "1"
    return "".join(symbols)


def element_fault(symbols: str) -> Fault | None:
    """The fault of the length, or of the lowest wrong element (docs/FAULTS.md, 1 to 4)."""
    if len(symbols) != 100:
        return Fault(1, len(symbols)) if len(symbols) < 100 else Fault(2)
    for place, symbol in enumerate(symbols):
        if symbol == "?" or (symbol == "P") != (place in MARKERS):
            return Fault(3 if symbol == "?" else 4, place)
    return None


def read(symbols: str) -> Coded | Fault:
    """What a frame reads as, or its first fault, 1 to 6 (docs/FRAME.md, Reading)."""
    if fault := element_fault(symbols):
        return fault
    for field, (least, most) in FIELDS.items():
        for unit in (1, 10):
            digit = [(p, weight) for p, weight in PLACES[field] if unit <= weight < 10 * unit]
            if value_of(symbols, digit) > 9 * unit:
                return Fault(5, field)
        if not least <= value_of(symbols, PLACES[field]) <= most:
            return Fault(6, field)
    places = [*PLACES.values(), CONTROL_WORD, BINARY_SECONDS]
    return Coded(*[value_of(symbols, part) for part in places])


def claim_of_coded(coded: Coded, sense: Sense) -> Claim | Fault:
    """What a frame claims, or its fault, 7 to 10 (docs/FRAME.md, What a frame claims)."""
    if coded.day == 366 and coded.year % 4 != 0:
        return Fault(7)
    control = control_of(coded.control)
    offset = control.offset if sense == Sense.ADD else -control.offset
    minute = day_number(coded.year, coded.day) * 1440 + 60 * coded.hour + coded.minute
    kind = Mark.DELETE if control.deleted else Mark.INSERT
    said = kind if control.pending else Mark.NO_LEAP
    return claim_of(minute + 30 * offset, coded.second, said)


@lru_cache(maxsize=4096)
def told(rules: Rules, symbols: str, poor_from: int = 10) -> Told:
    """What a port tells, by the first of eight lines (docs/READER.md, A port), if from this quality on a frame has no
    vote."""
    if not symbols:
        return None
    if fault := element_fault(symbols):
        return fault
    if not has_parity(symbols, rules.parity):
        return Fault(17)
    coded = read(symbols)
    if isinstance(coded, Fault):
        return coded
    binary_seconds = 3600 * coded.hour + 60 * coded.minute + coded.second
    if rules.check_binary_seconds and coded.second < 60 and coded.binary_seconds != binary_seconds:
        return Fault(18)
    claim = claim_of_coded(coded, rules.sense)
    quality = control_of(coded.control).quality
    return Poor(quality) if isinstance(claim, Claim) and quality >= poor_from else claim


def quality_of(symbols: str) -> int:
    """The time quality that a frame says (docs/FRAME.md, the table of bits)."""
    return control_of(value_of(symbols, CONTROL_WORD)).quality


def word_of_port(word: Fault | Poor | None) -> str:
    """What a port told that was no claim (docs/OUTPUT.md, What each port told)."""
    match word:
        case None:
            return "silence"
        case Poor(quality):
            return f"poor:{quality}"
        case Fault(number, place):
            return f"fault:{number}:{NAMES[number - 1]}" + ("" if place is None else f":{place}")
