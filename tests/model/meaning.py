"""What a plant line of versions 1 to 3 and an event mean: docs/SCENARIOS.md, from its start to "Events"."""

import json
import math
import re
from collections.abc import Callable, Collection
from dataclasses import dataclass

from .faults import Refused, refuse_if
from .frames import Parity, Rules, Sense
from .generator import Generator, Zone, check_generator
from .reader import ReaderRules
from .times import (
    Leaps, Mark, Table, Timeline, check_table, check_timeline, day_of_text, second_of_text,
)  # fmt: skip

Event = dict  # an event is the object of its line, once that has its keys, types and values


@dataclass(frozen=True)
class Form:
    """What a value may be: by its keys and types, else 25, and by its range, else 26."""

    has_shape: Callable[[object], bool]
    fits: Callable[[object], bool]


def whole(least: int, most: int) -> Form:
    """A whole number in a range (docs/SCENARIOS.md, Events, "Numbers")."""
    return Form(lambda value: type(value) is int, lambda value: least <= value <= most)


def text(fits: Callable[[str], bool]) -> Form:
    """A text of some kind (docs/FAULTS.md, 25 and 26)."""
    return Form(lambda value: isinstance(value, str), fits)


def items(form: Form, lengths: Collection[int]) -> Form:
    """A list of some form, of one of these lengths (docs/FAULTS.md, 25 and 26)."""
    return Form(
        lambda value: isinstance(value, list) and all(map(form.has_shape, value)),
        lambda value: len(value) in lengths and all(map(form.fits, value)),
    )


def keys(needed: dict[str, Form], **others: Form) -> Form:
    """An object of some keys, of which others may be left out (docs/FAULTS.md, 25 and 26)."""
    forms = {**needed, **others}

    def has_shape(value: object) -> bool:
        """Whether no key is missing, and each that is there has its type (docs/FAULTS.md, 25)."""
        if not isinstance(value, dict) or not needed.keys() <= value.keys() <= forms.keys():
            return False
        return all(forms[key].has_shape(part) for key, part in value.items())

    return Form(has_shape, lambda value: all(forms[key].fits(value[key]) for key in value))


# The tables of docs/SCENARIOS.md, The plant line, and Events. Lengths that are refused otherwise
# than by 26 are not limited here.
ANY_LENGTH = range(65_536)
DAY = text(lambda value: day_of_text(value) is not None)
SECOND = text(lambda value: second_of_text(value) is not None)
NAME = text(lambda value: True)
FLAG = Form(lambda value: isinstance(value, bool), lambda value: True)
LOCAL, KIND = whole(-128, 127), text(lambda value: value in ("insert", "delete"))
LEAP = keys({"day": DAY, "kind": KIND})
CHANGE = keys({"at": SECOND, "local": LOCAL, "dst": FLAG})
GENERATOR = keys({"local": LOCAL}, dst=FLAG, changes=items(CHANGE, range(401)))
READER = {"name": NAME, "lock_after": whole(1, 60), "holdover": whole(0, 1_000_000)}
TABLE = keys({"until": DAY, "leaps": items(LEAP, ANY_LENGTH)})
PLANT = {
    "version": whole(1, 3), "start": SECOND, "leaps": items(LEAP, range(1201)),
    "parity": text(lambda value: value in ("even", "odd")),
    "sense": text(lambda value: value in ("add", "subtract")),
    "sbs": text(lambda value: value in ("check", "ignore")),
}  # fmt: skip
THREE, FIVE = items(GENERATOR, [3]), items(GENERATOR, [3, 5])
PLAIN, LATER = items(keys(READER), ANY_LENGTH), items(keys(READER, table=TABLE), ANY_LENGTH)
PLANTS = {
    1: keys(PLANT | {"generators": THREE, "readers": PLAIN}),
    2: keys(PLANT | {"generators": THREE, "readers": LATER}),
    3: keys(PLANT | {"generators": FIVE, "readers": LATER}),
}
G, WIDTH = whole(0, 255), whole(0, 2**32 - 1)
EVENTS = {
    "step": {"g": G}, "tick": {"r": NAME}, "carry": {"g": G, "r": NAME},
    "damage": {"g": G, "r": NAME, "at": whole(0, 99), "width": WIDTH},
    "replay": {"g": G, "r": NAME, "edge": whole(0, 2**64 - 1)},
    "raw": {"g": G, "r": NAME, "widths": items(WIDTH, range(1001))},
    "repair": {"g": G}, "restart": {"r": NAME}, "seconds": {"n": whole(0, 100_000)},
}  # fmt: skip
FAULTS = {
    "silent": {}, "stuck": {}, "skew": {"by": whole(-(2**31), 2**31 - 1)}, "no_pending": {},
    "false_pending": {"leap": KIND}, "quality": {"q": whole(0, 15)},
    "wrong_offset": {"by": whole(-62, 62)},
}  # fmt: skip


@dataclass(frozen=True)
class ReaderSetup:
    """Of what a reader is made."""

    rules: ReaderRules
    table: Table | None


@dataclass(frozen=True)
class Plant:
    """What the plant line says."""

    timeline: Timeline
    rules: Rules
    generators: tuple[Generator, ...]
    readers: dict[str, ReaderSetup]


def check(form: Form, value: object) -> None:
    """Refuses a value by 25 or 26 (docs/FAULTS.md, Refusals of a scenario, 3)."""
    refuse_if(25, not form.has_shape(value))
    refuse_if(26, not form.fits(value))


def number_of(numeral: str) -> int | float:
    """A number, an int only if it is whole (docs/SCENARIOS.md, Events, "Numbers")."""
    if math.isinf(float(numeral)):
        raise ValueError("no 64-bit floating-point number holds it")
    is_whole = re.fullmatch("-?[0-9]{1,20}", numeral) and numeral != "-0"
    return int(numeral) if is_whole and -(2**63) <= int(numeral) < 2**64 else float(numeral)


def no_number(constant: str) -> None:
    """NaN and Infinity are no JSON (docs/FAULTS.md, 24)."""
    raise ValueError(constant)


def value_of_line(line: bytes) -> object:
    """The JSON value of a line (docs/FAULTS.md, 24; docs/SCENARIOS.md, Events, "Text")."""
    try:
        text = line.decode("utf-8")
        depths = [0]
        for bracket in re.findall(r"[\[{}\]]", re.sub(r'"(?:[^"\\]|\\.)*"', "", text)):
            depths.append(depths[-1] + (1 if bracket in "[{" else -1))
        surrogate_pair = r"\\u[dD][89abAB]..\\u[dD][c-fC-F].."
        escapes = re.findall(rf"{surrogate_pair}|\\u[dD][89a-fA-F]..|\\.", text)
        refuse_if(24, max(depths) > 127 or any(len(escape) == 6 for escape in escapes))
        hooks = {"parse_int": number_of, "parse_float": number_of, "parse_constant": no_number}
        return json.loads(text, **hooks)
    except (ValueError, RecursionError):
        raise Refused(24) from None


def leaps_of(leaps: list[dict]) -> Leaps:
    """The leaps of a list (docs/SCENARIOS.md, The plant line, Leap)."""
    return tuple((day_of_text(leap["day"]), Mark(leap["kind"])) for leap in leaps)


def generator_of(value: dict) -> Generator:
    """A generator (docs/SCENARIOS.md, The plant line, Generator)."""
    changes = tuple(
        (second_of_text(change["at"]), Zone(change["local"], change["dst"]))
        for change in value.get("changes", [])
    )
    return Generator(Zone(value["local"], value.get("dst", False)), changes)


def reader_of(value: dict) -> ReaderSetup:
    """A reader (docs/SCENARIOS.md, The plant line, Reader)."""
    table = value.get("table")
    table = Table(day_of_text(table["until"]), leaps_of(table["leaps"])) if table else None
    return ReaderSetup(ReaderRules(value["lock_after"], value["holdover"]), table)


def names_of(values: list[dict]) -> list[str]:
    """The names of readers or devices, else refuses by 28 (docs/SCENARIOS.md, The plant line)."""
    names = [value["name"] for value in values]
    refuse_if(28, not 1 <= len(names) <= 16 or len(set(names)) < len(names))
    refuse_if(28, not all(re.fullmatch("[a-z0-9_-]{1,16}", name) for name in names))
    return names


def clocks_of(value: dict) -> tuple[Timeline, Rules, tuple[Generator, ...]]:
    """What the line says of true time and of generators (docs/FAULTS.md, Refusals of a scenario, 4)."""
    timeline = Timeline(second_of_text(value["start"]), leaps_of(value["leaps"]))
    generators = tuple(generator_of(generator) for generator in value["generators"])
    check_timeline(timeline)
    for generator in generators:
        check_generator(generator)
    rules = Rules(Parity(value["parity"]), Sense(value["sense"]), value["sbs"] == "check")
    return timeline, rules, generators


def version_of(value: object) -> int:
    """The version of a plant line, else refuses by 25 (docs/FAULTS.md, Refusals of a scenario, 2)."""
    refuse_if(25, not isinstance(value, dict) or type(value.get("version")) is not int)
    return value["version"]


def plant_of(value: object) -> Plant:
    """What a plant line says (docs/FAULTS.md, Refusals of a scenario, 2 to 4)."""
    refuse_if(27, version_of(value) not in PLANTS)
    check(PLANTS[value["version"]], value)
    names = names_of(value["readers"])
    timeline, rules, generators = clocks_of(value)
    readers = dict(zip(names, map(reader_of, value["readers"])))
    for reader in readers.values():
        if reader.table:
            check_table(reader.table)
    return Plant(timeline, rules, generators, readers)


def event_by(events: dict[str, dict[str, Form]], value: object, names: Collection[str]) -> Event:
    """What the line of one of these events says, or of a fault (docs/FAULTS.md, Refusals of a scenario, 3)."""
    refuse_if(25, not isinstance(value, dict))
    do, kind = str(value.get("do")), str(value.get("kind"))
    refuse_if(25, do not in events and (do != "fault" or kind not in FAULTS))
    further = events[do] if do in events else {"g": G, "kind": NAME, **FAULTS[kind]}
    check(keys({"do": NAME, **further}), value)
    refuse_if(19, "r" in value and value["r"] not in names)
    return value


def event_of(value: object, readers: Collection[str]) -> Event:
    """What the line of an event says (docs/SCENARIOS.md, Events)."""
    return event_by(EVENTS, value, readers)
