"""Lines of a scenario: events and plants, what is blank and what is too long."""

import json
import re
from collections.abc import Iterator
from random import Random

from model import scenario
from model.meaning import Event, Plant, event_of, plant_of, value_of_line
from random_scenarios import NUMBERS, READERS, changed_line, random_event

from . import values as v
from .antt import Antt, Fact, antt, equal, question, record, some

Pairs = Iterator[tuple]
SPACES = ((",", ":"), (", ", ": "), (" ,\t", " :\r"))
MADE_LINES = (
    b"", b"null", b"[]", b'{"do":1}', b'{"do":"seconds","n":1e0}', b'{"do":"step","g":+1}', b'{"do":"step","g":01}',
    b'{"do":"step","g":1,"g":2}', b'{"do":"tick","r":"\\ud800"}', b'{"do":"tick","r":"\\u0072\\u0031"}',
    b'\xef\xbb\xbf{"do":"tick","r":"r1"}', b'\xc2\xa0{"do":"tick","r":"r1"}', b'\x0b{"do":"tick","r":"r1"}',
    *(b"[" * count + b"]" * count for count in (126, 127, 128)),
)  # fmt: skip


def line_of(value: dict) -> bytes:
    return json.dumps(value, separators=SPACES[0]).encode()


def random_line(random: Random) -> bytes:
    """The bytes of an event line, its keys in any order, right or with something wrong."""
    event = random_event(random, 3, [*READERS, *READERS, "r2"])
    event = random.choice((*[event] * 9, {"do": "seconds", "n": 1}))
    numbers = [key for key, value in event.items() if isinstance(value, int)]
    if numbers and random.random() < 0.3:
        event[random.choice(numbers)] = random.choice(NUMBERS)
    keys = dict(random.sample(list(event.items()), len(event)))
    line = json.dumps(keys, separators=random.choice(SPACES)).encode()
    return changed_line(random, line) if random.random() < 0.6 else line


def is_cheap(line: bytes) -> bool:
    """Whether the checker can compute what a line means: it writes out a number of ten to a power."""
    return len(line) < 2000 and not re.search(rb"[eE][+-]?\d{4}", line)


def command(event: Event) -> Antt:
    said = f"Seconds {event['n']}" if event["do"] == "seconds" else f"Event {v.event(event, READERS)}"
    return Antt(f"(Command.{said})")


@question("model", "scenario_line.command_in_line")
def commands(random: Random) -> Pairs:
    lines = (random_line(random) for _ in range(300))
    for line in (*MADE_LINES, *filter(is_cheap, lines)):
        meant = v.outcome(lambda line: event_of(value_of_line(line), READERS), line)
        yield (list(READERS), line), v.result(meant, v.refusal, command)


@question("model", "report_run.is_blank")
def blanks() -> Pairs:
    """Which one byte is a blank line: what the model skips."""
    for byte in range(256):
        _, refused = next(scenario.lines(bytes([byte])))
        yield ([byte],), refused.number == 29 and byte != 10


@question("model", "irig_scene.meaning_of")
def long_lines() -> Iterator[Fact]:
    """A blank line of as many bytes as are read, and one of more, which is refused all the same."""
    for count in (65_536, 65_537):
        number, refused = next(scenario.lines(b" " * count))
        right, wrong = (some(record(line=at, refusal=v.refusal(refused))) for at in (number, 9))
        yield equal(f"(meaning_of (replicate {count} 32)).refused", right, wrong)


# ---- plant lines

LEAP, LATER = {"day": "2000-01-31", "kind": "insert"}, {"day": "2000-02-29", "kind": "delete"}
CHANGES = [{"at": f"2000-01-02T00:0{minute}:00Z", "local": 31, "dst": True} for minute in (0, 1)]
READER, TABLE = {"name": "r1", "lock_after": 60, "holdover": 1_000_000}, {"until": "2000-01-31", "leaps": [LEAP]}
# A plant of the first minute, as its texts are soon found.
PLANT = {
    "version": 3, "start": "2000-01-02T00:00:01Z", "leaps": [], "parity": "odd", "sense": "add", "sbs": "check",
    "generators": [{"local": -31, "dst": True}, {"local": 0}, {"local": 31, "changes": CHANGES}],
    "readers": [READER, {"name": "a_b", "lock_after": 1, "holdover": 0, "table": TABLE}],
}  # fmt: skip
# What may stand in the place of one of its values, right or wrong.
OTHERS = [
    {}, {"x": 0}, {"version": 1}, {"version": 4}, {"version": "3"}, {"sbs": "Check"}, {"start": 1}, {"leaps": None},
    {"parity": "even", "sense": "subtract", "sbs": "ignore"}, {"leaps": [LATER, LEAP]}, {"leaps": [LEAP, LEAP]},
    {"leaps": [LEAP | {"day": "2000-01-06"}]}, {"generators": [{"local": 0}] * 5}, {"generators": [{"local": 0}] * 4},
    {"generators": [{}] * 3}, {"generators": [{"local": 0, "x": 0}] * 3}, {"generators": [{"local": 32}] * 3},
    {"generators": [{"local": -128}] * 3}, {"generators": [{"local": 128}] * 3},
    {"generators": [{"local": 0, "changes": CHANGES[::-1]}, {"local": 0}, {"local": 0}]}, {"readers": []},
    {"readers": [{}]}, {"readers": [READER] * 2}, {"readers": [READER | {"lock_after": 61}]},
    {"readers": [READER | {"holdover": -1}]}, *({"readers": [READER | {"name": name}]} for name in ("R", "", "a" * 17)),
    {"readers": [READER | {"table": TABLE | {"until": "2000-01-30"}}]},
    {"readers": [READER | {"table": TABLE | {"leaps": [LEAP, LEAP]}}]},
]  # fmt: skip


def plan_of(plant: Plant) -> Antt:
    return record(setup=v.setup(plant), names=list(plant.readers))


def plan_in(plant: dict, wrong: Antt | None = None) -> Fact:
    line = line_of(plant)
    meant = v.outcome(lambda line: plant_of(value_of_line(line)), line)
    return equal(f"plan_in_line {antt(line)}", v.result(meant, v.refusal, plan_of), wrong)


@question("model", "scenario_line.plan_in_line")
def plans(random: Random) -> Iterator[Fact]:
    """Plants with one value of those: a time that is none would be looked for in all years."""
    return (plan_in(PLANT | other, Antt("Err Refusal.TooLong")) for other in random.sample(OTHERS, 12))


@question("model", "scenario_line.plan_in_line")
def long_tables() -> Iterator[Fact]:
    """A table of 1,201 leaps is too long, and its value is none that is out of range."""
    table = TABLE | {"leaps": [LEAP] * 1201}
    yield plan_in(PLANT | {"readers": [READER | {"table": table}]})
