"""Random plants, events and lines of scenarios: tests/fuzz has the program run them, and tests/facts has
definitions compute what they come to."""
from __future__ import annotations

import json
import re
from datetime import date, timedelta
from random import Random

EPOCH = date(2000, 1, 1)
LAST_DAY = 36_523
MONTH_ENDS = [day for day in range(1, LAST_DAY + 1) if (EPOCH + timedelta(day + 1)).day == 1]
CLOCKS = ("23:59:55", "23:59:56", "23:59:57", "23:59:50", "23:59:00", "23:58:58", "23:58:55", "12:00:00", "00:00:00")
READERS = ("r1", "west-2", "recorder")
WIDTHS = (0, 2000, 5000, 8000)

NUMBERS = [
    0, 1, 2, 3, 4, 5, 15, 16, 17, 31, 32, 59, 60, 61, 62, 63, 64, 65, 99, 100, 127, 128, 255, 256,
    399, 400, 499, 500, 999, 1000, 1001, 1999, 3500, 6500, 9500, 10_000, 99_999, 100_000, 100_001,
    1_000_000, 1_000_001, 2**31, 2**32 - 1, 2**32, 2**63, 2**64 - 1, 2**64, -1, -2, -31, -32, -62,
    -63, -128, -129, -2**31, -2**63, -2**63 - 1,
]
WORDS = [
    "version", "start", "leaps", "parity", "sense", "sbs", "generators", "readers", "name", "local",
    "dst", "changes", "at", "lock_after", "holdover", "table", "until", "day", "kind", "do", "g",
    "r", "edge", "width", "widths", "n", "by", "q", "even", "odd", "add", "subtract", "check",
    "ignore", "insert", "delete", "step", "tick", "carry", "damage", "replay", "raw", "fault",
    "repair", "restart", "seconds", "silent", "stuck", "skew", "quality", "wrong_offset",
    "no_pending", "false_pending", "devices", "drift", "gain", "counter", "late", "poll", "pass", "us", "pull",
    "plug", "pulse", "stamp", "ago", "relay", "recorder", "r1", "", "\u00e9", "Relay", "2016-12-31", "2017-01-31",
    "2016-12-30", "2000-01-02", "2099-12-30", "2099-12-31", "2016-12-31T23:59:59Z",
    "2016-12-31T23:59:60Z", "2099-12-30T23:59:58Z", "2000-01-02T00:00:00Z", "2015-06-30T23:59:50Z",
]
TOKENS = [
    b"{", b"}", b"[", b"]", b",", b":", b'"', b"\\", b"\\u0000", b"\\ud800", b"null", b"true",
    b"false", b"-0", b"1e1", b"1.0", b"1E400", b" ", b"\t", b"\r", b"\n", b"\n\n", b"\0", b"\xff",
    b"\xef\xbb\xbf", b"[" * 126 + b"]" * 126, b"[" * 127 + b"]" * 127, b"[" * 128 + b"]" * 128,
    b'{"a":' * 126 + b"0" + b"}" * 126, b" " * 65_536, b" " * 65_537,
]
LENGTHS = [0, 1, 2, 3, 5, 16, 17, 64, 65, 400, 401, 1000, 1001]


# ---- plants


def text_of_day(day: int) -> str:
    return str(EPOCH + timedelta(day))


def random_leaps(chance: Random, near: int, count: int) -> list[dict]:
    """Leaps in any order, most of them within two months of a day."""
    close = [day for day in MONTH_ENDS if abs(day - near) < 62]
    days = {chance.choice(close if chance.random() < 0.8 else MONTH_ENDS) for _ in range(count)}
    kinds = [chance.choice(("insert", "delete")) for _ in days]
    return [{"day": text_of_day(day), "kind": kind} for day, kind in zip(chance.sample(sorted(days), len(days)), kinds)]


def random_zone(chance: Random) -> dict:
    return {"local": chance.choice((0, 11, -10, 31, -31, chance.randint(-31, 31))), "dst": chance.random() < 0.5}


def random_changes(chance: Random, day: int) -> list[dict]:
    """Changes of zone about the end of a day or its noon, in order."""
    about = chance.choice((1440, 721))
    minutes = sorted(chance.sample(range(about - 3, about + 8), chance.choice((0, 0, 1, 2))))
    times = [divmod(1440 * day + minute, 1440) for minute in minutes]
    return [
        {"at": f"{text_of_day(at)}T{minute // 60:02}:{minute % 60:02}:00Z", **random_zone(chance)}
        for at, minute in times if at <= LAST_DAY
    ]  # fmt: skip


def random_generators(chance: Random, day: int) -> list[dict]:
    """Three or five, of two zones, some of which change."""
    zones, changes = ({"local": 0}, random_zone(chance)), random_changes(chance, day)
    others = ({}, {"changes": changes} if changes else {})
    return [chance.choice(zones) | chance.choice(others) for _ in range(chance.choice((3, 3, 5)))]


def random_reader(chance: Random, name: str, day: int, leaps: list[dict]) -> dict:
    """A reader, often with a table, in which a leap may be missing."""
    reader = {"name": name, "lock_after": chance.choice((1, 1, 2, 3, 4)), "holdover": chance.choice((0, 1, 2, 9, 999))}
    until = text_of_day(chance.choice((day, LAST_DAY)))
    known = [leap for leap in leaps if leap["day"] <= until][chance.random() < 0.25 :]
    return reader | ({"table": {"until": until, "leaps": known}} if chance.random() < 0.6 else {})


def random_plant(chance: Random, ends: list[int] = MONTH_ENDS) -> dict:
    """A plant that often starts just before the end of one of these months."""
    day = chance.choice(ends) if chance.random() < 0.75 else chance.randint(ends[0] - 29, ends[-1] + 30)
    leaps, generators = random_leaps(chance, day, chance.choice((0, 1, 2, 4))), random_generators(chance, day)
    readers = [random_reader(chance, name, day, leaps) for name in READERS[: chance.choice((1, 1, 2, 3))]]
    least = 3 if len(generators) == 5 else 2 if any("table" in reader for reader in readers) else 1
    return {
        "version": chance.randint(least, 3), "start": f"{text_of_day(day)}T{chance.choice(CLOCKS)}Z", "leaps": leaps,
        "parity": chance.choice(("even", "odd")), "sense": chance.choice(("add", "subtract")),
        "sbs": chance.choice(("check", "check", "ignore")), "generators": generators, "readers": readers,
    }  # fmt: skip


# ---- events


def random_fault(chance: Random) -> dict:
    """A fault of a generator, as its event has it."""
    return chance.choice((
        {"kind": "silent"}, {"kind": "stuck"}, {"kind": "skew", "by": chance.choice((-1, 1, chance.randint(-9, 70)))},
        {"kind": "quality", "q": chance.choice((9, 10, chance.randrange(16)))}, {"kind": "no_pending"},
        {"kind": "false_pending", "leap": chance.choice(("insert", "delete"))},
        {"kind": "wrong_offset", "by": chance.choice((-1, 1, chance.randint(-62, 62)))},
    ))  # fmt: skip


def random_event(chance: Random, generators: int, readers: list[str]) -> dict:
    """An event other than `seconds`, which a plant of these generators and readers seldom refuses."""
    g, r = {"g": chance.randrange(generators)}, {"r": chance.choice(readers)}
    widths = [chance.choice(WIDTHS) for _ in range(chance.choice((0, 1, 3, 32)))]
    return chance.choice((
        {"do": "fault", **g, **random_fault(chance)}, {"do": "fault", **g, **random_fault(chance)},
        {"do": "repair", **g}, {"do": "step", **g}, {"do": "carry", **g, **r}, {"do": "tick", **r},
        {"do": "restart", **r},
        {"do": "damage", **g, **r, "at": chance.randrange(100), "width": chance.choice(WIDTHS)},
        {"do": "replay", **g, **r, "edge": chance.choice((0, 0, 1, 2))}, {"do": "raw", **g, **r, "widths": widths},
    ))  # fmt: skip


# ---- changed lines


def any_value(chance: Random):
    """A value that some key takes, at a limit or beyond it."""
    return chance.choice(
        [
            chance.choice(NUMBERS), chance.choice(NUMBERS),
            chance.choice(WORDS), chance.choice(WORDS), None, True, 1.5, [], {},
            [chance.choice(NUMBERS)] * chance.choice(LENGTHS),
            {"day": "2016-12-31", "kind": "insert"}, {"until": "2017-06-30", "leaps": []},
        ]
    )  # fmt: skip


def places(value, found: list) -> list:
    """Every object and list within a value."""
    if isinstance(value, (dict, list)):
        found.append(value)
        for item in value.values() if isinstance(value, dict) else value:
            places(item, found)
    return found


def change_object(chance: Random, part: dict) -> None:
    keys = list(part)
    what = chance.randrange(4)
    if what == 0 and keys:
        del part[chance.choice(keys)]
    elif what == 1:
        part[chance.choice(WORDS)] = any_value(chance)
    elif keys:
        part[chance.choice(keys)] = any_value(chance)


def change_list(chance: Random, part: list) -> None:
    what = chance.randrange(5)
    if what == 0 and part:
        part[chance.randrange(len(part))] = any_value(chance)
    elif what == 1 and part:
        part *= 0 if len(part) > 1000 else chance.choice(LENGTHS)
    elif what == 2 and part:
        del part[chance.randrange(len(part))]
    elif what == 3:
        chance.shuffle(part)
    else:
        part.append(any_value(chance))


def change_value(chance: Random, line: bytes) -> bytes:
    """A line whose JSON has another key, value or length of a list."""
    try:
        value = json.loads(line)
    except (ValueError, RecursionError):
        return change_bytes(chance, line)
    found = places(value, [])
    if not found:
        return change_bytes(chance, line)
    part = chance.choice(found)
    (change_object if isinstance(part, dict) else change_list)(chance, part)
    return json.dumps(value, separators=(",", ":")).encode()


def change_token(chance: Random, line: bytes) -> bytes:
    """A line with one of its numbers or words replaced by another one, or with a token more."""
    found = list(re.finditer(rb'-?\d+|"[^"]*"', line))
    if not found or chance.random() < 0.3:
        at = chance.randrange(len(line) + 1)
        return line[:at] + chance.choice(TOKENS) + line[at:]
    token = chance.choice(found)
    is_word = token[0].startswith(b'"')
    by = f'"{chance.choice(WORDS)}"' if is_word else str(chance.choice(NUMBERS))
    return line[: token.start()] + by.encode() + line[token.end() :]


def change_bytes(chance: Random, line: bytes) -> bytes:
    at = chance.randrange(len(line) + 1)
    what = chance.randrange(3)
    more = bytes([chance.randrange(256)])
    return line[:at] + (b"" if what == 0 else more) + line[at + (what != 2) :]


def changed_line(chance: Random, line: bytes) -> bytes:
    """A line with one change, which often makes it one that is refused."""
    return chance.choice((change_value, change_value, change_token, change_bytes))(chance, line)
