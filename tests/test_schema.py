#!/usr/bin/env python3
"""Tests of docs/scenario.schema.json by the validator of Python's jsonschema: the lines of every case
and example, the limits that docs/SCENARIOS.md has, and lines that are changed at one place, of which
the program that was built says if they are refused."""
import json
import re
import unittest
from collections.abc import Callable, Iterator
from pathlib import Path

from case_files import NOTHING, ROOT, all_cases, answer
from model.scenario import play

try:
    from jsonschema import Draft202012Validator
except ImportError:
    Draft202012Validator = None

Judge = Callable[[list[object]], "int | None"]

SCHEMA = json.loads((ROOT / "docs/scenario.schema.json").read_text())

# The refused lines of cases that a schema has to accept, by what it cannot say.
UNSAID = {
    "how a number is written": {
        "event_minus_zero", "event_number_with_a_point", "plant_version_is_no_whole_number",
    },
    "that a second or a day agrees with another one": {
        "plant_start_past_a_day_of_common_length", "plant_changes_out_of_order",
        "table_with_a_leap_after_its_end",
    },
    "that two items of a list have the same name or day": {
        "plant_leap_twice", "reader_name_twice", "table_with_a_leap_twice",
        "devices_name_twice", "devices_table_twice", "devices_table_before_drift",
    },
    "what other lines say, and how far the plant has come": {
        "tick_of_an_unknown_reader", "event_reader_before_replay", "step_of_generator_3",
        "ports_before_a_refusal", "skipped_lines_count", "replay_of_a_future_edge", "end_of_the_years",
        "flatten_up_to_a_refusal", "blame_up_to_a_refusal", "blame_to_the_end_of_years", "blame_devices_up_to_a_refusal",
        "flatten_devices_up_to_a_refusal", "flatten_devices_to_the_end_of_years",
        "events_at_their_limits", "seconds_at_their_limit",
        *(f"devices_{event}_of_generator_3" for event in ("fault", "repair", "pull", "plug", "late_event", "pulse")),
        *(f"devices_{event}_of_an_unknown_device" for event in ("pull", "plug", "late_event", "tick", "restart", "stamp")),
        "devices_pulse_on_an_unknown_device", "devices_pull_device_before_generator",
        "devices_stamp_before_start", "devices_stamp_before_anything", "devices_stamp_device_before_start",
        "devices_refused_behind_what_was_told", "devices_end_of_the_years",
        "devices_up_to_the_end_of_the_years", "devices_parts_of_the_last_second",
    },
    "which events a version has": {
        *(f"devices_have_no_{event}" for event in ("step", "carry", "damage", "replay", "raw")),
        *(f"readers_have_no_{event}" for event in ("pass", "pull", "plug", "late", "pulse", "stamp")),
    },
    "how much a counter goes wrong in a holdover": {"devices_holdover_too_long"},
    "the first line alone is of a plant": {
        "plant_that_is_an_event", "event_that_is_a_plant", "devices_plant_line_twice",
    },
}
UNSAID_CASES = set().union(*UNSAID.values())

# Refusals for which a schema may accept a line: those of the reasons above. Of a changed line no number
# is written with a point.
UNSAID_NUMBERS = {11, 13, 16, 19, 20, 21, 22, 28, 33, 34, 35, 37}

# Refusals of a line that has no JSON value of its own.
NO_VALUE = {23, 24, 29, 30}

# Keywords of which a validator has no function of their own.
NOTES = {"$schema", "$defs", "title", "description", "patternErrorMessage", "then", "else"}


def setUpModule() -> None:
    if Draft202012Validator is None:
        print("skipped: the schema of a scenario; Debian's package python3-jsonschema is missing")
        raise unittest.SkipTest("no jsonschema")


def accepts(value: object) -> bool:
    return Draft202012Validator(SCHEMA).is_valid(value)


def parts_of(schema: object) -> Iterator[dict]:
    """A schema and each schema in it."""
    if isinstance(schema, list):
        for part in schema:
            yield from parts_of(part)
    elif isinstance(schema, dict):
        yield schema
        for key, value in schema.items():
            yield from parts_of(list(value.values()) if key in ("properties", "$defs") else value)


def is_same(value: object, other: object) -> bool:
    return value == other and isinstance(value, bool) == isinstance(other, bool)


# ---- lines


def lines_of(path: Path) -> Iterator[tuple[int, bytes]]:
    """The lines of a scenario that are not skipped, with their numbers from 1."""
    for number, line in enumerate(path.read_bytes().split(b"\n"), 1):
        if line.strip(b" \t\r"):
            yield number, line


def refusal_in(log: str) -> tuple[int, int] | None:
    """The line and the number of a refusal, if a log ends in one."""
    match = re.search(r"^refused: line (\d+): (\d+) \w+\n\Z", log, re.M)
    return (int(match[1]), int(match[2])) if match else None


def plant(version: int = 3, **keys: object) -> dict:
    line = {
        "version": version, "start": "2016-06-15T12:00:00Z", "leaps": [], "parity": "even",
        "sense": "add", "sbs": "check", "generators": [{"local": 0}] * 3,
        "readers": [{"name": "relay", "lock_after": 2, "holdover": 3600}],
    }
    return {**line, **keys}


LEAPS = [{"day": "2016-12-31", "kind": "insert"}, {"day": "2029-06-30", "kind": "delete"}]
TABLE = {"until": "2029-06-30", "leaps": LEAPS}
ZONES = {"local": 2, "dst": True, "changes": [{"at": "2016-10-30T01:00:00Z", "local": 2, "dst": False}]}
RICH = plant(
    leaps=LEAPS, generators=[ZONES] * 5,
    readers=[{"name": "relay", "lock_after": 1, "holdover": 0, "table": TABLE}],
)
EVENTS: list[dict] = [
    {"do": "step", "g": 0},
    {"do": "tick", "r": "relay"},
    {"do": "carry", "g": 0, "r": "relay"},
    {"do": "damage", "g": 0, "r": "relay", "at": 5, "width": 2000},
    {"do": "replay", "g": 0, "r": "relay", "edge": 0},
    {"do": "raw", "g": 0, "r": "relay", "widths": [2000, 5000]},
    *({"do": "fault", "g": 0, "kind": kind} for kind in ("silent", "stuck", "no_pending")),
    {"do": "fault", "g": 0, "kind": "skew", "by": 1},
    {"do": "fault", "g": 0, "kind": "false_pending", "leap": "insert"},
    {"do": "fault", "g": 0, "kind": "quality", "q": 10},
    {"do": "fault", "g": 0, "kind": "wrong_offset", "by": 1},
    {"do": "repair", "g": 0},
    {"do": "restart", "r": "relay"},
    {"do": "seconds", "n": 1},
]

DEVICE = {
    "name": "relay", "lock_after": 2, "holdover": 3600, "table": TABLE, "drift": 20, "gain": -20,
    "counter": 7, "late": [0, 350, 700], "poll": 95000,
}


def station(**keys: object) -> dict:
    """A plant line with one device, which has these values in place of those."""
    line = {key: value for key, value in plant(4, leaps=LEAPS).items() if key != "readers"}
    return {**line, "devices": [{**DEVICE, **keys}]}


STATION_EVENTS: list[dict] = [
    {"do": "pass", "us": 5},
    {"do": "pull", "g": 0, "r": "relay"},
    {"do": "plug", "g": 0, "r": "relay"},
    {"do": "late", "g": 0, "r": "relay", "us": 350},
    {"do": "pulse", "g": 0, "r": "relay", "width": 2000},
    {"do": "stamp", "r": "relay", "ago": 0},
    *(event for event in EVENTS if event["do"] in ("tick", "fault", "repair", "restart", "seconds")),
]
STRANGE = [
    None, True, 0, 1, -1, 4, 5, 16, 32, 62, 100, 256, 2**32, 2**64, "", "x", "skew", "quality", "Relay",
    "2016-12-31", "2016-12-30", "2017-02-29", "2016-02-29", "2099-12-31", "2000-01-01", "2016-06-31",
    "2016-06-15T12:00:60Z", "2016-06-30T23:59:60Z", "2016-06-15T24:00:00Z", "2016-06-15T12:01:00Z",
    "2016-06-15T12:01:30Z", "2016-06-15t12:00:00Z", "2099-12-31T00:00:00Z", [], [0], {}, {"day": "x"},
]


def changed(value: object) -> Iterator[object]:
    """Each value that differs from this one at one place."""
    if isinstance(value, dict):
        yield {**value, "more": 0}
        for key, item in value.items():
            yield {name: other for name, other in value.items() if name != key}
            yield from ({**value, key: other} for other in changed(item))
    elif isinstance(value, list) and value:
        yield value[1:]
        yield value + value[:1]
        yield from ([other, *value[1:]] for other in changed(value[0]))
    yield from (other for other in STRANGE if not is_same(other, value))


def refused(values: list[object]) -> int | None:
    """The number with which the program refuses the last of these lines, none if it takes them all."""
    text = "".join(f"{json.dumps(value)}\n" for value in values)
    found = refusal_in(answer(given=text.encode())[1].decode())
    if found and found[0] != len(values):
        raise AssertionError(f"line {found[0]} of {text}")
    return found[1] if found else None


def refused_by_model(values: list[object]) -> int | None:
    """The same of tests/model."""
    text = "".join(f"{json.dumps(value)}\n" for value in values)
    found = refusal_in(play(text.encode()).stdout.decode())
    return found[1] if found else None


class Schema(unittest.TestCase):
    def test_cases_and_examples(self) -> None:
        judged = 0
        for case in all_cases():
            path = case.scenario or case.input
            if path != NOTHING and case.words[:1] != [b"judge"]:
                judged += self.judge(ROOT / path, refusal_in(case.stdout.decode()))
        self.assertGreater(judged, 500)

    def judge(self, path: Path, refusal: tuple[int, int] | None) -> int:
        """Compares each line of a scenario that the program read, and says how many they are."""
        last, reason = refusal or (None, None)
        judged = 0
        for number, line in lines_of(path):
            if number == last and reason in NO_VALUE:
                break
            is_accepted = accepts(json.loads(line))
            wanted = number != last or path.parent.name in UNSAID_CASES
            self.assertEqual(is_accepted, wanted, f"{path}, line {number}: {line[:500]!r}")
            judged += 1
            if number == last:
                break
        return judged

    def test_limits_of_the_page(self) -> None:
        reader, event = RICH["readers"][0], {event["do"]: event for event in EVENTS + STATION_EVENTS}
        for line, key, least, most in (
            (reader, "lock_after", 1, 60), (reader, "holdover", 0, 1_000_000), (ZONES, "local", -31, 31),
            (event["step"], "g", 0, 4), (event["seconds"], "n", 0, 100_000),
            (event["damage"], "at", 0, 99), (event["damage"], "width", 0, 2**32 - 1),
            (event["replay"], "edge", 0, 2**64 - 1),
            (EVENTS[9], "by", -2**31, 2**31 - 1), (EVENTS[11], "q", 0, 15), (EVENTS[12], "by", -62, 62),
            (DEVICE, "drift", 0, 100), (DEVICE, "gain", -1000, 1000), (DEVICE, "counter", 0, 2**32 - 1),
            (DEVICE, "poll", 0, 1_740_000_000), (event["pass"], "us", 1, 1_000_000_000),
            (event["late"], "us", 0, 1999), (event["pulse"], "width", 0, 2**32 - 1),
            (event["stamp"], "ago", 0, 4_000_000),
        ):
            for number in (least - 1, least, most, most + 1):
                value = {**line, key: number}
                if line is reader:
                    value = plant(readers=[value])
                elif line is ZONES:
                    value = plant(generators=[value] * 3)
                elif line is DEVICE:
                    value = station(**value)
                with self.subTest(key, number=number):
                    self.assertEqual(accepts(value), least <= number <= most)

    def test_lengths_of_the_page(self) -> None:
        leap, change, reader = LEAPS[0], ZONES["changes"][0], plant()["readers"][0]

        def with_table(length: int) -> dict:
            return plant(readers=[{**reader, "table": {**TABLE, "leaps": [leap] * length}}])

        for most, line in (
            (1200, lambda n: plant(leaps=[leap] * n)),
            (400, lambda n: plant(generators=[{"local": 0, "changes": [change] * n}] * 3)),
            (64, with_table),
            (16, lambda n: plant(readers=[reader] * n)),
            (16, lambda n: plant(readers=[{**reader, "name": "r" * n}])),
            (1000, lambda n: {**EVENTS[5], "widths": [2000] * n}),
        ):
            self.assertTrue(accepts(line(most)), most)
            self.assertFalse(accepts(line(most + 1)), most + 1)

    def test_as_many_lines_as_generators(self) -> None:
        for count in (3, 5):
            generators = {"generators": [{"local": 0}] * count}
            for lines in range(7):
                self.assertEqual(accepts({**station(late=[1999] * lines), **generators}), lines == count)
        self.assertFalse(accepts(station(late=[2000, 0, 0])))

    def test_versions(self) -> None:
        table = {"readers": [{**plant()["readers"][0], "table": TABLE}]}
        five = {"generators": [{"local": 0}] * 5}
        for keys, versions in (({}, {1, 2, 3}), (table, {2, 3}), (five, {3})):
            for version in range(6):
                self.assertEqual(accepts(plant(version, **keys)), version in versions)
        for version in range(6):
            self.assertEqual(accepts({**station(), "version": version}), version == 4)
            self.assertFalse(accepts({**plant(version), **station(), "version": version}))

    def test_each_key_has_a_description(self) -> None:
        for part in parts_of(SCHEMA):
            for name, item in part.get("properties", {}).items():
                if part.get("additionalProperties") is False and name not in ("do", "kind"):
                    with self.subTest(name):
                        defined = SCHEMA["$defs"].get(item.get("$ref", "").removeprefix("#/$defs/"), {})
                        self.assertIn("description", {**defined, **item})

    def test_keywords(self) -> None:
        """A validator passes over a keyword that it does not know."""
        Draft202012Validator.check_schema(SCHEMA)
        known = {*Draft202012Validator.VALIDATORS, *NOTES}
        for part in parts_of(SCHEMA):
            self.assertLessEqual(part.keys(), known)

    def test_changed_lines(self) -> None:
        self.compare_changed([RICH, plant(1), plant(2)], EVENTS, refused)

    def test_changed_lines_of_devices(self) -> None:
        """What tests/model refuses."""
        self.compare_changed([station()], STATION_EVENTS, refused_by_model)

    def compare_changed(self, plants: list[dict], events: list[dict], refused: Judge) -> None:
        counts = {True: 0, False: 0}
        for first, lines in (([], plants), (plants[:1], events)):
            for value in (other for line in lines for other in [line, *changed(line)]):
                number, is_accepted = refused([*first, value]), accepts(value)
                if is_accepted:
                    self.assertIn(number, {None, *UNSAID_NUMBERS}, json.dumps(value))
                elif first and isinstance(value, dict) and "do" not in value:
                    self.assertEqual(number, 25)
                else:
                    self.assertIsNotNone(number, json.dumps(value))
                counts[is_accepted] += 1
        self.assertGreater(min(counts.values()), 50)


if __name__ == "__main__":
    unittest.main()
