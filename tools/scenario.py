#!/usr/bin/env python3
"""Prints a scenario of irig, settings first, then what happens, in order.

    tools/scenario.py --reader relay,5,10 seconds:8 dark:3600 seconds:8

What builds it is `irig.scenarios` of the package in python/, which builds more than this does."""
from __future__ import annotations

import argparse
from typing import Dict, List, Union

from parts.command import Command, fail, put
from parts.plant import count, leap, one_of, reader

from irig.scenarios import Leap, Reader, Scenario

# How many parts stand behind a word's name, at least and at most; a time has three.
PARTS = {"seconds": (1, 1), "until": (3, 3), "dark": (1, 6), "lose": (1, 3), "fault": (2, 3),
         "repair": (1, 1), "restart": (1, 1)}
# The kinds of a fault, each with the key of its value, if it has one.
KINDS = {"silent": "", "stuck": "", "skew": "by", "no_pending": "", "false_pending": "leap",
         "quality": "q", "wrong_offset": "by"}


def _value(kind: str, given: List[str]) -> Dict[str, Union[int, str]]:
    """The value of a fault, by its key."""
    key = KINDS[one_of(kind, KINDS)]
    if len(given) != bool(key):
        raise ValueError(f"{kind} takes {'a' if key else 'no'} value")
    if key == "leap":
        return {key: one_of(given[0], ("insert", "delete"))}
    is_minus = key == "by" and given[0].startswith("-")
    return {key: -count(given[0][1:]) if is_minus else count(given[0])} if key else {}


def _step(scenario: Scenario, word: str) -> None:
    """Does what a word of the command line says."""
    name, *parts = word.split(":")
    least, most = PARTS[one_of(name, PARTS)]
    if not least <= len(parts) <= most:
        missing = "missing" if len(parts) < least else "too much"
        raise ValueError(f"a part is {missing}; see scenario.py --help")

    def numbers(texts: List[str]) -> List[int]:
        return [int(one_of(text, range(scenario.generators))) for text in texts]

    if name in ("seconds", "dark", "lose"):
        scenario.timeline.second(scenario.edge + count(parts[0]))  # a ValueError behind the last year
    if name == "until":
        scenario.until(":".join(parts))
    elif name == "seconds":
        scenario.seconds(count(parts[0]))
    elif name == "dark":
        scenario.dark(count(parts[0]), numbers(parts[1:]) or None)
    elif name == "lose":
        seconds, lost, deaf = (*parts, "", "")[:3]
        generators = numbers(lost.split(",")) if lost else None
        readers = [one_of(reader, scenario.readers) for reader in deaf.split(",")] if deaf else None
        scenario.lose(count(seconds), generators, readers)
    elif name == "fault":
        generator, kind, *given = parts
        scenario.fault(numbers([generator])[0], kind, **_value(kind, given))
    elif name == "repair":
        scenario.repair(numbers(parts)[0])
    else:
        scenario.restart(one_of(parts[0], scenario.readers))


STEPS = """
what happens, in order:
  seconds:N              N whole seconds
  until:TIME             whole seconds up to the edge of that UTC second
  dark:N[:G:G..]         N seconds in which all generators, or these, are silent
  lose:N:G,G[:NAME,..]   N seconds in which no frame of these generators comes to these readers
  fault:G:KIND[:VALUE]   a fault of generator G from now on, as fault:1:skew:-5
  repair:G               generator G has no fault any more
  restart:NAME           the reader forgets where it stood"""


def _arguments() -> argparse.Namespace:
    example = "tools/scenario.py --reader relay,5,10 seconds:8 dark:3600 seconds:8"
    parser = Command("scenario.py", example, f"Prints a scenario of irig.\n{STEPS}")
    parser.add_argument("--start", default="2016-06-15T12:00:00Z", help="the UTC second of edge 0")
    parser.add_argument("--generators", type=int, choices=(3, 5), default=3)
    parser.add_argument("--leap", action="append", default=[], metavar="DAY[:KIND]", type=leap,
                        help="a leap second at the end of a day, insert or delete")
    parser.add_argument("--reader", action="append", metavar="NAME[,LOCK_AFTER[,HOLDOVER]]", type=reader,
                        help="a reader; without one it is relay,2,3600")
    parser.add_argument("steps", nargs="*", metavar="STEP")
    return parser.parse_args()


def main() -> None:
    words, word = _arguments(), ""
    try:
        readers = words.reader or [Reader("relay")]
        scenario = Scenario(words.start, readers, words.generators, words.leap)
        for word in words.steps:
            _step(scenario, word)
    except ValueError as error:
        fail("scenario.py", f"{word}: {error}" if word else error)
    put("scenario.py", scenario.text())


if __name__ == "__main__":
    main()
