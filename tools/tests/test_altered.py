#!/usr/bin/env python3
"""Altered disturbance records, and what tools/capture and irig blame have to say of each. Another
than the tool's maker wrote them, by IEEE C37.111-1999 and -2013; only the pulses of a frame are those
of `irig frame`. Verdicts were written before any was seen; of the wording, patterns have that of the
tool. Needs the libraries of `make -C c`."""
from __future__ import annotations

import datetime
import functools
import random
import re
import struct
import subprocess
import unittest
from dataclasses import dataclass
from pathlib import Path

from loading import ROOT, InAFolder

WIDTH_US = {"P": 8_000, "1": 5_000, "0": 2_000}
HOUR_US = 3_600_000_000
LEAP = "2016-12-31T23:59:"


@dataclass(frozen=True)
class Line:
    """A clock: how many seconds ahead, from which second of a record on, what is wrong with it."""

    ahead: int = 0
    ahead_from: int = 0
    options: tuple[str, ...] = ()
    inverted: bool = False
    dark_us: tuple[int, int] = (0, 0)
    ignores_leap: bool = False
    noise: bool = False
    delay_us: int = 0


GOOD, GPS = Line(), Line(ahead=18)


@dataclass(frozen=True)
class Record:
    """A record, and the expected verdict, as patterns of what is said and never said."""

    said: tuple[str, ...]
    lines: tuple[Line, ...] = (GOOD, GOOD, GOOD)
    blamed: tuple[str, ...] = ()
    never: tuple[str, ...] = ()
    status: int = 0
    scenario: bool = True
    first: str = "2025-03-11T14:22:07"
    skip_us: int = 400_000
    length_us: int = 5_000_000
    rate: int = 4_800
    late_us: int = 0
    stamp: str = ""
    zone: str = ""
    form: str = "BINARY"
    arguments: tuple[str, ...] = ()
    order: str = ""


def run(tool: str, *words: str, text: str = "") -> subprocess.CompletedProcess[str]:
    """What a tool of the package answers."""
    return subprocess.run([ROOT / tool, *words], input=text, capture_output=True, text=True)


@functools.cache
def frame(second: str, options: tuple[str, ...]) -> str:
    """The hundred symbols of a second."""
    return "".join(run("irig", "frame", second + "Z", *options).stdout.split())


def shown(line: Line, first: str, index: int) -> str:
    """What a clock shows INDEX seconds after FIRST; 2016 ends with 23:59:60."""
    begin = datetime.datetime.fromisoformat(first)
    to_leap = (datetime.datetime(2017, 1, 1) - begin).total_seconds()
    if index == to_leap and not line.ignores_leap:
        return "2016-12-31T23:59:60"
    after = 0 < to_leap < index and not line.ignores_leap
    ahead = line.ahead if index >= line.ahead_from else 0
    passed = datetime.timedelta(seconds=index - after + ahead)
    return (begin + passed).isoformat()


def pulses(line: Line, first: str, index: int) -> str:
    """The symbols that a clock sends then; it announces the leap second unless it ignores it."""
    second = shown(line, first, index)
    warned = ("--pending=insert",) if second.startswith(LEAP) and not line.ignores_leap else ()
    return frame(second, line.options + warned)


def levels(record: Record, line: Line) -> list[int]:
    """The level of a line at each sample."""
    dice = random.Random(37)
    found = []
    for sample in range(record.length_us * record.rate // 1_000_000):
        at_us = sample * 1_000_000 // record.rate
        index, into = divmod(record.skip_us + at_us - line.delay_us, 1_000_000)
        dark = line.dark_us[0] <= at_us < line.dark_us[1]
        width = WIDTH_US[pulses(line, record.first, index)[into // 10_000]]
        high = into % 10_000 < width and not dark
        found.append(dice.getrandbits(1) if line.noise else int(high != line.inverted))
    return found


def configuration(record: Record, samples: int) -> str:
    """The text of the .cfg; with a zone it is one of 2013."""
    count = len(record.lines)
    after = datetime.timedelta(microseconds=record.skip_us + record.late_us)
    moment = datetime.datetime.fromisoformat(record.first) + after
    stamp = record.stamp or moment.strftime("%d/%m/%Y,%H:%M:%S.%f")
    rows = ["BAY 7,DFR,2013" if record.zone else "BAY 7,DFR,1999", f"{count + 1},1A,{count}D",
            "1,IA,A,,A,0.01,0,0,-32767,32767,600,1,P"]
    rows += [f"{number},IRIG{number},,,0" for number in range(1, count + 1)]
    rows += ["60", "1", f"{record.rate},{samples}", stamp, stamp, record.form, "1"]
    rows += [record.zone, "0,0"] if record.zone else []
    return "".join(row + "\r\n" for row in rows)


def write(record: Record, path: Path) -> None:
    """Both files of a record."""
    rows = list(zip(*(levels(record, line) for line in record.lines)))
    path.write_text(configuration(record, len(rows)), encoding="ascii", newline="")
    with path.with_suffix(".dat").open("wb") as data:
        for number, row in enumerate(rows, 1):
            at_us = (number - 1) * 1_000_000 // record.rate
            word = sum(bit << place for place, bit in enumerate(row))
            text = ",".join(map(str, (number, at_us, 7, *row))) + "\r\n"
            numbers = struct.pack("<IIhH", number, at_us, 7, word)
            data.write(text.encode() if record.form == "ASCII" else numbers)


def verdict(record: Record, path: Path) -> tuple[int, str, str, str]:
    """Status, standard error and scenario of tools/capture, and what irig blame says of it."""
    write(record, path)
    names = [f"IRIG{place}" for place in range(1, len(record.lines) + 1)]
    channels = record.order or ",".join(names)
    got = run("tools/capture", str(path), "--channels", channels, *record.arguments)
    told = run("irig", "blame", "--recorded=" + channels, text=got.stdout)
    return got.returncode, got.stderr, got.stdout, told.stdout if got.stdout else ""


AGREES, DIFFERS, TOLD = r"stamp.* agrees", r"IRIG\d differs", r"IRIG\d of relay told another"
BY_ALL, BY_TWO = r"by 3 of 3 lines", r"by 2 of 3 lines"
ZERO, MOST = r"0\.000 s of the recording is ", r" differs from most ports by "
OWN = ("IRIG2" + MOST + r"\+18 s in 4 frames", r"stamp is 1\.000 s late by 2 of 3 lines")
ANOTHER, LEAP_US = r"IRIG2 of relay told another second, ", 1_250_000
IN_LEAP, SHORT_US = "31/12/2016,23:59:60.250000", 1_200_000
RECORDS = {
    "own record": Record(
        (*OWN, ZERO + r"2025-03-11T14:22:07\.400Z"), (GOOD, GPS, GOOD),
        (r"(?m)^2025-03-11T14:22:08Z to 2025-03-11T14:22:11Z.*" + ANOTHER
         + "18 s ahead, first 2025-03-11T14:22:26Z",),
        (r"IRIG[13] differs", r"IRIG[13] of relay told"), late_us=1_000_000),
    "two of three ahead": Record(
        ("IRIG2" + MOST + "-18 s in 4 frames", r"stamp is 18\.000 s early by 2 of 3 lines"),
        (GPS, GOOD, GPS), (ANOTHER + "18 s behind, first 2025-03-11T14:22:08Z",),
        (r"IRIG[13] differs",)),
    "one inverted": Record(
        (AGREES, BY_ALL, r"IRIG2.*inverted"), (GOOD, Line(inverted=True), GOOD),
        (r"IRIG2 of relay: 4 agreed",), (DIFFERS, TOLD)),
    "a minute late": Record(
        ("IRIG3" + MOST + "-1 min in 4 frames", AGREES), (GOOD, GOOD, Line(ahead=-60)),
        (r"IRIG3 of relay told another second, 1 min behind, first 2025-03-11T14:21:08Z",)),
    "dark second": Record(
        (AGREES, BY_ALL), (Line(dark_us=(2_000_000, 3_000_000)), GOOD, GOOD),
        (r"(?m)^2025-03-11T14:22:09Z.*IRIG1 of relay", r"IRIG1 of relay: 3 agreed",
         r"IRIG2 of relay: 5 agreed"), (DIFFERS, TOLD), length_us=6_000_000),
    "other parity": Record(
        (AGREES, BY_TWO, r"IRIG2 has no vote, as 4 of its 4 frames have .*Parity; --parity=odd"),
        (GOOD, Line(options=("--parity=odd",)), GOOD),
        (r"IRIG2 of relay: 0 agreed, 0 silent, 4 faulty", r"IRIG2 of relay .*Parity"), (DIFFERS,)),
    "local stamp, zone in the record": Record(
        (AGREES, BY_ALL), never=(r"stamp is", DIFFERS, TOLD), late_us=-5 * HOUR_US, zone="-5,-5"),
    "local stamp, zone not given": Record(
        (r"stamp is 5 h early by 3 of 3 lines", r"read as local time of UTC-5:00 it agrees"),
        late_us=-5 * HOUR_US),
    "local stamp, zone by option": Record(
        (AGREES,), late_us=-5 * HOUR_US, arguments=("--zone=-5",)),
    "leap second ignored": Record(
        ("IRIG3" + MOST + r"\+1 s in 3 frames", AGREES), (GOOD, GOOD, Line(ignores_leap=True)),
        (r"(?m)^" + LEAP + "60Z to 2017-01-01T00:00:01Z.*IRIG3 of relay told another second, "
         "1 s ahead, first 2017-01-01T00:00:00Z", r"(?m)^" + LEAP + "56Z to " + LEAP
         + "59Z.*IRIG3 of relay told another mark, first no-leap"),
        (r"IRIG[12] differs",), first=LEAP + "55", length_us=8_000_000),
    "other sense of offset": Record(
        ("IRIG2" + MOST + "-10 h", r"'subtract' it would be 2025-03-11T14:22:08Z", AGREES),
        (GOOD, Line(options=("--local=-10", "--sense=subtract")), GOOD),
        (ANOTHER + "10 h behind",)),
    "an offset in the leap second": Record(
        (r"offset of -1:00, read by 'add' as " + LEAP + "60Z; by 'subtract' it would be fault 9 Second60", AGREES),
        (GOOD, Line(options=("--local=2",)), GOOD), never=(DIFFERS, TOLD), first=LEAP + "59", skip_us=900_000),
    "short, stamp early": Record(
        (r"stamp is 3\.000 s early by 3 of 3 lines",),
        scenario=False, skip_us=450_000, length_us=SHORT_US, late_us=-3_000_000),
    "short, one ahead": Record(
        (AGREES, BY_TWO, r"IRIG2 differs by \+18 s"), (GOOD, GPS, GOOD),
        scenario=False, skip_us=450_000, length_us=SHORT_US),
    "short, the first zone and the last": Record(
        (AGREES, BY_ALL), (Line(options=("--local=-24",)), GOOD, Line(options=("--local=28",))),
        scenario=False, skip_us=450_000, length_us=SHORT_US),
    "short, the first day that is served": Record(
        (AGREES, BY_ALL), first="2000-01-02T00:00:05", scenario=False, skip_us=450_000, length_us=SHORT_US),
    "short, the last day that is served": Record(
        (AGREES, BY_ALL), first="2099-12-30T23:59:50", scenario=False, skip_us=450_000, length_us=SHORT_US),
    "short, a stamp that is no time": Record(
        (r"undecided: the record's stamp, 11/03/2025,14:22:60\.450000, is no time",), never=(AGREES,),
        status=2, scenario=False, skip_us=450_000, length_us=SHORT_US, stamp="11/03/2025,14:22:60.450000"),
    "short, no second begins": Record(
        (r"undecided",), never=(r"stamp is", r"agrees", r"--within"),
        status=2, scenario=False, skip_us=300_000, length_us=400_000),
    "noise": Record(
        (AGREES, BY_TWO, r"IRIG3: \d+ pulses, 0 frames"), (GOOD, GOOD, Line(noise=True)),
        (r"IRIG3 of relay: 0 agreed",), (DIFFERS, TOLD)),
    "other order": Record(
        OWN, (GOOD, GPS, GOOD), (ANOTHER + "18 s ahead, first 2025-03-11T14:22:26Z",),
        (r"IRIG[13] differs",), late_us=1_000_000, order="IRIG2,IRIG3,IRIG1"),
    "across the leap second": Record(
        (AGREES, ZERO + LEAP + r"57\.250Z"), blamed=(r"IRIG1 of relay: 4 agreed",),
        never=(DIFFERS, TOLD), first=LEAP + "57", skip_us=250_000, rate=3_840, form="ASCII"),
    "begins in the leap second": Record(
        (AGREES, ZERO + LEAP + r"60\.250Z", f"it says {IN_LEAP} for"), never=(DIFFERS, TOLD),
        first=LEAP + "59", skip_us=LEAP_US, stamp=IN_LEAP),
    "jumps back": Record(
        ("IRIG1" + MOST + "-1 s in 3 frames", AGREES),
        (Line(ahead=-1, ahead_from=4), GOOD, GOOD),
        (r"(?m)^2025-03-11T14:22:11Z to 2025-03-11T14:22:13Z.*IRIG1 of relay told another second, "
         "1 s behind, first 2025-03-11T14:22:10Z",), length_us=7_000_000),
    "all differ": Record(
        (r"most ports never claim one second", "IRIG1 .*, IRIG2 .*, IRIG3 told .*T14:21:"),
        (GOOD, GPS, Line(ahead=-60)), never=(r"stamp is",), status=2, scenario=False),
    "five lines, two ahead": Record(
        ("IRIG1" + MOST + r"\+18 s", "IRIG4" + MOST + r"\+18 s", AGREES, r"by 3 of 5 lines"),
        (GPS, GOOD, GOOD, GPS, GOOD), (r"IRIG4 of relay told another second, 18 s ahead",),
        (r"IRIG[235] differs",), rate=10_000),
    "stamped in the leap second before": Record(
        (r"stamp is 1\.000 s early by 3 of 3 lines: it",), never=(DIFFERS, TOLD),
        first=LEAP + "59", skip_us=2_250_000, stamp=IN_LEAP),
    "leap second, stamped a second early": Record(
        (r"stamp is 1\.000 s early by 3 of 3 lines|undecided",), never=(AGREES, DIFFERS, TOLD),
        first=LEAP + "59", skip_us=LEAP_US, stamp="31/12/2016,23:59:59.250000"),
    "a third of a second late": Record(
        (AGREES, BY_TWO, r"IRIG2 is 300\.0 ms late of most lines"),
        (GOOD, Line(delay_us=300_000), GOOD), (r"IRIG2 of relay: 0 agreed",), (DIFFERS, TOLD)),
    "1,024 weeks behind": Record(
        ("IRIG2" + MOST + "-7168 d in", AGREES), (GOOD, Line(ahead=-1024 * 7 * 86_400), GOOD),
        (ANOTHER + "7168 d behind, first 2005-07-26T14:22:08Z",)),
    "short, two minutes early": Record(
        (r"undecided",), never=(r"stamp is", AGREES), status=2, scenario=False,
        skip_us=450_000, length_us=SHORT_US, late_us=-120_000_000),
    "a day late": Record(
        (r"stamp is 1 d late by 3 of 3 lines",), never=(r"--zone",), late_us=24 * HOUR_US),
    # Those below were written with the tool.
    "four milliseconds late": Record((r"stamp is 0\.004 s late by 3 of 3 lines",), late_us=4_000),
    "quality 15": Record(
        (AGREES, BY_TWO, r"IRIG2 has no vote, .* quality"),
        (GOOD, Line(options=("--quality=15",)), GOOD),
        (r"IRIG2 of relay: 0 agreed, 0 silent, 0 faulty, 4 poor",), (DIFFERS,)),
    "early by two milliseconds": Record(
        (AGREES, r"IRIG3 is 2\.\d ms early of most lines"), (GOOD, GOOD, Line(delay_us=-2_000)),
        rate=10_000),
    "the end of the leap second": Record(
        (r"undecided when the recording begins: 2016-12-31 ends", "give --leap=2016-12-31"),
        never=(ZERO, "stamp"), first=LEAP + "59", skip_us=1_965_000),
    "the end of the leap second, told": Record(
        (ZERO + LEAP + r"60\.965Z", r"stamp is 0\.965 s late"),
        first=LEAP + "59", skip_us=1_965_000, stamp="01/01/2017,00:00:00.930000",
        arguments=("--leap=2016-12-31",)),
    "a stamp across a month's end": Record(
        (r"stamp is 1\.000 s early by 3 of 3 lines, if 2016-12-31 has no leap second",),
        first="2017-01-01T00:00:00", skip_us=250_000, stamp="31/12/2016,23:59:59.250000"),
    "a second 60 that is none": Record(
        (r"stamp, 11/03/2025,14:22:60\.400000, is no time that can be compared",),
        never=(AGREES,), stamp="11/03/2025,14:22:60.400000"),
    "the month first": Record(
        (r"with its day and month exchanged it is 1\.000 s late",),
        stamp="03/11/2025,14:22:08.400000"),
}


class Altered(InAFolder):
    """Each record gets the verdict that was expected of it."""

    def test_each(self) -> None:
        for name, record in RECORDS.items():
            with self.subTest(name):
                status, said, scenario, told = verdict(record, self.folder / "record.cfg")
                self.assertEqual((record.status, record.scenario), (status, bool(scenario)), said)
                misses = [text for text in record.said if not re.search(text, said)]
                misses += [text for text in record.blamed if not re.search(text, told)]
                wrong = [text for text in (*record.never, "true") if re.search(text, said + told)]
                self.assertEqual(([], []), (misses, wrong), said + told)


if __name__ == "__main__":
    unittest.main()
