#!/usr/bin/env python3
"""Tests of disturbance records in COMTRADE. The variants are written out here, by the text of IEEE C37.111
and as other makers write them; so are records of lines, which owe nothing to tools/wave. Needs the libraries
of `make -C c`, but for the variants."""
from __future__ import annotations

import os
import struct
import subprocess
import unittest
from collections.abc import Callable, Iterator
from dataclasses import dataclass, replace
from datetime import datetime, timedelta
from pathlib import Path

from loading import ROOT, InAFolder

from parts.changes import Stamp
from parts.comtrade import leap_field
from parts.recordings import open_recording
from test_capture import ONE_CLOCK_AHEAD, PROGRAM, Wave, trips_of, wave_of, wave_of_text

from irig import Leap, Second

END = -1
HALF_PAST = Second.read("2026-11-24T09:30:00Z")
ENVIRONMENT = {**os.environ, "IRIG": str(PROGRAM)}

# ---- variants, of four or six samples

# 1991: no year of an edition, no multiple of times, the month first, statuses of three fields. Between
# samples are 250 us. The analog channel is -3, 2, missing, 7 V.
OLD_CFG = """\
Bay 7,12
3,1A,2D
1,IRIG V,,,V,0.5,-1,0,-32767,32767
1,IRIG1,0
2,IRIG2,1
60
1
4000,4
11/24/26,09:30:00.250000
11/24/26,09:30:00.250500
ASCII
"""
OLD_DAT = """\
     1,         0,    -4, 0, 1
     2,       250,     6, 1, 1
     3,       500,      , 1, 0
     4,       750,    16, 0, 1
\x1a"""
OLD_CHANGES = [(0, 0, 0), (0, 1, 1), (250, 0, 1), (500, 1, 0), (750, 0, 0), (750, 1, 1), (750, END, 0)]

# 1999: blanks round fields, lines that end in CR LF, and 1,000 and then 500 samples a second.
NEW_CFG = """\
 Bay 7 , recorder , 1999
 2 , 0A , 2D
 1 , IRIG1 , , , 0
 2 , , , , 0
 50
 2
 1000 , 2
 500 , 4
 24/11/2026 , 09:30:00.25
 24/11/2026 , 09:30:00.25
 ascii
 1
"""
NEW_DAT = "1,0,0,0\n2,1000, 1 , 0\n3,3000,1,1\n4,,0,1\n"
NEW_CHANGES = [(0, 0, 0), (0, 1, 0), (1000, 0, 1), (3000, 1, 1), (5000, 0, 0), (5000, END, 0)]

# 2013 without a rate: by times in nanoseconds, each three units of them.
FREE_CFG = """\
Bay 7,recorder,2013
1,0A,1D
1,IRIG1,,,0
50
0
0,3
24/11/2026,15:00:00.123456789
24/11/2026,15:00:00.123456789
ASCII
3
+5h30,x
B,3
"""
FREE_DAT = "1,1000,0\n2,2000,1\n3,5000,1\n"
FREE_CHANGES = [(0, 0, 0), (3, 0, 1), (12, END, 0)]


def numbers(form: str, *rows: tuple[float, ...]) -> bytes:
    return b"".join(struct.pack(form, number, 0xFFFFFFFF, *row) for number, row in enumerate(rows, 1))


def binary(analogs: int, digitals: int, form: str, last: int, edition: int = 2013) -> str:
    """A configuration at 2,000 samples a second, with as many channels."""
    names = [f"{one},V{one},,,V,0.5,1,0,0,1,1,1,P" for one in range(1, analogs + 1)]
    names += [f"{one},D{one},,,0" for one in range(1, digitals + 1)]
    counts = f"{analogs + digitals},{analogs}a,{digitals}d"
    stamps = ["24/11/2026,09:30:00.000000"] * 2
    return "\n".join([f"x,y,{edition}", counts, *names, "50", "1", f"2000,{last}", *stamps, form, "1", ""])


class Variants(InAFolder):
    def changes(self, path: Path, *channels: str, threshold: float | None = None) -> list[tuple[float, int, int]]:
        recording = open_recording(path, threshold)
        places = [recording.names.index(name) for name in channels]
        return [(round(time, 6), place, level) for time, place, level in recording.changes(places)]

    def pair(self, configuration: str, samples: str | bytes, name: str = "a.cfg", other: str = "a.dat") -> Path:
        """A record, whose samples are text with lines that end as those of its configuration."""
        path = self.folder / name
        path.write_bytes(configuration.encode())
        (self.folder / other).write_bytes(samples.encode() if isinstance(samples, str) else samples)
        return path

    def stamp(self, path: Path) -> Stamp:
        stamp = open_recording(path, None).stamp
        assert stamp
        return stamp

    def test_1991(self) -> None:
        path = self.pair(OLD_CFG, OLD_DAT, "OLD.CFG", "Old.DAT")
        self.assertEqual(open_recording(path, None).names, ["IRIG1", "IRIG2", "IRIG V"])
        self.assertEqual(self.changes(path, "IRIG1", "IRIG2"), OLD_CHANGES)
        self.assertEqual(self.stamp(path), Stamp(
            "11/24/26,09:30:00.250000", HALF_PAST, 250_000, trigger_us=500, step_us=250.0))

    def test_an_analog_channel(self) -> None:
        """Above 1 V it is high: half of 6 less one is 2, half of 16 less one 7."""
        path = self.pair(OLD_CFG, OLD_DAT)
        found = [(0, 0, 0), (250, 0, 1), (750, END, 0)]
        self.assertEqual(self.changes(path, "IRIG V", threshold=1), found)
        self.assertEqual(self.changes(path, "IRIG V", threshold=2.5), [found[0], (750, 0, 1), found[-1]])

    def test_1999_blanks_and_two_rates(self) -> None:
        path = self.pair(NEW_CFG.replace("\n", "\r\n"), NEW_DAT.replace("\n", "\r\n"))
        self.assertEqual(self.changes(path, "IRIG1", "D2"), NEW_CHANGES)
        self.assertEqual(self.stamp(path).second, HALF_PAST)

    def test_the_fields_of_2013_and_no_rate(self) -> None:
        path = self.pair(FREE_CFG, FREE_DAT)
        self.assertEqual(self.changes(path, "IRIG1"), FREE_CHANGES)
        self.assertEqual(self.stamp(path), Stamp(
            "24/11/2026,15:00:00.123456789", HALF_PAST, 123_457, 330, 11, 3, trigger_us=0))
        text = FREE_CFG.replace("+5h30,x\nB,3\n", "").replace("0\n0,3\n", "0\n")
        bare = self.pair(text, FREE_DAT, "b.cfg", "b.dat")
        self.assertEqual(self.changes(bare, "IRIG1"), FREE_CHANGES)
        self.assertEqual((self.stamp(bare).zone, self.stamp(bare).quality, self.stamp(bare).leap), (None,) * 3)

    def test_1999_in_two_words_of_channels(self) -> None:
        """Channel 1 is bit 0 of the first word, channel 17 bit 0 of the second."""
        rows = numbers("<IIhHH", (5, 0, 1), (-32768, 0x8001, 0), (7, 1, 1))
        path = self.pair(binary(1, 17, "binary", 3, 1999), rows)
        self.assertEqual(self.changes(path, "D1", "D16", "D17"), [
            (0, 0, 0), (0, 1, 0), (0, 2, 1), (500, 0, 1), (500, 1, 1), (500, 2, 0), (1000, 1, 0), (1000, 2, 1),
            (1000, END, 0)])
        self.assertEqual(self.changes(path, "V1", threshold=4), [(0, 0, 0), (1000, 0, 1), (1000, END, 0)])

    def test_as_many_words_as_channels_need(self) -> None:
        """Each has 16 channels; the last one of all rises at sample 2."""
        for count, last in ((15, (0x4000,)), (16, (0x8000,)), (17, (0, 1)), (32, (0, 0x8000)), (33, (0, 0, 1))):
            rows = numbers(f"<II{len(last)}H", (0,) * len(last), last)
            path = self.pair(binary(0, count, "BINARY", 2), rows)
            self.assertEqual(self.changes(path, f"D{count}"), [(0, 0, 0), (500, 0, 1), (500, END, 0)])

    def test_numbers_of_32_bits(self) -> None:
        """5,999 and 6,001 halves plus one are about 3,001 V; what is missing changes nothing."""
        for form, code, missing in (
            ("BINARY32", "i", -(2**31)), ("FLOAT32", "f", float("nan")), ("FLOAT32", "f", -3.402823466e38),
        ):
            rows = (5999, 1, 5), (missing, 1, 5), (6001, 1, 5)
            path = self.pair(binary(2, 3, form, 3), numbers(f"<II2{code}H", *rows))
            self.assertEqual(self.changes(path, "D1", "V1", threshold=3001), [
                (0, 0, 1), (0, 1, 0), (1000, 1, 1), (1000, END, 0)])

    def test_single_files(self) -> None:
        """Of text, and of numbers, behind which more may stand; the other sections say nothing."""
        inf = "--- file type: INF ---\r\n[x]\r\n--- file type: HDR ---\r\n1,2\r\n"
        sections = "--- file type: CFG ---\r\n{}" + inf + "--- file type: DAT {} ---\r\n"
        path = self.folder / "a.CFF"
        path.write_text(sections.format(OLD_CFG, "ASCII") + OLD_DAT)
        self.assertEqual(self.changes(path, "IRIG1", "IRIG2"), OLD_CHANGES)
        rows = numbers("<IIH", (0,), (1,))
        head = sections.format(binary(0, 1, "BINARY", 2), f"BINARY: {len(rows)}").encode()
        path.write_bytes(head + rows + b"\r\nmore than a row")
        self.assertEqual(self.changes(path, "D1"), [(0, 0, 0), (500, 0, 1), (500, END, 0)])

    def test_dates(self) -> None:
        """Of 1991 the month stands first, later the day, but where it would be a 13th month; a 60 is a second
        behind a 59."""
        for old, new, edition, wanted in (
            ("11/24/26", "05/06/2026", "", ("2026-05-06T09:30:00Z", 250_000)),
            ("11/24/26", "24/11/26", "", ("2026-11-24T09:30:00Z", 250_000)),
            ("11/24/26", "05/06/2026", ",1991", ("2026-05-06T09:30:00Z", 250_000)),
            ("11/24/26", "05/06/2026", ",1999", ("2026-06-05T09:30:00Z", 250_000)),
            ("11/24/26", "05/24/2026", ",1999", ("2026-05-24T09:30:00Z", 250_000)),
            ("11/24/26,09:30:00.25", "31/12/2016,23:59:60.25", ",1999", ("2016-12-31T23:59:59Z", 1_250_000)),
        ):
            stamp = self.stamp(self.pair(OLD_CFG.replace("7,12", f"7,12{edition}").replace(old, new), OLD_DAT))
            self.assertEqual((str(stamp.second), stamp.after_us), wanted)
        for text in ("01/01/1970,00:00:00", "30/02/2026,09:30:00", "24/11/2026,09:61:00", "soon,"):
            path = self.pair(NEW_CFG.replace("24/11/2026 , 09:30:00.25", text), NEW_DAT)
            self.assertIsNone(self.stamp(path).second)

    def test_a_leap_second_in_it(self) -> None:
        """From its first second to its last one, as the field of 2013 has it."""
        leaps = [Leap("2016-12-31"), Leap("2029-06-30", "delete")]
        for first, last, wanted in (
            ("2016-12-31T23:59:58Z", "2016-12-31T23:59:59Z", 0), ("2016-12-31T23:59:58Z", "2016-12-31T23:59:60Z", 1),
            ("2016-12-31T23:59:60Z", "2017-01-01T00:00:01Z", 1), ("2017-01-01T00:00:00Z", "2017-01-01T00:00:01Z", 0),
            ("2029-06-30T23:59:57Z", "2029-06-30T23:59:58Z", 0), ("2029-06-30T23:59:58Z", "2029-07-01T00:00:00Z", 2),
        ):
            self.assertEqual(leap_field(Second.read(first), Second.read(last), leaps), wanted, first)

    def test_wrong_files(self) -> None:
        rows, two = numbers("<IIH", (0,), (1,)), binary(0, 1, "BINARY", 2)
        rates = "60\n1\n"
        for configuration, samples, reason in (
            (two, rows[:-1], "its samples end with number 1, where it says 2: it is cut off"),
            (two, b"", "its samples end with number 0, where it says 2"),
            (FREE_CFG.replace("0\n0,3\n", "0\n"), b"", "its samples end with number 0, where it says 0: it is cut off"),
            (OLD_CFG, OLD_DAT.split("     3")[0], "its samples end with number 2, where it says 4"),
            (OLD_CFG.replace("ASCII", "FLOAT64"), OLD_DAT, "line 11 of its configuration: 'FLOAT64' is none of"),
            (OLD_CFG.replace(rates, "60\nmany\n"), OLD_DAT, "line 7 of its configuration: 'many' is no number"),
            (OLD_CFG.replace(rates, "60\n-1\n"), OLD_DAT, "line 7 of its configuration: '-1' is no number of r"),
            (OLD_CFG.replace(rates, "60\n2\n"), OLD_DAT, "line 9 of its configuration: '11/24/26' is no rate"),
            (NEW_CFG.replace("500 , 4", "500 , 2"), NEW_DAT, "line 8 of its configuration: its last sample is n"),
            (OLD_CFG.replace(",1A,", ",A1,"), OLD_DAT, "line 2 of its configuration: 'A1' is no number of chan"),
            (OLD_CFG.split("60\n")[0], OLD_DAT, "its configuration ends before the line frequency"),
            (OLD_CFG, OLD_DAT.replace(", 1, 0", ", 1"), "line 3 of its samples has fewer fields than"),
            (OLD_CFG, OLD_DAT.replace("   250", "   25O"), "line 2 of its samples: '25O' is no number"),
            (OLD_CFG, OLD_DAT.replace(", 1, 0", ", 1, 2"), "'2' is no level, 0 or 1"),
            (FREE_CFG, FREE_DAT.replace("2,2000", "2,"), "its sample 2 has no time, and a rate of samples is 0"),
            (FREE_CFG, FREE_DAT.replace("5000", "1500"), "its times go back"),
            (two.replace("2000,2", "0,2"), rows, "its sample 1 has no time, and a rate of samples is 0"),
        ):
            with self.subTest(reason), self.assertRaises(ValueError) as raised:
                recording = open_recording(self.pair(configuration, samples), None)
                list(recording.changes(range(len([name for name in recording.names if name != "IRIG V"]))))
            self.assertIn(reason, str(raised.exception))

    def test_files_that_are_missing(self) -> None:
        (self.folder / "b.cfg").write_text(OLD_CFG)
        with self.assertRaisesRegex(ValueError, "its samples are missing: no b.dat stands beside it"):
            open_recording(self.folder / "b.cfg", None)
        (self.folder / "b.cff").write_text(OLD_CFG)
        with self.assertRaisesRegex(ValueError, "no line '--- file type: DAT ASCII ---'"):
            open_recording(self.folder / "b.cff", None)
        with self.assertRaisesRegex(ValueError, "IRIG V is an analog channel: --threshold says above how many V"):
            self.changes(self.pair(OLD_CFG, OLD_DAT), "IRIG V")


# ---- records of lines

HEAD = "Bay 7,recorder,{year}\r\n{all},0A,{all}D\r\n"
TAIL = "50\r\n1\r\n{rate},{samples}\r\n{stamp}\r\n{stamp}\r\n{form}\r\n1\r\n"


@dataclass(frozen=True)
class Record:
    """Lines as digital channels from a time of their wave on; what the record says of its stamp."""

    lines: Wave
    stamp: datetime
    begin_us: int = 300_000
    seconds: float = 3.2
    rate: int = 4800
    parts: int = 0  # in a million, by which the recorder's second is too long
    year: int = 2013
    form: str = "BINARY"
    zone: str = "0,0"
    quality: str = "0,0"

    def samples(self) -> Iterator[int]:
        """The channels that are 1, a bit for each."""
        changes, high, place = self.lines.changes, 0, 0
        for number in range(round(self.seconds * self.rate)):
            time = self.begin_us + number * (1_000_000 + self.parts) / self.rate
            while place < len(changes) and changes[place][0] <= time:
                _, line, level = changes[place]
                high, place = high & ~(1 << line) | level << line, place + 1
            yield high

    def configuration(self) -> str:
        count, numbers = self.lines.count, range(1, self.lines.count + 1)
        stamp = f"{self.stamp:%d/%m/%Y,%H:%M:%S.%f}"
        channels = "".join(f"{number},IRIG{number},,,0\r\n" for number in numbers)
        tail = TAIL.format(rate=self.rate, samples=round(self.seconds * self.rate), stamp=stamp, form=self.form)
        more = f"{self.zone}\r\n{self.quality}\r\n" if self.year >= 2013 else ""
        return HEAD.format(year=self.year, all=count) + channels + tail + more

    def written(self, path: Path) -> Path:
        path.with_suffix(".cfg").write_bytes(self.configuration().encode())
        with path.with_suffix(".dat").open("wb") as file:
            for number, high in enumerate(self.samples()):
                time = number * 1_000_000 // self.rate
                bits = "".join(f",{high >> line & 1}" for line in range(self.lines.count))
                is_text = self.form == "ASCII"
                file.write(f"{number + 1},{time}{bits}\r\n".encode() if is_text
                           else struct.pack("<IIH", number + 1, time, high))
        return path.with_suffix(".cfg")


def wave(by: int = 0, lines: tuple[int, ...] = (1,)) -> Wave:
    """Lines of 2026-11-24T09:30:00Z, of which some are so many seconds ahead."""
    head = ONE_CLOCK_AHEAD.split("\n")[0].replace('"local":2', '"local":0')
    faults = "".join(f'{{"do":"fault","g":{line},"kind":"skew","by":{by}}}\n' for line in lines if by)
    return wave_of_text(f'{head}\n{faults}{{"do":"seconds","n":6}}')


def leap(record: Record) -> Record:
    """Its first edge is that of 23:59:50, so 7.3 s on the wave are 23:59:57.250."""
    stamp = datetime(2016, 12, 31, 23, 59, 57, 250_000)
    return replace(record, lines=wave_of("leap_inserted"), begin_us=7_300_000, stamp=stamp, seconds=5)


def later(seconds: float) -> Callable[[Record], Record]:
    return lambda record: replace(record, stamp=record.stamp + timedelta(seconds=seconds))


# Sample 1 is 250 ms behind the edge of 09:30:00.
GOOD = Record(wave(), datetime(2026, 11, 24, 9, 30, 0, 250_000))


def tool(path: Path | str, *words: Path | str) -> subprocess.CompletedProcess[str]:
    return subprocess.run([ROOT / "tools/capture", path, *words], capture_output=True, text=True)


class Example(InAFolder):
    """Three lines, of which IRIG2 sends GPS time; the stamp is a second late."""

    PATH = ROOT / "examples/late_stamp.cfg"
    RECORD = replace(later(1)(GOOD), lines=wave(18), rate=2400)

    def test_it_is_the_record(self) -> None:
        made = self.RECORD.written(self.folder / "late_stamp.cfg")
        for ending in (".cfg", ".dat"):
            self.assertEqual(made.with_suffix(ending).read_bytes(), self.PATH.with_suffix(ending).read_bytes())

    def test_two_commands_say_both(self) -> None:
        """At 4,800 samples a second, too."""
        fast = replace(self.RECORD, rate=4800).written(self.folder / "fast.cfg")
        for path in (self.PATH, fast):
            ran = tool(path)
            for said in (
                "the record's stamp is 1.000 s late by 2 of 3 lines: it says 24/11/2026,09:30:01.250000 for "
                "sample 1, that is 2026-11-24T09:30:01.250Z\n",
                "0.000 s of the recording is 2026-11-24T09:30:00.250Z, by 2 of 3 lines, within 0 us\n",
                "IRIG2 differs from most ports by +18 s in 2 frames; the first ended at tick 1, 1.750 s\n",
            ):
                self.assertIn(said, ran.stderr)
            blame = subprocess.run([PROGRAM, "blame", "-"], input=ran.stdout, capture_output=True, text=True)
            self.assertRegex(blame.stdout, "edges 1 to 2: port 1 .* another second, .*2026-11-24T09:30:19Z")

    def test_the_trigger_and_the_recorders_clock(self) -> None:
        """The trigger was half a second behind sample 1; 7 is a clock that is right within a millisecond."""
        path = self.RECORD.written(self.folder / "late_stamp.cfg")
        text = path.read_bytes().replace(b"250000\r\nB", b"750000\r\nB").replace(b"0,0\r\n0,0", b"0,0\r\n7,3")
        path.write_bytes(text)
        self.assertEqual(tool(path).stderr.splitlines()[-3:], [
            "by that its trigger was at 2026-11-24T09:30:00.750Z",
            "by its time quality the recorder's clock was not locked, and right within 1 ms",
            "its leap-second field says that the recorder's clock knows of none; by the lines none is in it"])

    def test_a_stamp_that_no_zone_explains(self) -> None:
        record = replace(later(3 * 86_400 + 1)(GOOD), year=1999)
        said = tool(record.written(self.folder / "days.cfg")).stderr
        self.assertIn("the record's stamp is 3 d 1 s late by 3 of 3 lines", said)
        self.assertNotIn("local time", said)

    def test_records_that_are_odd(self) -> None:
        """The recorder's second is longer, and begins at an odd phase; its zone is +5:30; it does not know of
        a leap second."""
        field = "its leap-second field says that none is in it; by the lines one is added"
        agrees = "the record's stamp agrees within 1.3 ms by 3 of 3 lines"
        off = replace(later(0.4183)(GOOD), begin_us=718_300, parts=100, form="ASCII")
        for record, said in (
            (off, agrees), (leap(GOOD), field), (leap(GOOD), agrees),
            (replace(later(5.5 * 3600 - 2)(GOOD), zone="+5h30,x"), "stamp is 2.000 s early by 3 of 3 lines"),
        ):
            self.assertIn(said, tool(record.written(self.folder / "odd.cfg")).stderr)

    def test_a_start_that_is_said(self) -> None:
        said = tool(self.PATH, "--start=2026-11-24T09:30:19Z").stderr
        self.assertIn("the record's stamp is 17.000 s early by --start:", said)


class RoundTrip(InAFolder):
    def test_by_both_forms(self) -> None:
        """The log is the scenario's, and the stamp that of its true seconds."""
        for name, leap in (("leap_inserted", 1), ("leap_deleted", 2), ("five_ports", 0), ("zone_change", 0)):
            for words in ([], ["--text"], ["--invert", "--rate=2000"]):
                with self.subTest(name, words=words):
                    path, trip = self.folder / "lines.cfg", trips_of(name)[0]
                    subprocess.run([ROOT / "tools/wave", "-", "-o", path, *words], input=trip.text.encode(),
                                   env=ENVIRONMENT, capture_output=True, check=True)
                    self.assertEqual(trip.outcome(path), trip.log)
                    found = tool(path).stderr
                    self.assertRegex(found, r"the record's stamp agrees within 1.\d ms by \d of \d lines")
                    field = ("none is in it", "one is added", "one is deleted")[leap]
                    self.assertIn(f"its leap-second field says that {field}, and so do the lines\n", found)


class Short(InAFolder):
    """Records of less than two seconds. An edge comes 50 ms behind each second of the wave."""

    def said(self, record: Record, begin: float, seconds: float, *words: str) -> subprocess.CompletedProcess[str]:
        """What is said of a record of some seconds from a time of the wave on."""
        begins = record.stamp + timedelta(seconds=begin - 0.3)
        record = replace(record, stamp=begins, begin_us=round(begin * 1e6), seconds=seconds)
        return tool(record.written(self.folder / "short.cfg"), *words)

    def decided(self, wanted: str, record: Record, begin: float, seconds: float, *words: str) -> None:
        ran = self.said(record, begin, seconds, *words)
        self.assertEqual((ran.returncode, ran.stdout), (0, ""), ran.stderr)
        self.assertIn(f"\nthe record's stamp {wanted}, if it is right within", ran.stderr)

    def undecided(self, wanted: str, record: Record, begin: float, seconds: float, *words: str) -> None:
        ran = self.said(record, begin, seconds, *words)
        self.assertEqual((ran.returncode, ran.stdout), (2, ""), ran.stderr)
        self.assertRegex(ran.stderr, f"short.cfg: undecided: .*{wanted}")

    def test_decided(self) -> None:
        """The beginning of a second is seen, and behind it the second, or before it the binary one."""
        for begin, seconds in ((1.75, 0.6), (1.47, 0.6), (1.35, 1.0), (1.45, 1.5)):
            with self.subTest(begin=begin):
                self.decided("agrees within 1.3 ms by 3 of 3 lines", GOOD, begin, seconds)
                self.decided("is 1.000 s late by 3 of 3 lines", later(1)(GOOD), begin, seconds)
                self.decided("is 59.000 s early by 3 of 3 lines", later(-59)(GOOD), begin, seconds)

    def test_no_beginning_of_a_second(self) -> None:
        """Elements 10 to 69; and 1 to 99, when the next second's marker has not ended."""
        for begin, seconds in ((1.15, 0.6), (1.055, 1.0)):
            self.undecided("IRIG1 shows no beginning of a second; IRIG2 shows", GOOD, begin, seconds)

    def test_seconds_that_fit_alike(self) -> None:
        """Elements 42 to 79 and the lowest bit of the second: of 121 seconds each other one fits."""
        self.undecided("on IRIG1 61 of the seconds there fit", GOOD, 1.47, 0.6, "--sbs=ignore")

    def test_a_whole_frame(self) -> None:
        ran = self.said(later(1)(GOOD), 1.65, 1.5)
        self.assertIn("the record's stamp is 1.000 s late by 3 of 3 lines: ", ran.stderr)
        self.assertEqual((ran.returncode, ran.stdout.count('"tick"')), (0, 1))

    def test_a_majority(self) -> None:
        self.decided("agrees within 1.3 ms by 2 of 3 lines", replace(GOOD, lines=wave(18)), 1.75, 0.6)
        self.decided("is 18.000 s early by 2 of 3 lines", replace(GOOD, lines=wave(18, (0, 2))), 1.75, 0.6)
        lines = wave(18)
        other = wave(7, (2,))
        apart = replace(lines, changes=tuple(sorted(
            [one for one in lines.changes if one[1] < 2] + [one for one in other.changes if one[1] == 2])))
        wanted = "IRIG1 has the recording begin at 2026-11-24T09:30:01.700Z; IRIG2 .*:19.700Z; IRIG3 .*:08.700Z"
        self.undecided(wanted, replace(GOOD, lines=apart), 1.75, 0.6)

    def test_a_line_whose_delay_is_known(self) -> None:
        """IRIG2 is 3 ms late, and begins its seconds as the others do without that. Where all lines are 3 ms
        early, their edges come later than they seem to, and sample 1 is earlier than its stamp says."""
        late = replace(GOOD, lines=wave().line(1, lambda change: [(change[0] + 3000, *change[1:])]))
        self.decided("agrees within 1.3 ms by 2 of 3 lines", late, 1.75, 0.6)
        self.decided("agrees within 1.3 ms by 3 of 3 lines", late, 1.75, 0.6, "--delay=0,3000,0")
        self.decided("is 0.003 s late by 3 of 3 lines", GOOD, 1.75, 0.6, "--delay=-3000")

    def test_a_stamp_that_is_far_off(self) -> None:
        self.undecided("on IRIG1 none of the seconds there fit", later(90)(GOOD), 1.75, 0.6)
        self.decided("is 1 min 30 s late by 3 of 3 lines", later(90)(GOOD), 1.75, 0.6, "--within=120")

    def test_local_time(self) -> None:
        """Between 30 and 99 the elements say that the lines send UTC."""
        local = replace(later(-5 * 3600 + 1)(GOOD), year=1999)
        self.undecided("none of the seconds there fit; --zone or --within may decide it", local, 1.35, 1.0)
        self.decided("is 1.000 s late by 3 of 3 lines", local, 1.35, 1.0, "--zone=-5")

    def test_a_leap_second(self) -> None:
        """The second at 10.05 s of the wave is 23:59:60; a stamp that goes on at 00:00:00 is two late. Its last
        elements, and the next frame, do not tell it from 23:59:59 and from 23:59:58."""
        record = replace(leap(GOOD), stamp=datetime(2016, 12, 31, 23, 59, 50, 250_000))
        self.decided("agrees within 1.3 ms by 3 of 3 lines", record, 9.75, 0.6)
        self.decided("is 2.000 s late by 3 of 3 lines", later(1)(record), 9.75, 0.6)
        self.undecided("on IRIG1 3 of the seconds there fit", later(-1)(record), 10.99, 0.6)
        self.decided("is 1.000 s early by 3 of 3 lines", later(-1)(record), 10.99, 0.6, "--leap=2016-12-31")

    def test_lines_with_faults(self) -> None:
        """IRIG2 sends local time. A pulse is too wide, and at 2.40 s of the wave the lines jump by 5 ms: what
        comes before it is seen. The recorder's second may be another."""
        lines = replace(GOOD, lines=self.sent(""))
        wide = lines.lines.of(lambda change: [(change[0] + 1700 * (change[0] == 2_148_000), *change[1:])])
        jump = lines.lines.of(lambda change: [(change[0] + 5000 * (change[0] >= 2_400_000), *change[1:])])
        for record in lines, replace(lines, lines=wide), replace(lines, lines=jump), replace(lines, parts=5000):
            self.decided("agrees within 1.3 ms by 3 of 3 lines", record, 1.45, 1.5)

    def test_clocks_that_are_off(self) -> None:
        """A quality of 9 is 100 ms, of 10 a second; 12 to 15 have another bit in common."""
        faults = (f'{{"do":"fault","g":{of},"kind":"quality","q":{q}}}' for of, q in enumerate((9, 10, 12)))
        self.undecided("IRIG1 has the recording begin at 2026-11-24T09:30:01.400Z; "
                       "IRIG2 says itself that its clock is off by a second or more; IRIG3 says",
                       replace(GOOD, lines=self.sent("\n".join(faults))), 1.45, 1.5)

    @staticmethod
    def sent(event: str) -> Wave:
        """The lines of GOOD, but that IRIG2 is an hour ahead of UTC, behind an event."""
        head = ONE_CLOCK_AHEAD.split("\n")[0]
        return wave_of_text(f'{head}\n{event}\n{{"do":"seconds","n":6}}')


class Words(InAFolder):
    def test_each(self) -> None:
        path = GOOD.written(self.folder / "lines.cfg")
        for words, reason in (
            ([path.with_suffix(".dat")], "these are the samples of a record: name its lines.cfg"),
            ([path, "--channels=IRIG1,IRIG2,IRIG9"], "no channel 'IRIG9'; it has IRIG1, IRIG2, IRIG3"),
            ([path, "--zone=east"], "'east' is no time ahead of UTC, as -5h30 or +1"),
            ([path, "--within=0"], "'0' is not a whole number from 1 to 900"),
        ):
            ran = tool(*words)
            self.assertEqual((ran.returncode, ran.stdout), (2, ""))
            self.assertIn(reason, ran.stderr)


if __name__ == "__main__":
    unittest.main()
