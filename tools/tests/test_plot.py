#!/usr/bin/env python3
"""Tests of plot: what it draws of scenarios, where it puts labels, what it says of files that are none, and
that the pictures of docs/gallery and docs/wires are what tools/gallery draws now. Needs matplotlib for the pictures."""
import io
import os
import re
import subprocess
import sys
import tempfile
import time
import unittest
from contextlib import redirect_stderr, redirect_stdout
from importlib.util import find_spec
from itertools import combinations
from pathlib import Path
from unittest import mock

from loading import ROOT, compare_pictures, loaded
from case_files import examples
from parts.log_lanes import PORT_STATES, STATES, Bars, Mark, ReaderLanes, apart_of, bars_of, run_of
from parts.command import DEBIAN
from parts.layout import Label, Scale, chosen, rows_of, ways

import irig
from irig.scenarios import Leap, Reader, Replay, Scenario

PLOT = ROOT / "tools/plot"
ENVIRONMENT = {**os.environ, "IRIG": str(ROOT / "crates/irig_main/out/irig_main")}
START = "2016-06-15T12:00:00Z"


def scenario(seconds: int, *names: str) -> Scenario:
    plant = Scenario(START, [Reader(name, 1) for name in names or ["relay"]])
    plant.seconds(seconds)
    return plant


ONE_EDGE = scenario(1).text()


def example(name: str) -> str:
    return (ROOT / f"examples/{name}.jsonl").read_text()


def bars(text: str) -> Bars:
    return bars_of(run_of(text.encode()))


def lane_of(text: str) -> ReaderLanes:
    (lane,) = bars(text).lanes
    return lane


def runs_of(lanes: list[irig.Lane]) -> list[tuple]:
    return [(lane.first, lane.last, lane.state, lane.cause) for lane in lanes]


TOOL = loaded(PLOT)


def run(words: list[str], text: str) -> subprocess.CompletedProcess:
    """A run of the tool in this process, since matplotlib takes a second to be loaded."""
    status, out, told = 0, io.StringIO(), io.StringIO()
    given = io.TextIOWrapper(io.BytesIO(text.encode()))
    with mock.patch.multiple(sys, argv=words, stdin=given), redirect_stdout(out), redirect_stderr(told):
        try:
            TOOL.main()
        except SystemExit as ended:
            status = ended.code or 0
    return subprocess.CompletedProcess(words, status, out.getvalue(), told.getvalue())


def plot(text: str, *options: str, name: str = "a.svg") -> tuple[subprocess.CompletedProcess, str]:
    """What plot says of a scenario on standard input, and the picture."""
    with tempfile.TemporaryDirectory() as folder:
        file = Path(folder) / name
        ran = run([str(PLOT), "-", "-o", str(file), *options], text)
        return ran, file.read_text(errors="ignore") if file.exists() else ""


def texts(picture: str) -> list[str]:
    """The texts of a picture: matplotlib writes each beside its outlines."""
    return re.findall(r"<!-- (.*?) -->", picture)


def why_not() -> str:
    """Why pictures can't be drawn here, if so."""
    ran, _ = plot(ONE_EDGE)
    return ran.stderr.strip() if "matplotlib is missing" in ran.stderr else ""


class Runs(unittest.TestCase):
    """Runs of a scenario; what is expected is said of these examples in examples/README.md."""

    DARK = [(1, 4, "acquiring", "acquiring"), (5, 8, "locked", "voted"), (9, 18, "holdover", "held"),
            (19, 19, "unlocked", "expired"), (20, 3608, "unlocked", "no-vote"),
            (3609, 3612, "acquiring", "acquiring"), (3613, 3616, "locked", "voted")]

    def test_silences(self) -> None:
        self.assertEqual(runs_of(lane_of(example("dark_hour")).runs), self.DARK)

    def test_causes(self) -> None:
        runs = lane_of(example("replay_attack")).runs
        self.assertEqual(
            [(run.first, run.last, run.cause) for run in runs],
            [(1, 1, "acquiring"), (2, 9, "voted"), (10, 10, "jump"), (11, 11, "acquiring"),
             (12, 13, "voted")],
        )

    def test_a_reader_that_ticks_no_more(self) -> None:
        plant = scenario(2, "relay", "meter")
        plant.event("tick", r="meter")
        drawn = bars(plant.text())
        relay, meter = drawn.lanes
        self.assertEqual((relay.reader, runs_of(relay.runs)), ("relay", [(1, 2, "locked", "voted")]))
        self.assertEqual(meter.runs[-1].last, 3)
        self.assertEqual((drawn.first, drawn.last, drawn.last_line), (1, 3, "premises kept"))

    def test_a_reader_that_never_ticks(self) -> None:
        plant = scenario(0, "relay", "meter")
        plant.event("tick", r="meter")
        self.assertEqual([lane.reader for lane in bars(plant.text()).lanes], ["meter"])

    def test_ports(self) -> None:
        """The liar of one_liar."""
        ports = [[(lane.first, lane.last, lane.state) for lane in runs] for runs in lane_of(example("one_liar")).ports]
        self.assertEqual(ports, [
            [(1, 16, "agreed")],
            [(1, 4, "agreed"), (5, 8, "another second"), (9, 12, "another mark"), (13, 16, "agreed")],
            [(1, 16, "agreed")],
        ])

    def test_a_part(self) -> None:
        part = bars(example("dark_hour")).part(10, 20)
        self.assertEqual(
            runs_of(part.lanes[0].runs),
            [(10, 18, "holdover", "held"), (19, 19, "unlocked", "expired"), (20, 20, "unlocked", "no-vote")],
        )
        self.assertEqual((part.first, part.last, len(part.announced)), (10, 20, 9))


class Marks(unittest.TestCase):
    """Marks of the examples; an edge and a half is between two edges."""

    def marks(self, name: str) -> list[Mark]:
        return bars(example(name)).lanes[0].marks

    def test_leap_seconds(self) -> None:
        self.assertEqual(
            self.marks("leap_inserted"), [Mark(10, "leap second"), Mark(10.5, "month end")]
        )
        self.assertEqual(
            self.marks("leap_deleted"), [Mark(8.5, "deleted second"), Mark(8.5, "month end")]
        )

    def test_month_ends(self) -> None:
        self.assertEqual(self.marks("month_end_with_table"), [Mark(61.5, "month end")])
        with self.subTest("in a silence, from 23:59:58 at edge 60 on, in which no second was deleted"):
            self.assertEqual(self.marks("month_end_guard"), [Mark(61.5, "month end")])
        with self.subTest("a minute's end is none"):
            self.assertEqual(self.marks("plain_minute"), [])

    def test_what_is_never_announced(self) -> None:
        """Edge 1 is 23:59:59, edge 2 the leap second."""
        plant = Scenario("2016-12-31T23:59:58Z", [Reader("relay")], leaps=[Leap("2016-12-31")])
        plant.dark(4)
        self.assertEqual(lane_of(plant.text()).marks, [Mark(2, "leap second"), Mark(2.5, "month end")])

    def test_a_jump_to_another_month_is_no_month_end(self) -> None:
        plant = scenario(3)
        for generator in range(3):
            plant.fault(generator, "skew", by=30 * 86_400)
        plant.seconds(3)
        lane = lane_of(plant.text())
        self.assertEqual(runs_of(lane.runs)[1:], [(4, 4, "unlocked", "jump"), (5, 6, "locked", "voted")])
        self.assertEqual(lane.marks, [Mark(4, "premise broken")])

    def test_broken_premises(self) -> None:
        self.assertEqual(self.marks("two_liars"), [Mark(5, "premise broken")])
        with self.subTest("by a table, that denies the leap second"):
            self.assertEqual(self.marks("misled_by_table"), [Mark(60, "leap second")])


class Seconds(unittest.TestCase):
    """True seconds at edges, where leap seconds come, and behind the years served."""

    def utc(self, plant: Scenario, edges: int) -> list[str]:
        drawn = bars(plant.text())
        self.assertEqual(drawn.last, edges)
        return [str(drawn.utc(edge)) for edge in range(edges + 1)]

    def test_inserted(self) -> None:
        plant = Scenario("2016-06-30T23:59:58Z", [Reader("relay")], leaps=[Leap("2016-06-30")])
        plant.seconds(2)
        wanted = [f"2016-06-30T23:59:{second}Z" for second in (58, 59, 60)]
        self.assertEqual(self.utc(plant, 2), wanted)
        plant.seconds(2)
        self.assertEqual(self.utc(plant, 4), [*wanted, "2016-07-01T00:00:00Z", "2016-07-01T00:00:01Z"])

    def test_a_start_in_a_leap_second(self) -> None:
        plant = Scenario("2016-12-31T23:59:60Z", [Reader("relay")], leaps=[Leap("2016-12-31")])
        plant.seconds(2)
        self.assertEqual(self.utc(plant, 2), ["2016-12-31T23:59:60Z", "2017-01-01T00:00:00Z", "2017-01-01T00:00:01Z"])

    def test_deleted(self) -> None:
        plant = Scenario("2029-06-30T23:59:57Z", [Reader("relay")], leaps=[Leap("2029-06-30", "delete")])
        plant.seconds(3)
        wanted = ["2029-06-30T23:59:57Z", "2029-06-30T23:59:58Z", "2029-07-01T00:00:00Z", "2029-07-01T00:00:01Z"]
        self.assertEqual(self.utc(plant, 3), wanted)

    def test_behind_the_last_year(self) -> None:
        plant = Scenario("2099-12-30T23:59:58Z", [Reader("relay")])
        plant.seconds(1)
        plant.event("tick", r="relay")
        self.assertEqual(self.utc(plant, 2), ["2099-12-30T23:59:58Z", "2099-12-30T23:59:59Z", "None"])


class Devices(unittest.TestCase):
    """How far told seconds and stamps lay off: of leap_stamped lines lie 0, 350 and 700 us late, so that the middle
    one is 350 us late by true time, and what is stamped is as much too early, but for the counters' gain."""

    def lane(self, name: str, device: str) -> ReaderLanes:
        return next(lane for lane in bars(example(name)).lanes if lane.reader == device)

    def test_told_seconds(self) -> None:
        relay = self.lane("leap_stamped", "relay")
        self.assertEqual([(off.at, off.off_us, off.bound_us) for off in relay.told],
                         [(1, 349, None), *((edge, 349, 450) for edge in range(2, 8))])
        self.assertFalse(any(off.is_beyond for off in relay.told))

    def test_stamps(self) -> None:
        """Each of 23:59:60, which is edge 6: 6.3 s less 299,657 us behind it are 343 us."""
        found = [(off.at, off.off_us, off.said) for off in self.lane("leap_stamped", "relay").stamps]
        self.assertEqual(found, [(6.3, 343, "23:59:60 + 299657 us, 343 us early"),
                                 (6.9999, 330, "23:59:60 + 999570 us, 330 us early")])
        self.assertEqual(apart_of(bars(example("leap_stamped"))), 370 - 330)
        with self.subTest("none is given behind a restart"):
            given, gone, _ = self.lane("restart_in_leap", "relay").stamps
            self.assertEqual((given.bound_us, gone.bound_us, gone.said), (450, None, "no stamp"))
        with self.subTest("of another second"):
            lied, _ = self.lane("majority_healed", "relay").stamps
            self.assertEqual((lied.off_us, lied.is_beyond), (None, True))

    def test_beyond_the_bound(self) -> None:
        told = self.lane("late_lines", "relay").told
        self.assertEqual([off.at for off in told if off.is_beyond], [5, 6, 7])

    def test_marks_and_lines(self) -> None:
        lane = self.lane("liar_outvoted", "relay")
        self.assertEqual([(run.first, run.last, run.state) for run in lane.ports[1]],
                         [(1, 4, "agreed"), (5, 7, "another second"), (8, 8, "agreed")])
        self.assertEqual(self.lane("majority_healed", "relay").marks, [Mark(5, "premise broken")])
        leap = [Mark(6, "leap second"), Mark(6.5, "month end")]
        self.assertEqual(self.lane("leap_stamped", "recorder").marks, leap)


class Look(unittest.TestCase):
    """Who sees no colours tells states apart."""

    def test_states(self) -> None:
        def grey(colour: str) -> float:
            parts = [int(colour[at:at + 2], 16) for at in (1, 3, 5)]
            return sum(part * weight for part, weight in zip(parts, (0.299, 0.587, 0.114)))

        for one, other in combinations(STATES.values(), 2):
            if one.is_high == other.is_high:
                with self.subTest(one=one, other=other):
                    self.assertGreater(abs(grey(one.colour) - grey(other.colour)), 25)
                    self.assertNotEqual(one.pattern, other.pattern)
        for one, other in combinations(PORT_STATES.values(), 2):
            if one.is_high == other.is_high:
                with self.subTest(one=one, other=other):
                    self.assertGreater(abs(grey(one.colour) - grey(other.colour)), 25)

    def test_lies_alone_are_high(self) -> None:
        high = [name for name, state in PORT_STATES.items() if state.is_high]
        self.assertEqual(high, ["another second", "another mark"])


class Layout(unittest.TestCase):
    """Places on the axis, and labels."""

    def test_an_even_axis(self) -> None:
        run = irig.Lane("relay", None, "stood", 1, 5, "locked", "voted")
        scale = Scale(Bars([ReaderLanes("relay", [run])], 1, 10, "premises kept", [], []), 10.0)
        self.assertFalse(scale.is_cut)
        self.assertEqual([scale.place(edge) for edge in (0.5, 1, 10.5)], [0.0, 0.5, 10.0])

    def test_a_shortened_axis(self) -> None:
        scale = Scale(bars(example("dark_hour")), 7.6)
        self.assertTrue(scale.is_cut)
        places = [scale.place(edge) for edge in (0.5, 4.5, 8.5, 18.5, 3612.5, 3616.5)]
        self.assertEqual(places, sorted(places))
        self.assertEqual((places[0], round(places[-1], 9)), (0.0, 7.6))
        with self.subTest("edges that are not cut are equally wide"):
            self.assertAlmostEqual((places[2] - places[1]) / 4, (places[3] - places[2]) / 10)
            self.assertGreater((places[2] - places[1]) / 4, 0.03)

    def test_labels_cross_nothing(self) -> None:
        wanted = [ways(str(place), place, 1.0, 0.0, (0.0, 7.6)) for place in (6.9, 7.1, 7.4, 0.2, 0.3)]
        found = chosen(wanted, 3)
        self.assertEqual(len(found), 5)
        for (one, row), (other, below) in combinations(sorted(found, key=lambda each: each[1]), 2):
            with self.subTest(one=one, other=other):
                meet = one.left < other.right and other.left < one.right
                self.assertFalse(meet and row == below, "two texts")
                self.assertFalse(one.left < other.place < one.right and row < below, "a line")

    def test_no_room(self) -> None:
        crowd = [Label(str(number), 1.0, 0.5, 1.0) for number in range(4)]
        self.assertIsNone(rows_of(crowd[:2], 3))
        self.assertEqual(chosen([[label] for label in crowd], 3), [(crowd[0], 0)])


class Gallery(unittest.TestCase):
    def test_each_example_is_shown(self) -> None:
        shown = re.findall(r"\]\(\.\./docs/gallery/(\w+)\.svg\)", (ROOT / "examples/README.md").read_text())
        self.assertEqual(sorted(shown), [Path(case.name).stem for case in examples()])


class Pictures(unittest.TestCase):
    """Pictures, and what is said where there is none."""

    @classmethod
    def setUpClass(cls) -> None:
        if why := why_not():
            print(f"skipped: pictures are not drawn: {why}")
            raise unittest.SkipTest(why)

    def test_what_is_written(self) -> None:
        ran, picture = plot(example("month_end_guard"), "--title", "a <month> end")
        self.assertEqual((ran.returncode, ran.stderr), (0, ""))
        found = texts(picture)
        for text in ("61: leap-guard", "62 to 64: no-vote", "month ends", "relay", "23:59:58",
                     "edge (one a second), and UTC", "holdover: announces, counting alone"):
            self.assertIn(text, found)
        self.assertTrue(any("premises kept" in text for text in found))

    def test_ports_are_written(self) -> None:
        """Port 0 is silent, then of poor quality, and port 2 then lies; that of one_liar lies of a leap second too."""
        plant = scenario(1)
        plant.fault(0, "silent")
        plant.seconds(1)
        plant.fault(0, "quality", q=10)
        plant.fault(2, "skew", by=5)
        plant.seconds(1)
        ran, picture = plot(plant.text())
        self.assertEqual((ran.returncode, ran.stderr), (0, ""))
        found = texts(picture)
        for text in ("0", "1", "2", "port: agreed with the scenario", "port: told nothing",
                     "port: told a poor quality", "port: told another second", "3: 5 s ahead, port 2"):
            self.assertIn(text, found)
        self.assertNotIn("port: told a fault", found)
        self.assertIn("standard input: how each reader stood, and what its ports told", found)
        self.assertIn("port: told another mark", texts(plot(example("one_liar"))[1]))

    def test_utc_and_offsets(self) -> None:
        """The plant starts at 23:59:59: edge 1 is the leap second, and of a clock that has none the first frame
        is 17 s ahead, the next ones 18 s. In two_liars the reader is an hour ahead from edge 7 on."""
        text = (ROOT / "cases/blame_gps_time_over_a_leap/scenario.jsonl").read_text()
        found, part = texts(plot(text)[1]), texts(plot(text, "--edges", "2-2")[1])
        for text in ("1 to 3: 17 s ahead at first, 18 s ahead at last, port 1", "23:59:60", "2016-12-31",
                     "00:00:00", "2017-01-01", "00:00:01", "edge (one a second), and UTC"):
            self.assertIn(text, found)
        self.assertIn("2: 17 s ahead at first, 18 s ahead at last, port 1", part)
        misled = texts(plot(example("two_liars"))[1])
        for text in ("7 to 10: 1 h ahead", "5 to 10: 1 h ahead, port 0, port 1", "12:00:07"):
            self.assertIn(text, misled)

    def test_a_short_lie_is_drawn_wider(self) -> None:
        rare, one = scenario(0), scenario(9_999)
        one.second({(1, "relay"): Replay(0)})
        one.seconds(10_000)
        for _ in range(400):
            rare.second({(1, "relay"): Replay(0)})
            rare.seconds(49)
        says = "short silences and lies are drawn wider than they are"
        self.assertFalse(any(says in text for text in texts(plot(one.text())[1])), "it is cut")
        self.assertTrue(any(says in text for text in texts(plot(rare.text())[1])))

    def test_a_title_is_no_formula(self) -> None:
        ran, picture = plot(ONE_EDGE, "--title", "$x^2$ " * 30)
        self.assertEqual(ran.stderr, "")
        self.assertTrue(any("$x^2$ $x^2$" in text for text in texts(picture)))

    def test_last_lines(self) -> None:
        for text, last in ((example("two_liars"), "premises broken: edge 5 reader relay"),
                           (example("misled_by_table"), "premises broken: table of reader relay"),
                           (f"{ONE_EDGE}[]\n", "refused: line 3: 25 Shape"), (ONE_EDGE, "premises kept")):
            with self.subTest(last):
                self.assertTrue(any(last in text for text in texts(plot(text)[1])))

    def test_a_refused_line(self) -> None:
        """What comes before it is drawn, and the line is named with what is wrong there."""
        ran, picture = plot(ONE_EDGE + '{"do":"tick","r":"\33"}\n')
        self.assertEqual((ran.returncode, ran.stdout), (0, ""))
        self.assertRegex(ran.stderr, r"\Aplot: line 3: \d+ \w+: [ -~]*; what comes before that line is shown\n\Z")
        self.assertIn(f"first announced: 2016-06-15T12:00:01Z at edge 1; last: {START.replace('00Z', '01Z')} at edge 1",
                      texts(picture))

    def test_a_log_is_not_needed(self) -> None:
        """As plot was once called: one line of warning, and the picture is the scenario's."""
        file = str(ROOT / "examples/one_liar.jsonl")
        ran, picture = plot("not read", "--scenario", file)
        self.assertEqual((ran.returncode, ran.stdout, ran.stderr.count("\n")), (0, "", 1))
        self.assertIn("plot: a log is not needed any more", ran.stderr)
        self.assertEqual(picture, plot(example("one_liar"), "--title", "one_liar")[1])

    def test_many_readers_with_long_names(self) -> None:
        names = [f"protection_no_{number:02}" for number in range(16)]
        ran, picture = plot(scenario(1, *names).text())
        self.assertEqual(ran.stderr, "")
        self.assertTrue(set(names) <= set(texts(picture)))

    def test_a_part(self) -> None:
        text = example("month_end_guard")
        found = texts(plot(text, "--edges", "50-68")[1])
        self.assertIn("61: leap-guard", found)
        seconds = "2017-03-31T23:59:48Z at edge 50; last: 2017-04-01T00:00:06Z at edge 68"
        self.assertIn(f"first announced: {seconds}", found)
        self.assertNotIn("61: leap-guard", texts(plot(text, "--edges", "1-60")[1]))

    def test_other_endings(self) -> None:
        for name, begins in (("a.png", "PNG"), ("a.pdf", "%PDF")):
            self.assertIn(begins, plot(ONE_EDGE, name=name)[1][:8])

    def test_a_hundred_thousand_edges(self) -> None:
        """Without a frame, or with a restart behind each second one."""
        alike, crowded = Scenario(START, [Reader("relay")]), Scenario(START, [Reader("relay")])
        alike.dark(100_000)
        for _ in range(50_000):
            crowded.seconds(2)
            crowded.restart("relay")
        for name, plant, is_crowded in (("alike", alike, False), ("alternating", crowded, True)):
            text, begun = plant.text(), time.monotonic()
            ran, picture = plot(text)
            with self.subTest(name):
                self.assertEqual(ran.stderr, "")
                self.assertLess(time.monotonic() - begun, 20)
                self.assertLess(len(picture), 1_000_000)
                for says in ("more silences: zoom in", "short silences and lies are drawn wider than they are"):
                    self.assertEqual(any(says in text for text in texts(picture)), is_crowded)

    def test_the_same_bytes(self) -> None:
        text = example("leap_inserted")
        self.assertEqual(plot(text)[1], plot(text)[1])

    def test_the_gallery(self) -> None:
        compare_pictures(self, ROOT / "tools/gallery", ROOT / "docs", ENVIRONMENT)

    def test_what_a_fault_does(self) -> None:
        """By the table of docs/WIRES.md: most faults are of element 2, in the second behind edge 2. In two_markers a
        frame begins at element 3, and has 97 pulses. One cable is plugged there, and one is out for a second."""
        from parts.wire_pictures import FAULTS, pulses_to, words_of

        told = {"no_fault": "ok", "pulse_lost": "Short 2", "pulse_late": "Short 2", "pulse_cut_in_two": "Short 3",
                "glitch": "Short 3", "glitch_9_ms_on": "Short 4", "first_pulse_lost": "silence",
                "first_no_marker": "Marker 0", "other_symbol": "Parity", "pulse_too_narrow": "Pulse 2",
                "pulse_too_wide": "Marker 2", "two_markers": "Short 97"}
        rows = {name: ["ok", word, "ok", "ok"] for name, word in told.items()}
        rows["last_pulse_lost"] = ["Short 99", "ok", "ok", "ok"]
        rows["cable_plugged"] = ["silence", "silence", "ok", "ok"]
        rows["cable_pulled"] = ["ok", "Short 2", "silence", "ok"]
        with mock.patch.dict(os.environ, ENVIRONMENT):
            self.assertEqual({name: words_of(pulses_to(FAULTS, name)) for name in rows}, rows)
        shown = texts((ROOT / "docs/wires/faults.svg").read_text())
        self.assertLessEqual({name.replace("_", " ") for name in rows}, set(shown))

    def test_a_second_has_the_numbers_of_its_caption(self) -> None:
        caption = re.search(r"!\[(The end of a frame.*?)\]", (ROOT / "docs/WIRES.md").read_text(), re.S)
        shown = "\n".join(texts((ROOT / "docs/wires/second.svg").read_text()))
        numbers = set(re.findall(r"\d[\d:,]*\d", caption[1]))
        self.assertEqual(numbers, {"300", "700", "450", "4,000,300", "4,021,300", "21,000", "00:00:00"})
        for number in numbers:
            self.assertIn(number, shown)


class Names(unittest.TestCase):
    def test_a_title_that_is_not_printable(self) -> None:
        if why := why_not():
            self.skipTest(why)
        ran, picture = plot(ONE_EDGE, "--title", "\33\udcff")
        self.assertEqual((ran.returncode, ran.stderr), (0, ""))
        self.assertIn("\\x1b\\udcff: how each reader stood", picture)


class Refusals(unittest.TestCase):
    """One line for each mistake, status 2, and no picture."""

    @classmethod
    def setUpClass(cls) -> None:
        if why := why_not():
            raise unittest.SkipTest(why)

    def test_what_is_no_scenario(self) -> None:
        for text, says in (
            ("", "plot: -: it does not begin with a plant line; a picture is made of a scenario, not of its log"),
            ((ROOT / "examples/one_liar.log").read_text(), "plot: -: it does not begin with a plant line"),
            (scenario(0).text(), "plot: -: no edges to draw: it says 'premises kept' alone"),
            ('{"version":9}', "plot: -: no edges to draw: line 1: 27 Version: "),
        ):
            with self.subTest(text):
                self.says(says, *plot(text))

    def test_no_memory(self) -> None:
        """For the run, for what is drawn of it, and for the picture: status 6 is that of c/irig_scene.h."""
        for name in ("run_entries", "run_lanes", "run_stretches"):
            with self.subTest(name), mock.patch(f"irig._library.{name}", lambda *words: 6, create=True):
                self.says("plot: -: out of memory\n", *plot(ONE_EDGE))
        with mock.patch("parts.drawing.draw", side_effect=MemoryError):
            self.says("/a.svg: out of memory\n", *plot(ONE_EDGE))

    def test_words(self) -> None:
        for options, says in (
            (["--edges", "5"], "'5' is not of the form FROM-TO"),
            (["--edges", "2-9"], "it has no edges 2-9; it goes from 1 to 1"),
            (["-o", "/no/such/folder/a.svg"], "No such file or directory"),
            (["-o", "a.gif"], "ends with none of .svg, .png, .pdf"),
            (["--wide"], "unrecognized arguments: --wide"),
        ):
            with self.subTest(says):
                self.says(says, *plot(ONE_EDGE, *options))

    def says(self, text: str, ran: subprocess.CompletedProcess, picture: str) -> None:
        self.assertEqual((ran.returncode, ran.stdout, picture), (2, "", ""))
        self.assertIn(text, ran.stderr)
        self.assertEqual(ran.stderr.count("\n"), 1)


if __name__ == "__main__":
    if not find_spec("matplotlib") and sys.executable != DEBIAN and os.path.exists(DEBIAN):
        os.execv(DEBIAN, [DEBIAN, *sys.argv])
    unittest.main()
