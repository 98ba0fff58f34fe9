"""Timekeepers: what they tell, by frames and without, and what they refuse."""
from __future__ import annotations

import copy
import unittest

import irig
from irig import Beat, Second, Stamp, Timekeeper, Zone

WRAP = 1 << 32
VOTE_US = 450  # how far from its true edge that of a vote may lie, if lines end together
FRAME = irig.frame("2016-12-31T23:59:60Z")  # at its end 2017-01-01T00:00:00Z begins


def told(keeper: Timekeeper, now_us: int) -> Beat:
    """What a tick says, which has something to say."""
    beat = keeper.tick(now_us)
    assert beat is not None
    return beat


def hear_frame(keeper: Timekeeper, frame: str, start_us: int, *lines: int) -> None:
    """Lines send one frame side by side."""
    for element, width in enumerate(irig.widths(frame)):
        for line in lines:
            place = keeper.hear(line, start_us + 10_000 * element, width)
            assert place == element + 1


class Ticks(unittest.TestCase):
    def voted(self, ports: int = 3) -> Timekeeper:
        """A timekeeper that has told edge 0, which was voted."""
        keeper = Timekeeper(1, 20, drift_us=50, ports=ports)
        hear_frame(keeper, FRAME, -1_000_000, *range(ports))
        self.assertEqual(str(told(keeper, 0)), "2017-01-01T00:00:00Z locked voted")
        return keeper

    def test_a_frame(self) -> None:
        for ports in (1, 3, 5):
            for start_us in (0, 5_000_000, WRAP - 500_000, 7 * WRAP - 10):
                with self.subTest(ports=ports, start_us=start_us):
                    keeper = Timekeeper(lock_after=1, drift_us=0, ports=ports)
                    hear_frame(keeper, FRAME, start_us, *range(ports))
                    end_us = start_us + 1_000_000
                    self.assertEqual(keeper.wait(end_us - 77), 77)
                    self.assertIsNone(keeper.tick(end_us - 1))
                    beat = told(keeper, end_us + 95_000)
                    self.assertEqual(str(beat), "2017-01-01T00:00:00Z locked voted")
                    self.assertEqual((beat.edge_us, beat.bound_us), (end_us % WRAP, 449))
                    self.assertEqual(beat.report.agreed, tuple(range(ports)))

    def test_the_middle_between_two_ends(self) -> None:
        """Of lines that end so much late: where the edge is told, and how far that may lie off."""
        for ports, within_us, late_us, edge_us, bound_us in (
            (3, 450, {0: 0, 1: 400, 2: 898}, 400, 450),
            (3, 450, {0: 0, 2: 898}, 449, 899),
            (3, 450, {1: 0, 2: 301}, 150, 601),
            (3, 450, {0: 0, 1: 898, 2: -3_000}, 0, 450),
            (3, 450, {0: 0, 1: 898, 2: -3_001}, 449, 899),
            (5, 450, {0: 0, 1: 10, 3: 21}, 10, 461),
            (5, 450, {0: 0, 1: 10, 3: 21, 4: 3_000}, 15, 456),
            (3, 10, {0: 0, 1: 18}, 9, 19),
            (3, 1, {0: 7, 1: 7, 2: 8}, 7, 1),
            (1, 20, {0: 5}, 5, 20),
        ):
            with self.subTest(within_us=within_us, late_us=late_us):
                keeper = Timekeeper(1, drift_us=3, within_us=within_us, ports=ports)
                for line, late in late_us.items():
                    hear_frame(keeper, FRAME, late, line)
                self.assertIsNone(keeper.tick(1_000_000 + edge_us - 1))
                self.assertEqual(keeper.wait(1_000_000), edge_us)
                beat = told(keeper, 1_000_000 + edge_us)
                self.assertEqual((beat.edge_us, beat.bound_us), (1_000_000 + edge_us, bound_us))
                held = told(keeper, 3_500_000)
                self.assertEqual((held.missed, held.bound_us), (1, bound_us + 2 * 3))

    def test_clocks_that_say_how_far_off_they_are(self) -> None:
        """Each line says a quality, 5 for 10 us, 6 for 100 and 7 for 1,000, and ends so much late. Its edge lies
        within that and within_us - 1 of the end. The vote's lies between the second of three last times and the second
        of three first ones, the third of five, and of two between all; the bound has 1 us more for the drift."""
        for ports, within_us, said, edge_us, bound_us in (
            (3, 450, {0: (5, 10), 1: (5, -10), 2: (5, -10)}, -10, 460),
            (3, 10, {0: (5, 10), 1: (5, -10), 2: (5, -10)}, -10, 20),
            (3, 450, {0: (6, 0), 2: (6, 1_098)}, 549, 1_099),
            (3, 10, {0: (6, 0), 2: (6, 218)}, 109, 219),
            (3, 450, {1: (7, 0), 2: (7, 2_898)}, 1_449, 2_899),
            (3, 10, {1: (7, 0), 2: (7, 2_018)}, 1_009, 2_019),
            (3, 450, {0: (0, 449), 1: (7, 1_449), 2: (5, -459)}, 449, 450),
            (3, 10, {0: (0, 9), 1: (7, 1_009), 2: (5, -19)}, 9, 10),
            (3, 450, {0: (0, 0), 1: (7, -1_449)}, -1_225, 1_675),
            (3, 10, {0: (0, 0), 1: (7, -1_009)}, -1_005, 1_015),
            (5, 450, {0: (7, 1_000), 1: (7, -1_000), 2: (7, 0), 3: (4, 1), 4: (4, -1)}, 0, 452),
            (5, 10, {0: (7, 1_000), 1: (7, -1_000), 2: (7, 0), 3: (6, 100)}, 0, 1_010),
            (1, 10, {0: (7, 1_000)}, 1_000, 1_010),
            (1, 450, {0: (6, -100)}, -100, 550),
        ):
            with self.subTest(within_us=within_us, said=said):
                keeper = Timekeeper(1, drift_us=1, within_us=within_us, ports=ports, poor_from=8)
                for line, (quality, late_us) in said.items():
                    frame = irig.frame("2016-12-31T23:59:60Z", quality=quality)
                    hear_frame(keeper, frame, 5_000_000 + late_us, line)
                beat = told(keeper, 6_003_000)
                self.assertEqual((beat.edge_us, beat.bound_us), (6_000_000 + edge_us, bound_us))
                self.assertEqual([beat.lines[line] for line in said], ["agreed"] * len(said))
                stamp = keeper.stamp(6_250_000)
                self.assertEqual(stamp, Stamp(Second.read("2017-01-01T00:00:00Z"), 250_000 - edge_us, bound_us))

    def test_lines_that_end_too_far_apart(self) -> None:
        """By 1 us, of the most of which clocks agree that say the same quality, or one that and the other 0."""
        for within_us, qualities, late_us in (
            (450, (0, 0), 899), (10, (0, 0), 19), (1, (0, 0), 1), (450, (5, 5), 919), (10, (6, 6), 219),
            (450, (7, 7), 2_899), (10, (0, 7), 1_019), (10, (7, 0), 1_019),
        ):  # fmt: skip
            for more_us in (-1, 0):
                keeper = Timekeeper(1, drift_us=0, within_us=within_us, poor_from=8)
                for line, quality in enumerate(qualities):
                    frame = irig.frame("2016-12-31T23:59:60Z", quality=quality)
                    hear_frame(keeper, frame, line * (late_us + more_us), line)
                self.assertEqual(keeper.tick(1_003_000) is None, more_us == 0)

    def test_a_line_that_is_further_off_than_its_clock_says(self) -> None:
        """Two lines end together, and their edge is told within 9 us. The third one is 9 us and what it says further
        off than that, or 1 us more."""
        for quality, off_us in ((0, 0), (4, 1), (5, 10), (6, 100), (7, 1_000)):
            for more_us, state in ((0, "agreed"), (1, "apart")):
                keeper = Timekeeper(1, drift_us=0, within_us=10, poor_from=8)
                hear_frame(keeper, FRAME, 0, 0, 1)
                frame = irig.frame("2016-12-31T23:59:60Z", quality=quality)
                hear_frame(keeper, frame, 18 + off_us + more_us, 2)
                beat = told(keeper, 1_003_000)
                self.assertEqual((beat.edge_us, beat.bound_us), (1_000_000, 9))
                self.assertEqual(beat.lines, ("agreed", "agreed", state))

    def test_a_first_day(self) -> None:
        voted = "2017-01-01T00:00:00Z locked voted"
        for first, says in (("2016-12-31", voted), ("2017-01-01", "None")):
            keeper = Timekeeper(lock_after=1, drift_us=0, not_before=first)
            hear_frame(keeper, FRAME, 0, 0, 1, 2)
            self.assertEqual(str(keeper.tick(1_000_000)), says)

    def test_what_frames_say_beside_the_time(self) -> None:
        keeper = Timekeeper(lock_after=2, drift_us=10)
        frame = irig.frame("2016-12-31T12:00:00Z", local=2, dst=True, quality=2)
        hear_frame(keeper, frame, 0, 0, 2)
        beat = told(keeper, 1_000_000)
        self.assertEqual(str(beat), "- acquiring:1 acquiring")
        self.assertEqual((beat.report.agreed, beat.report.quality), ((0, 2), 2))
        self.assertEqual(beat.report.zone, Zone(2, True))
        held = told(keeper, 2_006_000).report
        self.assertEqual((held.agreed, held.quality, held.zone), ((), 15, None))

    def test_clocks_that_say_that_they_are_off(self) -> None:
        """Without a setting quality 7 has no vote, which is 1 ms, and by no setting has 8, which is 10 ms."""
        for words, quality, has_vote in (
            ({}, 6, True), ({}, 7, False), ({"poor_from": 8}, 7, True), ({"poor_from": 8}, 8, False),
            ({"poor_from": 1}, 0, True), ({"poor_from": 1}, 1, False),
        ):  # fmt: skip
            keeper = Timekeeper(1, drift_us=0, **words)
            hear_frame(keeper, irig.frame("2016-12-31T12:00:00Z", quality=quality), 0, 0, 1, 2)
            state = "unjudged" if has_vote else "poor"
            self.assertEqual([keeper.line(line).state for line in range(3)], [state] * 3)
            self.assertEqual(keeper.tick(1_000_000) is not None, has_vote)

    def test_an_edge_that_lines_move(self) -> None:
        """The own one lies 11 ms before theirs, and is told 3 ms before their last pulse ends."""
        keeper, frame = self.voted(), irig.widths(irig.frame("2017-01-01T00:00:00Z"))
        for line in range(3):
            for element, width in enumerate(frame[:99]):
                keeper.hear(line, 11_000 + 10_000 * element, width)
        self.assertIsNone(keeper.tick(1_005_999))
        self.assertEqual(str(told(keeper, 1_006_000)), "2017-01-01T00:00:01Z holdover:1 held")
        for line in range(3):
            self.assertEqual(keeper.hear(line, 1_001_000, frame[99]), 100)
        self.assertIsNone(keeper.tick(1_011_000))
        beat = told(keeper, 2_017_000)
        self.assertEqual((beat.edge_us, beat.missed, beat.moved), (2_011_000, 0, 1))

    def test_stamps_by_the_last_two_seconds(self) -> None:
        keeper = self.voted()
        told(keeper, 1_006_000)
        seconds = [Second.read(f"2017-01-01T00:00:0{place}Z") for place in range(2)]
        for time_us, stamp in (
            (2_000_000 + VOTE_US + 50, Stamp(seconds[1], 1_000_000 + VOTE_US + 50, VOTE_US + 50)),
            (2_000_000 + VOTE_US + 51, None),
            (1_000_000, Stamp(seconds[1], 0, VOTE_US + 50)),
            (999_999, Stamp(seconds[0], 999_999, VOTE_US)),
            (0, Stamp(seconds[0], 0, VOTE_US)),
            (-1, None),
        ):
            self.assertEqual(keeper.stamp(time_us), stamp)

    def test_how_lines_stand(self) -> None:
        keeper = Timekeeper(lock_after=1, drift_us=10, ports=5)
        hear_frame(keeper, FRAME, 0, 0, 2, 4)
        hear_frame(keeper, irig.frame("2017-01-01T01:00:00Z"), 0, 1)
        hear_frame(keeper, irig.frame("2016-12-31T23:59:60Z", parity="odd"), 0, 3)
        report = told(keeper, 1_000_000).report
        self.assertEqual((report.agreed, report.differed), ((0, 2, 4), (1,)))
        self.assertEqual((report.faulty, report.poor), ((3,), ()))

    def test_missed_seconds(self) -> None:
        keeper = self.voted()
        beat = told(keeper, 3_500_000)
        self.assertEqual(str(beat), "2017-01-01T00:00:03Z holdover:3 held")
        self.assertEqual((beat.edge_us, beat.missed, beat.moved), (3_000_000, 2, 0))
        beat = told(keeper, 24_500_000)
        self.assertEqual(str(beat), "- unlocked no-vote")
        self.assertEqual((beat.edge_us, beat.missed), (24_000_000, 20))

    def test_a_leap_that_only_the_table_knows(self) -> None:
        """Frames said nothing of it."""
        known = {"until": "2017-06-30", "leaps": [irig.Leap("2016-12-31")]}
        keeper = Timekeeper(lock_after=1, drift_us=7, **known)
        hear_frame(keeper, irig.frame("2016-12-31T23:58:59Z"), 0, 0, 1, 2)
        self.assertEqual(str(told(keeper, 1_000_000)), "2016-12-31T23:59:00Z locked voted")
        beat = told(keeper, 61_500_000)
        self.assertEqual(str(beat), "2016-12-31T23:59:60Z holdover:60 held")
        self.assertEqual((beat.edge_us, beat.missed), (61_000_000, 59))
        stamp = Stamp(Second.read("2016-12-31T23:59:60Z"), 500_000, VOTE_US + 60 * 7)
        self.assertEqual(keeper.stamp(61_500_000), stamp)

    def test_stamps_between_two_edges(self) -> None:
        """A second that is longer by the counter than its bound says has a stamp up to the next one."""
        keeper = Timekeeper(1, 20, drift_us=50, within_us=10)
        hear_frame(keeper, FRAME, -1_000_000, 0, 1, 2)
        told(keeper, 0)
        hear_frame(keeper, irig.frame("2017-01-01T00:00:00Z"), 60, 0, 1, 2)
        first, second = (Second.read(f"2017-01-01T00:00:0{place}Z") for place in range(2))
        self.assertIsNone(keeper.stamp(1_000_011))
        self.assertEqual(told(keeper, 1_000_060).strays, 0)
        self.assertEqual(keeper.stamp(1_000_059), Stamp(first, 1_000_059, 10))
        self.assertEqual(keeper.stamp(1_000_060), Stamp(second, 0, 10))

    def test_strays(self) -> None:
        """Votes that differ from whole seconds by more than both bounds and the drift between."""
        for late_us, strays in ((950, 0), (951, 1), (-950, 0), (-951, 1), (300_000, 1)):
            keeper = self.voted()
            hear_frame(keeper, irig.frame("2017-01-01T00:00:00Z"), late_us, 0, 1, 2)
            keeper.tick(1_000_000 + late_us)
            self.assertEqual(keeper.strays, strays)
            self.assertEqual(told(keeper, 2_006_000 + late_us).strays, strays)
            keeper.restart()
            self.assertEqual(keeper.strays, 0)

    def test_what_strayed_is_not_held(self) -> None:
        """Behind a stray as many seconds have to be voted as the holdover says, and none is held."""
        keeper = Timekeeper(1, 2, drift_us=50)
        hear_frame(keeper, FRAME, -1_000_000, 0, 1, 2)
        told(keeper, 0)
        wanted = []
        for second in range(4):
            hear_frame(keeper, irig.frame(f"2017-01-01T00:00:0{second}Z"), second * 1_000_000 + 2_000, 0, 1, 2)
            beat = told(keeper, (second + 1) * 1_000_000 + 2_000)
            wanted.append((beat.strays, beat.doubt, str(beat.report.second)))
        self.assertEqual(wanted, [(1, max(0, 2 - second), f"2017-01-01T00:00:0{second + 1}Z") for second in range(4)])
        self.assertEqual(str(told(keeper, 5_008_000)), "2017-01-01T00:00:05Z holdover:1 held")

    def test_doubt(self) -> None:
        keeper = self.voted()
        hear_frame(keeper, irig.frame("2017-01-01T00:00:00Z"), 951, 0, 1, 2)
        self.assertEqual(told(keeper, 1_000_951).doubt, 20)
        beat = told(keeper, 2_007_000)
        self.assertEqual((beat.report.second, beat.report.cause, beat.doubt), (None, "held", 20))
        self.assertIsNone(keeper.stamp(2_100_000))

    def test_a_leap_table(self) -> None:
        """A table knows of a second that frames say is not inserted: that second is silent, unless frames are
        preferred."""
        for prefers, said in ((False, "- unlocked leap-guard"), (True, "2017-01-01T00:00:00Z locked voted")):
            keeper = Timekeeper(
                1, drift_us=50, prefers_frames=prefers, until="2017-06-30", leaps=[irig.Leap("2016-12-31")]
            )
            for second, text in ((58, "2016-12-31T23:59:59Z locked voted"), (59, said)):
                hear_frame(keeper, irig.frame(f"2016-12-31T23:59:{second}Z"), (second - 58) * 1_000_000, 0, 1, 2)
                beat = told(keeper, (second - 57) * 1_000_000)
                self.assertEqual((str(beat), beat.against_table), (text, True))
            self.assertEqual(keeper.prefers_frames, prefers)

    def test_how_long_seconds_are(self) -> None:
        """Of each edge it is known to 450 us on both sides, and a second later to 50 us more."""
        keeper = self.voted()
        self.assertIsNone(keeper.rate())
        hear_frame(keeper, irig.frame("2017-01-01T00:00:00Z"), 0, 0, 1, 2)
        told(keeper, 1_000_000)
        self.assertEqual(keeper.rate(), irig.Rate(1, 999_100_000, 1_000_900_000))
        told(keeper, 2_006_000)
        self.assertEqual(keeper.rate(), irig.Rate(2, 999_525_000, 1_000_475_000))
        keeper.restart()
        self.assertIsNone(keeper.rate())

    def test_a_counter_is_learned(self) -> None:
        """The counter is 37 us a second fast, and one second of ten is voted. Nine seconds behind a vote that
        is good to 20 us, a drift of 50 us a second leaves 470 us. What is learned leaves 30: 1,200 s are
        known to 40 us, so that their mean lies within 17 ns of the middle, and each second within 1,000 and
        1 ns of that."""
        for wander_ppb, most_us in ((0, 470), (1_000, 30)):
            keeper, second = Timekeeper(1, 100, drift_us=50, within_us=10, wander_ppb=wander_ppb), Second.read("2017-01-01T00:00:00Z")
            bounds = []
            for number in range(1_201):
                begin_us = number * 1_000_037
                if number % 10 == 0:
                    for element, width in enumerate(irig.widths(irig.frame(second))):
                        for line in (0, 1):
                            keeper.hear(line, begin_us + element * 1_000_037 // 100, width)
                second += 1
                beat = told(keeper, begin_us + 1_020_037)
                self.assertEqual(beat.report.second, second)
                self.assertLessEqual(abs(beat.edge_us - begin_us - 1_000_037), beat.bound_us)
                bounds.append(beat.bound_us)
                self.assertTrue(number > 999 or keeper.pace() is None)
            with self.subTest(wander_ppb=wander_ppb):
                self.assertEqual(keeper.pace(), irig.Pace(1_000_037_000, 1_018) if wander_ppb else None)
                self.assertGreater(max(bounds[:1_000]), 450)
                self.assertTrue(most_us - 20 <= max(bounds[1_001:]) <= most_us, max(bounds[1_001:]))

    def test_delays(self) -> None:
        """A line that is late by a constant time is as exact as others."""
        late_us = (4_000, -4_000, 37)
        keeper = Timekeeper(1, drift_us=0, within_us=1, delay_us=late_us)
        for line, delay_us in enumerate(late_us):
            hear_frame(keeper, FRAME, delay_us, line)
        beat = told(keeper, 1_000_000)
        self.assertEqual((beat.edge_us, beat.bound_us, keeper.delay_us), (1_000_000, 0, late_us))
        self.assertEqual(beat.lines, ("agreed",) * 3)
        for wrong in ((4_001,), (0, -4_001), (0, 0, 0, 0)):
            self.assertRaisesRegex(irig.Fault, "delay_us", Timekeeper, drift_us=0, delay_us=wrong)

    def test_lines(self) -> None:
        """What lines are before a second is told, and when one is."""
        keeper = Timekeeper(1, drift_us=0, ports=5, within_us=10)
        self.assertEqual([keeper.line(line).state for line in range(5)], ["silent"] * 5)
        hear_frame(keeper, FRAME, 0, 0, 1)
        hear_frame(keeper, FRAME, 18, 2)
        hear_frame(keeper, FRAME, 60, 3)
        keeper.hear(4, 900_000, 8_000)
        states = [(line.state, line.off_us) for line in map(keeper.line, range(5))]
        self.assertEqual(states, [("unjudged", 0), ("unjudged", 0), ("unjudged", 18), ("unjudged", 60), ("broken", 0)])
        beat = told(keeper, 1_000_060)
        self.assertEqual(beat.lines, ("agreed", "agreed", "agreed", "apart", "broken"))
        self.assertEqual((beat.edge_us, beat.bound_us, keeper.line(3).off_us), (1_000_009, 18, 51))
        self.assertRaisesRegex(irig.Fault, "line is 5; 0 to 4", keeper.line, 5)

    def test_uneven_frames(self) -> None:
        """A frame whose last pulse comes early has no vote."""
        keeper = Timekeeper(1, drift_us=0, ports=1, within_us=10)
        widths = irig.widths(FRAME)
        for element, width in enumerate(widths[:-1]):
            keeper.hear(0, 10_000 * element, width)
        self.assertEqual(keeper.hear(0, 989_981, widths[-1]), 100)
        self.assertEqual((keeper.line(0).state, keeper.tick(1_000_000)), ("uneven", None))

    def test_qualities(self) -> None:
        for bound_us, quality in (
            (0, 4), (1, 4), (2, 5), (10, 5), (11, 6), (449, 7), (899, 7), (1_000, 7), (1_001, 8),
            (492_899, 10), (1_000_000, 10), (1_000_001, 15), (WRAP - 1, 15),
        ):  # fmt: skip
            self.assertEqual(irig.quality_of(bound_us), quality)
        self.assertRaisesRegex(irig.Fault, "bound_us is -1; 0 to", irig.quality_of, -1)

    def test_nothing_was_heard(self) -> None:
        keeper = Timekeeper(drift_us=100)
        self.assertEqual(keeper.wait(77), 1_000_000)
        self.assertIsNone(keeper.tick(77))
        self.assertIsNone(keeper.stamp(77))

    def test_restart(self) -> None:
        keeper = self.voted()
        self.assertEqual(keeper.stamp(5), Stamp(Second.read("2017-01-01T00:00:00Z"), 5, VOTE_US))
        keeper.restart()
        self.assertEqual(keeper, Timekeeper(1, 20, drift_us=50))
        self.assertIsNone(keeper.stamp(5))


class Refusals(unittest.TestCase):
    def says(self, says: str, number: int = 26, **words: object) -> None:
        with self.subTest(words), self.assertRaises(irig.Fault) as caught:
            Timekeeper(**words)
        self.assertEqual(caught.exception.number, number)
        self.assertEqual(str(caught.exception), says)

    def test_setups(self) -> None:
        for ports in (1, 3, 5):
            self.assertEqual(
                repr(Timekeeper(60, 1_000_000, drift_us=0, ports=ports)),
                "Timekeeper(lock_after=60, holdover=1000000, drift_us=0, within_us=450, "
                f"wander_ppb=0, prefers_frames=False, ports={ports})",
            )
        for words, says in (
            ({"drift_us": -1}, "drift_us is -1; 0 to 100 may stand here"),
            ({"drift_us": 101}, "drift_us is 101; 0 to 100 may stand here"),
            ({"drift_us": WRAP + 1}, "drift_us is 4294967297; 0 to 100 may stand here"),
            ({"within_us": 0}, "within_us is 0; 1 to 450 may stand here"),
            ({"within_us": 451}, "within_us is 451; 1 to 450 may stand here"),
            ({"within_us": 65_537}, "within_us is 65537; 1 to 450 may stand here"),
            ({"wander_ppb": -1}, "wander_ppb is -1; 0 to 100000 may stand here"),
            ({"wander_ppb": 100_001}, "wander_ppb is 100001; 0 to 100000 may stand here"),
            ({"wander_ppb": WRAP}, "wander_ppb is 4294967296; 0 to 100000 may stand here"),
            ({"poor_from": 0}, "poor_from is 0; 1 to 8 may stand here"),
            ({"poor_from": 9}, "poor_from is 9; 1 to 8 may stand here"),
        ):
            self.says(f"26 Value: {says}", **{"drift_us": 10, **words})
        self.assertRaisesRegex(TypeError, "drift_us", Timekeeper)
        self.assertRaisesRegex(TypeError, "drift_us is 2.5; a whole", Timekeeper, drift_us=2.5)
        keeper = Timekeeper(drift_us=7, within_us=10, wander_ppb=100_000)
        self.assertEqual((keeper.drift_us, keeper.within_us, keeper.wander_ppb), (7, 10, 100_000))
        self.assertNotEqual(keeper, Timekeeper(drift_us=7, within_us=10))
        self.assertNotEqual(keeper, Timekeeper(drift_us=7, wander_ppb=100_000))

    def test_a_holdover_that_is_too_long(self) -> None:
        says = (
            "35 Drift: a holdover longer than a timekeeper's counter can count:"
            " (holdover + 2) * drift_us is above 490,000, and wander_ppb is 0"
        )
        for drift_us, most in ((100, 4_898), (40, 12_248), (10, 48_998), (1, 489_998)):
            self.assertEqual(Timekeeper(2, most, drift_us=drift_us).holdover, most)
            self.says(says, 35, holdover=most + 1, drift_us=drift_us)
            learns = Timekeeper(2, most + 1, drift_us=drift_us, wander_ppb=1)
            self.assertEqual(learns.holdover, most + 1)

    def test_calls(self) -> None:
        keeper, most = Timekeeper(drift_us=10), "0 to 4294967295 may stand here"
        for line in (3, 5, 255, 256, -1):
            says = f"line is {line}; 0 to 2 may stand here"
            self.assertRaisesRegex(irig.Fault, says, keeper.hear, line, 0, 8000)
        for width_us in (-1, WRAP):
            says = f"width_us is {width_us}; {most}"
            self.assertRaisesRegex(irig.Fault, says, keeper.hear, 0, 0, width_us)
        self.assertRaisesRegex(TypeError, "line is '0'; a whole", keeper.hear, "0", 5, 2000)
        self.assertRaisesRegex(TypeError, "rise_us is 0.5; a whole", keeper.hear, 0, 0.5, 2000)
        for call, what in ((keeper.tick, "now"), (keeper.wait, "now"), (keeper.stamp, "time")):
            self.assertRaisesRegex(TypeError, f"{what}_us is None; a whole number", call, None)
        self.assertEqual(keeper, Timekeeper(drift_us=10))
        self.assertRaises(irig.Fault, Timekeeper(drift_us=10, ports=1).hear, 1, 0, 8000)


class Copies(unittest.TestCase):
    """A timekeeper is its numbers."""

    def halfway(self) -> Timekeeper:
        """A timekeeper that has heard sixty pulses of each line."""
        keeper = Timekeeper(lock_after=1, drift_us=10)
        for element, width in enumerate(irig.widths(FRAME)[:60]):
            for line in range(3):
                keeper.hear(line, 10_000 * element, width)
        return keeper

    def test_a_number_that_something_else_changed(self) -> None:
        keeper = self.halfway()
        keeper._held.lines[1].end_us += 1
        says = "something else has changed the numbers of this timekeeper"
        for _ in range(2):
            self.assertRaisesRegex(irig.Fault, says, keeper.tick, 1_000_000)
            self.assertRaisesRegex(irig.Fault, says, keeper.stamp, 1_000_000)
            self.assertEqual(keeper.wait(1_000_000), 0)
            keeper.restart()
        self.assertRaisesRegex(irig.Fault, says, copy.copy, keeper)

    def test_a_number_of_lines_that_is_none(self) -> None:
        keeper = self.halfway()
        keeper._held.setup.redundancy = 3
        self.assertRaisesRegex(irig.Fault, "this timekeeper", keeper.hear, 0, 0, 8000)


if __name__ == "__main__":
    unittest.main()
