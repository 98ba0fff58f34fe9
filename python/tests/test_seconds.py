"""Seconds of UTC and claims, by the tables of docs/FRAME.md."""
from __future__ import annotations

import unittest
from datetime import datetime, timedelta, timezone

import irig
from irig import Claim, Coded, Control, Leap, Second, _library
from irig.seconds import day_number

LEAP = Second(6209, 86400)  # 2016-12-31 is day 6209
MARKS = ("unspoken", "no-leap", "insert", "delete")
INSERTED, DELETED = [Leap("2016-12-31")], [Leap("2016-12-31", "delete")]


class Seconds(unittest.TestCase):
    def test_texts(self) -> None:
        self.assertEqual(str(LEAP), "2016-12-31T23:59:60Z")
        for text in ("2016-12-31T23:59:60Z", "2000-01-02T00:00:00Z", "2099-12-30T23:59:59Z"):
            self.assertEqual(str(Second.read(text)), text)

    def test_what_is_none(self) -> None:
        for day, sod in ((0, 0), (36524, 0), (1, 86400), (6209, 86401), (-1, 0), (1 << 32 | 1, 0)):
            with self.subTest(day=day, sod=sod), self.assertRaises(irig.Fault):
                Second(day, sod)
        for text in ("", "2016-12-31", "2016-12-30T23:59:60Z", "2100-01-01T00:00:00Z", "gestern"):
            with self.subTest(text), self.assertRaisesRegex(irig.Fault, "26 Value: '"):
                Second.read(text)
        self.assertRaises(TypeError, Second.of, 5)
        self.assertRaisesRegex(irig.Fault, "day is 0; 1 to 36523 may stand here", Second, 0, 0)
        self.assertRaisesRegex(irig.Fault, "sod is 86400; 0 to 86399 may", Second, 1, 86400)
        self.assertRaisesRegex(TypeError, "sod is 1.5; a whole number may", Second, 1, 1.5)

    def test_other_texts_of_utc(self) -> None:
        self.assertEqual(Second.read("2016-12-31T23:59:60+00:00"), LEAP)
        time = datetime(2016, 12, 31, 23, 59, 59, tzinfo=timezone.utc)
        self.assertEqual(Second.read(time.isoformat()), Second(6209, 86399))
        for end in ("+01:00", "-00:00", "+0530"):
            with self.assertRaisesRegex(irig.Fault, "is not in UTC: Z or \\+00:00 may stand"):
                Second.read(f"2016-12-31T23:59:59{end}")
        for text in ("2016-12-31 23:59:59Z", "2016-12-31T23:59:59", "2016-12-31T23:59:59.5Z",
                     "2016-12-31T23:59:59z", "2016-12-31T24:00:00Z", "\u0662016-12-31T00:00:00Z"):
            with self.subTest(text), self.assertRaisesRegex(irig.Fault, "is no second served"):
                Second.read(text)

    def test_it_is_readable(self) -> None:
        self.assertEqual(repr([LEAP]), "[Second.read('2016-12-31T23:59:60Z')]")
        self.assertEqual(eval(repr(LEAP)), LEAP)

    def test_datetimes(self) -> None:
        last = datetime(2016, 12, 31, 23, 59, 59, tzinfo=timezone.utc)
        self.assertEqual(Second.of(last), Second(6209, 86399))
        self.assertEqual(Second.of(last).to_datetime(), last)
        local = last.astimezone(timezone(timedelta(hours=-8)))
        self.assertEqual(Second.of(local), Second(6209, 86399))
        self.assertRaisesRegex(irig.Fault, "no time zone", Second.of, last.replace(tzinfo=None))
        for part in (1, 999_999):
            inside = last.replace(microsecond=part)
            self.assertRaisesRegex(irig.Fault, "inside", Second.of, inside)
            self.assertEqual(Second.of(inside, floor=True), Second(6209, 86399))
            self.assertEqual(Second.of_datetime(inside, floor=True), Second(6209, 86399))
        self.assertTrue(LEAP.is_leap)
        self.assertRaisesRegex(irig.Fault, "no second 60", LEAP.to_datetime)

    def test_days(self) -> None:
        self.assertEqual([day_number(day) for day in ("2000-01-01", "2000-01-02", "2099-12-31")], [0, 1, 36_524])
        self.assertRaisesRegex(irig.Fault, "1999-12-31 is a day before 2000-01-01", day_number, "1999-12-31")

    def test_order(self) -> None:
        self.assertLess(Second(6209, 86399), LEAP)
        self.assertLess(LEAP, Second(6210, 0))

    def test_a_mark_that_is_none(self) -> None:
        self.assertRaises(irig.Fault, LEAP.next, "none")

    def test_sums_without_leap_seconds(self) -> None:
        """A day has 86,400 seconds; a 23:59:60 stands between it and the next one."""
        last, turn = Second(6209, 86399), Second(6210, 0)
        for second, seconds, other in (
            (last, 1, turn),
            (turn, -1, last),
            (LEAP, 1, turn),
            (LEAP, -1, last),
            (LEAP, -86_400, Second(6209, 0)),
            (LEAP, 86_401, Second(6211, 0)),
            (Second(1, 0), 36_522 * 86_400 + 86_399, Second(36_523, 86_399)),
        ):
            with self.subTest(second=second, seconds=seconds):
                self.assertEqual(second + seconds, other)
                self.assertEqual(second - -seconds, other)
        self.assertEqual((turn - last, last - turn, LEAP - last, turn - LEAP), (1, -1, 1, 1))
        self.assertEqual(turn - Second(6209, 0), 86_400)
        with self.assertRaisesRegex(irig.Fault, "-1 seconds from 2000-01-02T00:00:00Z is not"):
            Second(1, 0) - 1
        for wrong in (1.5, "1", None, timedelta(1)):
            self.assertRaises(TypeError, lambda: LEAP + wrong)
            self.assertRaises(TypeError, lambda: LEAP - wrong)

    def test_sums_with_leap_seconds(self) -> None:
        before, last, turn = Second(6209, 86398), Second(6209, 86399), Second(6210, 0)
        for second, seconds, leaps, other in (
            (last, 1, INSERTED, LEAP),
            (last, 2, INSERTED, turn),
            (turn, -1, INSERTED, LEAP),
            (turn, -2, INSERTED, last),
            (Second(6208, 5), 2 * 86_400 + 1, INSERTED, Second(6210, 5)),
            (before, 1, DELETED, turn),
            (turn, -1, DELETED, before),
            (Second(6208, 5), 2 * 86_400 - 1, DELETED, Second(6210, 5)),
        ):
            with self.subTest(second=second, seconds=seconds, leaps=leaps):
                self.assertEqual(second.plus(seconds, leaps), other)
                self.assertEqual(other.plus(-seconds, leaps), second)
                self.assertEqual(other.since(second, leaps), seconds)
                self.assertEqual(second.since(other, leaps), -seconds)
        both = [Leap("2016-12-31"), Leap("2015-06-30")]
        years = Second.read("2017-01-01T00:00:00Z").since(Second.read("2015-01-01T00:00:00Z"), both)
        self.assertEqual(years, (365 + 366) * 86_400 + 2)
        self.assertRaisesRegex(irig.Fault, "no second by these", last.plus, 1, DELETED)
        self.assertRaisesRegex(irig.Fault, "no second by these", LEAP.plus, 1, DELETED)
        self.assertRaisesRegex(TypeError, "seconds is 1.5; a whole number may", LEAP.plus, 1.5)

    def test_beside_the_library(self) -> None:
        """Texts and successors of the ends of each day, by the proved calls."""
        held, after, text = _library.Utc(), _library.Utc(), _library.Text()
        for day in range(36_525):
            for sod in (0, 86_397, 86_398, 86_399, 86_400, 86_401):
                held.day, held.sod = day, sod
                if _library.second_write(held, text):
                    self.assertRaises(irig.Fault, Second, day, sod)
                    continue
                second = Second(day, sod)
                self.assertEqual(str(second), text.raw.decode())
                self.assertEqual(Second.read(text.raw.decode()), second)
                for number, mark in enumerate(MARKS):
                    is_none = _library.second_next(held, number, after)
                    wanted = None if is_none else (after.day, after.sod)
                    found = second.next(mark)
                    self.assertEqual(found and (found.day, found.sod), wanted)


class Claims(unittest.TestCase):
    def test_offsets(self) -> None:
        coded = irig.coded("2016-12-31T23:59:58Z", local=2)
        behind = Control(leap_pending=True, offset_half_hours=-2)
        self.assertEqual(irig.claim(coded, behind), Claim(Second(6209, 86398), "insert"))
        ahead = Control(leap_pending=True, leap_delete=True, offset_half_hours=2)
        self.assertEqual(irig.claim(coded, ahead, "subtract"), Claim(Second(6209, 86398), "delete"))
        self.assertEqual(str(irig.claim(coded)), "claim 2017-01-01T00:59:58Z unspoken")

    def test_control_of_its_own(self) -> None:
        coded = irig.coded("2016-12-31T23:59:01Z", control=Control(leap_pending=True))
        self.assertEqual(irig.claim(coded).mark, "insert")
        self.assertEqual(irig.claim(coded, Control()).mark, "no-leap")

    def test_faults(self) -> None:
        for coded, number in (
            (Coded(0, 0, 12, 366, 17), 7),
            (Coded(0, 0, 0, 1, 0), 8),
            (Coded(60, 0, 12, 1, 16), 9),
            (Coded(59, 59, 23, 366, 16, control=3), 10),
            (Coded(61, 59, 23, 366, 16), 26),
        ):
            with self.subTest(number), self.assertRaises(irig.Fault) as caught:
                irig.claim(coded)
            self.assertEqual(caught.exception.number, number)


if __name__ == "__main__":
    unittest.main()
