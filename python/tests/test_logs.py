"""Logs: what lines, words of ports and last lines say, tables, and who lied. What is expected is worked
out by hand of the lines that stand here."""
from __future__ import annotations

import unittest
from datetime import datetime, timezone
from typing import Iterator

from irig import Announced, PortWord, Ports, PremiseBroken, PremisesKept, Second, Silent, TableBroken, read_log
from irig.logs import RefusedLine, Tick, read_lines, ticks_of

# Two readers, and a plant that starts at 23:59:50: relay's second at edge 3 is one too late.
LINES = """\
1 meter - unlocked no-vote
 1 meter silence silence silence
1 relay - acquiring:1 acquiring
 1 relay ok fault:3:Pulse:12 ok
2 relay 2016-12-31T23:59:52Z locked voted
 2 relay ok 2016-12-31T23:59:52Z poor:11
2 meter - unlocked no-vote
 2 meter silence silence ok
3 relay 2016-12-31T23:59:54Z holdover:1 held
 3 relay ok 2016-12-31T23:59:53Z no-leap
4 relay 2016-12-31T23:59:54Z locked voted
 4 relay ok fault:5:Digit:hour no-leap
5 relay - unlocked jump
 5 relay ok ok ok
6 relay - acquiring:1 acquiring
 6 relay ok ok ok
"""
KEPT = "premises kept\n"
BROKEN = "premises broken: edge 3 reader relay\n"


class Lines(unittest.TestCase):
    """What a line says."""

    def test_entries(self) -> None:
        said = list(read_lines(LINES.splitlines()[:6]))
        self.assertEqual(said, [
            Silent(1, "meter", "unlocked", 0, "no-vote"),
            Ports(1, "meter", ("silence",) * 3),
            Silent(1, "relay", "acquiring", 1, "acquiring"),
            Ports(1, "relay", ("ok", "fault:3:Pulse:12", "ok")),
            Announced(2, "relay", Second(6209, 86_392), "locked", 0, "voted"),
            Ports(2, "relay", ("ok", "2016-12-31T23:59:52Z", "poor:11")),
        ])
        self.assertEqual("".join(f"{line}\n" for line in read_lines(LINES.splitlines())), LINES)
        by_hand = Silent(1, "meter", "unlocked", 0, "no-vote")
        says = "Silent(edge=1, reader='meter', lock='unlocked', count=0, cause='no-vote')"
        self.assertEqual((str(by_hand), repr(by_hand)), ("", says))

    def test_words_of_ports(self) -> None:
        words = "ok silence fault:3:Pulse:12 fault:1:Short:50 fault:17:Parity".split()
        said = Ports(1, "relay", tuple(words)).told
        self.assertEqual(said, (
            PortWord("ok", "agreed"),
            PortWord("silence", "silent"),
            PortWord("fault:3:Pulse:12", "faulty", number=3, name="Pulse", place=12),
            PortWord("fault:1:Short:50", "faulty", number=1, name="Short", place=50),
            PortWord("fault:17:Parity", "faulty", number=17, name="Parity"),
        ))
        words = "fault:6:Range:hour poor:15 2016-12-31T23:59:60Z no-leap".split()
        said = Ports(1, "relay", tuple(words)).told
        self.assertEqual(said, (
            PortWord("fault:6:Range:hour", "faulty", number=6, name="Range", place="hour"),
            PortWord("poor:15", "poor", quality=15),
            PortWord("2016-12-31T23:59:60Z", "another second", second=Second(6209, 86_400)),
            PortWord("no-leap", "another mark", mark="no-leap"),
        ))
        self.assertEqual([word.is_untrue for word in said], [False, False, True, True])

    def test_last_lines(self) -> None:
        for line, said in (
            ("premises kept", PremisesKept()),
            ("premises broken: edge 5 reader relay", PremiseBroken(5, "relay")),
            ("premises broken: table of reader relay", TableBroken("relay")),
            ("refused: line 9: 24 Json", RefusedLine(9, 24, "Json")),
        ):
            self.assertEqual(list(read_lines([line])), [said])
            self.assertEqual(str(said), line)
            self.assertEqual(said.kept, line == "premises kept")

    def test_lines_that_are_none(self) -> None:
        edge = "2 relay 2016-06-15T12:00:02Z locked voted"
        for lines, says in (
            (["2 relay locked voted"], "line 1 is no line of a log: '2 relay locked voted'"),
            (["2 relay - locked why"], "line 1 is no line of a log"),
            (["2 relay - open no-vote"], "line 1 is no line of a log"),
            (["2 relay 2016-06-31T12:00:02Z locked voted"], "line 1 is no line of a log"),
            ([edge, edge], "line 2: edge 2 of relay comes after edge 2"),
            (["0 relay - unlocked no-vote"], "line 1: edge 0 of relay comes before edge 1"),
            (["premises kept", "", edge], "line 3 stands below the last line"),
            (['{"version":1'], "line 1 is of a scenario"),
            ([" 2 relay ok ok good"], "line 1 is no line of a log"),
            ([" 2 relay ok ok fault:3:Parity"], "line 1 is no line of a log"),
            (["refused: line 1: 999 foo"], "line 1 is no line of a log"),
            ([" 2 relay ok ok poor:9"], "line 1 is no line of a log"),
            ([edge, " 1 relay ok ok ok"], "line 2: edge 1 of relay comes after edge 1"),
            ([edge, " 2 relay ok ok ok", " 2 relay ok ok ok"], "line 3: edge 2 of relay comes after"),
            ([edge, " 2 relay ok ok ok", " 3 relay ok"], "line 3 has 1 ports of relay, which had 3"),
        ):
            with self.subTest(lines), self.assertRaisesRegex(ValueError, says):
                list(read_lines(lines))

    def test_ticks(self) -> None:
        lines = [
            " 1 relay ok ok ok",
            "2 relay 2016-06-15T12:00:02Z locked voted",
            "2 meter - unlocked no-vote",
            " 2 meter silence silence ok",
            "3 relay 2016-06-15T12:00:03Z locked voted",
            " 3 meter ok ok ok",
            "premises kept",
        ]
        relay = Announced(2, "relay", Second(6010, 43_202), "locked", 0, "voted")
        meter = Silent(2, "meter", "unlocked", 0, "no-vote")
        self.assertEqual(list(ticks_of(read_lines(lines))), [
            Tick(1, "relay", None, Ports(1, "relay", ("ok", "ok", "ok"))),
            Tick(2, "relay", relay, None),
            Tick(2, "meter", meter, Ports(2, "meter", ("silence", "silence", "ok"))),
            Tick(3, "relay", Announced(3, "relay", Second(6010, 43_203), "locked", 0, "voted"), None),
            Tick(3, "meter", None, Ports(3, "meter", ("ok", "ok", "ok"))),
        ])

    def test_it_streams(self) -> None:
        def lines() -> Iterator[str]:
            yield "1 relay - unlocked no-vote\n"
            raise KeyError("the second line was asked for")

        said = read_lines(lines())
        self.assertEqual(next(said), Silent(1, "relay", "unlocked", 0, "no-vote"))
        self.assertRaises(KeyError, next, said)


class Whole(unittest.TestCase):
    """Logs."""

    def test_as_a_sequence(self) -> None:
        log = read_log(LINES + KEPT)
        self.assertEqual((len(log), log[0], log[-1]), (16, log.entries[0], log.ports[-1]))
        self.assertEqual(log[1:3], log.entries[1:3])
        self.assertEqual(list(log), list(log.entries))
        self.assertEqual(len(log.ports), 8)
        self.assertEqual(log.readers, ("meter", "relay"))

    def test_it_is_readable(self) -> None:
        log = read_log(LINES + BROKEN)
        self.assertEqual(repr(log), "<Log: 16 entries, premises broken: edge 3 reader relay>")
        self.assertEqual(repr(log[4:6]), (
            "(<Announced: 2 relay 2016-12-31T23:59:52Z locked voted>,"
            " <Ports: 2 relay ok 2016-12-31T23:59:52Z poor:11>)"
        ))
        self.assertEqual(repr([log[0]]), "[<Silent: 1 meter - unlocked no-vote>]")
        self.assertEqual(repr(log.ports[0].told[:1]), "(<PortWord: silence>,)")

    def test_a_table(self) -> None:
        rows = read_log(LINES + KEPT).to_rows()
        self.assertEqual(len(rows), 8)
        self.assertEqual(rows[2], {
            "edge": 2, "reader": "relay", "second": "2016-12-31T23:59:52Z",
            "utc": datetime(2016, 12, 31, 23, 59, 52, tzinfo=timezone.utc),
            "lock": "locked", "count": 0, "cause": "voted",
            "port_0": "ok", "port_1": "2016-12-31T23:59:52Z", "port_2": "poor:11",
        })
        self.assertEqual((rows[0]["second"], rows[0]["utc"], rows[0]["cause"]), (None, None, "no-vote"))
        leap = read_log("1 relay 2016-12-31T23:59:60Z locked voted\n" + KEPT).to_rows()
        self.assertEqual(leap, [{
            "edge": 1, "reader": "relay", "second": "2016-12-31T23:59:60Z", "utc": None,
            "lock": "locked", "count": 0, "cause": "voted",
        }])

    def test_a_table_by_port(self) -> None:
        rows = read_log(LINES + KEPT).to_rows(by_port=True)
        self.assertEqual(len(rows), 8 * 3)
        nothing = {"number": None, "name": None, "place": None, "quality": None, "second": None,
                   "mark": None}
        self.assertEqual(rows[4], {
            **nothing, "edge": 1, "reader": "relay", "port": 1, "word": "fault:3:Pulse:12",
            "kind": "faulty", "number": 3, "name": "Pulse", "place": 12,
        })
        self.assertEqual(rows[7]["second"], "2016-12-31T23:59:52Z")
        self.assertEqual(rows[8]["quality"], 11)


class Blame(unittest.TestCase):
    def test_without_a_scenario(self) -> None:
        with self.assertRaisesRegex(ValueError, "read_log takes"):
            read_log(LINES + KEPT).blame()


if __name__ == "__main__":
    unittest.main()
