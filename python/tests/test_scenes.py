"""Runs of scenarios, by the cases and examples of the program."""
from __future__ import annotations

import pickle
import tempfile
import threading
import unittest
from dataclasses import replace
from itertools import product
from pathlib import Path
from typing import Callable, List
from unittest import mock

import irig
from irig import Announced, Lane, PremiseBroken, PremisesKept, Second, Silent, TableBroken
from irig.scenarios import Leap, Reader, Scenario
from program import ROOT, all_cases, cases, printed, told


OPTIONS = "--all", "--ports"


def example(name: str) -> str:
    return (ROOT / "examples" / f"{name}.jsonl").read_text()


def log_of(source: Callable[..., irig.Log], *words: object) -> irig.Log:
    """The log, also of a scenario that was refused."""
    try:
        return source(*words)
    except irig.Refused as refused:
        return refused.log


class OfTheProgram(unittest.TestCase):
    """What the program prints; c/test_scene.py has all cases and examples."""

    def test_a_log_without_room(self) -> None:
        text = example("plain_minute")
        wanted = printed("run", "-", text=text)
        for room, name in product((1, 20, 63, len(wanted) - 1), ("ROOM", "LOG_ROOM")):
            with self.subTest(room, name=name), mock.patch(f"irig.scenes.{name}", room):
                log = irig.run(text)
                self.assertEqual((log.text, log), (wanted, irig.read_log(wanted)))

    def test_what_lines_say(self) -> None:
        """The numbers of a run say what is read in the lines of the program, of each case and example."""
        count = 0
        for case in all_cases():
            words = case.texts()
            if not case.scenario or words[:2] != ["run", case.scenario] or not set(words[2:]) <= set(OPTIONS):
                continue
            texts = {tuple(words[2:]): case.stdout.decode()}
            if case.name.startswith("examples/"):
                scenario = (ROOT / case.scenario).read_text()
                texts[OPTIONS] = printed("run", "-", *OPTIONS, text=scenario)
            for options, text in texts.items():
                count += 1
                with self.subTest(case.name, options=options):
                    ran = log_of(irig.run, ROOT / case.scenario, *(it in options for it in OPTIONS))
                    read = log_of(irig.read_log, text)
                    self.assertEqual([str(said) for said in ran], text.splitlines()[:-1])
                    self.assertEqual((ran, [it.told for it in ran.ports]), (read, [it.told for it in read.ports]))
        self.assertGreater(count, 150)

    def test_a_reason_without_room(self) -> None:
        with mock.patch("irig.scenes.REASON_ROOM", 1), self.assertRaises(irig.Refused) as caught:
            irig.run('{"version":5}')
        says = 'line 1: 27 Version: "version" is 5; 1, 2, 3 or 4 may stand here'
        self.assertEqual(str(caught.exception), says)

    def test_no_memory(self) -> None:
        """The statuses of c/irig_scene.h: no memory for the log, and for the run."""
        for status in (5, 6):
            with mock.patch("irig._library.run_entries", lambda *words: status, create=True):
                self.assertRaises(MemoryError, irig.run, example("plain_minute"))
            log = irig.run(example("plain_minute"))
            with mock.patch("irig._library.run_shown", lambda *words: status, create=True):
                self.assertRaises(MemoryError, lambda: log.text)

    def test_runs_side_by_side(self) -> None:
        text, logs = example("dark_hour"), []
        threads = [threading.Thread(target=lambda: logs.append(irig.run(text))) for _ in range(4)]
        for thread in threads:
            thread.start()
        for thread in threads:
            thread.join(60)
        self.assertEqual(logs, [irig.run(text)] * 4)


class Logs(unittest.TestCase):
    """What a log says."""

    def test_entries(self) -> None:
        log = irig.run(example("month_end_guard"), all=True)
        lines = (ROOT / "examples/month_end_guard.log").read_text().splitlines()
        self.assertEqual(lines[59:61], [
            "60 relay 2017-03-31T23:59:58Z holdover:57 held", "61 relay - unlocked leap-guard",
        ])
        second = Second.read("2017-03-31T23:59:58Z")
        self.assertEqual(log.entries[59], Announced(60, "relay", second, "holdover", 57, "held"))
        self.assertEqual(log.entries[60], Silent(61, "relay", "unlocked", 0, "leap-guard"))
        self.assertEqual(log.entries[0], Silent(1, "relay", "acquiring", 1, "acquiring"))
        self.assertEqual((log[60], len(log)), (log.entries[60], 68))

    def test_words_of_ports(self) -> None:
        """Each kind of word, as the program prints it."""
        text = (ROOT / "cases/ports_that_tell_faults/scenario.jsonl").read_text()
        wanted = printed("run", "-", "--all", "--ports", text=text)
        for word in (" silence", " fault:", " ok"):
            self.assertIn(word, wanted)
        log = irig.run(text, all=True, ports=True)
        self.assertEqual("".join(f"{line}\n" for line in (*log, log.verdict)), wanted)
        first = replace(log, entries=log.entries[:2])
        self.assertEqual(first.text, "".join(f"{line}\n" for line in (*wanted.splitlines()[:2], log.verdict)))
        again = pickle.loads(pickle.dumps(log))
        self.assertEqual((again, again.text, again.ports[0].told), (log, wanted, log.ports[0].told))

    def test_verdicts(self) -> None:
        self.assertEqual(irig.run(example("one_liar")).verdict, PremisesKept())
        self.assertEqual(irig.run(example("two_liars")).verdict, PremiseBroken(5, "relay"))
        self.assertEqual(irig.run(example("misled_by_table")).verdict, TableBroken("relay"))

    def test_texts_that_are_no_log(self) -> None:
        broken = "premises broken: edge 5 reader rel"  # ay, and the end of the line
        for text in ("", "1 relay - unlocked no-vote\n", "premises\n", "premises kept", broken):
            with self.subTest(text):
                self.assertRaises(ValueError, irig.read_log, text)


class Sources(unittest.TestCase):
    """What a run takes."""

    def test_files(self) -> None:
        wanted = irig.run(example("one_liar")).text
        path = ROOT / "examples/one_liar.jsonl"
        for source in (path, str(path), path.read_bytes(), path.read_text(), bytearray(path.read_bytes())):
            with self.subTest(type(source)):
                self.assertEqual(irig.run(source).text, wanted)
        with tempfile.TemporaryDirectory() as folder:
            self.assertRaises(FileNotFoundError, irig.run, Path(folder) / "no.jsonl")
            self.assertRaises(FileNotFoundError, irig.run, f"{folder}/no.jsonl")
            self.assertRaises(IsADirectoryError, irig.run, folder)
            (Path(folder) / "{.jsonl").write_bytes(path.read_bytes())
            self.assertEqual(irig.run(Path(folder) / "{.jsonl").text, wanted)

    def test_texts(self) -> None:
        for text, name in (("", "NoPlant"), ("\n", "NoPlant"), ("{", "Json"), ('{"version":9}', "Version")):
            with self.subTest(text), self.assertRaises(irig.Refused) as caught:
                irig.run(text)
            self.assertEqual(caught.exception.name, name)

    def test_what_was_built(self) -> None:
        plant = Scenario("2016-06-15T12:00:00Z", [Reader("relay", 5, 10)])
        plant.seconds(8)
        plant.dark(3600)
        plant.seconds(8)
        self.assertEqual(irig.run(plant), irig.run(example("dark_hour")))


class Blame(unittest.TestCase):
    """Who lied, and what it cost. c/test_scene.py compares the lines of all cases with the program's."""

    WANTED = [
        "2017-06-30T23:59:49Z, edge 1: relay announced nothing: acquiring, not yet enough votes in a row",
        "2017-06-30T23:59:52Z to 2017-06-30T23:59:55Z, edges 5 to 8: port 1 of relay told another second,"
        " 5 s ahead, first 2017-06-30T23:59:57Z; relay announced 4 seconds",
        "2017-06-30T23:59:56Z to 2017-06-30T23:59:59Z, edges 9 to 12: port 1 of relay told another mark,"
        " first insert; relay announced 4 seconds",
    ]

    def test_one_line(self) -> None:
        path = ROOT / "examples/one_liar.jsonl"
        for log in (irig.run(path, ports=True), irig.run(path), irig.run(path, all=True, ports=True)):
            self.assertEqual([str(stretch) for stretch in log.blame()], self.WANTED)
        with self.assertRaises(irig.Refused) as caught:
            irig.run(example("one_liar") + "[]\n")
        self.assertEqual([str(it) for it in caught.exception.log.blame()], self.WANTED)
        read = irig.read_log("1 relay - unlocked no-vote\npremises kept\n", path.read_bytes())
        self.assertEqual([str(it) for it in read.blame()], self.WANTED)

    def test_fields(self) -> None:
        """Two of three ports are an hour ahead from edge 5 on, and the reader follows at edge 7."""
        *_, liar, other, misled = irig.run(example("two_liars")).blame()
        self.assertEqual((liar.reader, liar.port, other.port, liar.kind), ("relay", 0, 1, "another second"))
        self.assertEqual((liar.first, liar.last, liar.edges, liar.announced, liar.untrue), (5, 10, 6, 4, 4))
        self.assertEqual((liar.word, liar.cause, liar.vote, liar.ports), ("2016-06-15T13:00:04Z", None, None, ()))
        self.assertEqual((liar.ahead, liar.ahead_first, liar.ahead_last), (3600, 3600, 3600))
        self.assertEqual((misled.port, misled.kind, misled.word), (None, "announced untrue seconds", None))
        self.assertEqual((misled.announced, misled.untrue, misled.vote, misled.ports), (4, 4, 7, (0, 1)))
        silence = irig.run(example("one_liar")).blame()[0]
        self.assertEqual((silence.kind, silence.cause), ("announced nothing", "acquiring"))
        self.assertEqual((silence.announced, silence.untrue, silence.ahead), (0, 0, None))
        self.assertEqual(str(silence.since), str(silence.until))
        (held,) = (it for it in irig.run(example("misled_by_table")).blame() if it.port is None)
        self.assertEqual((held.vote, held.ports), (1, ()))

    def test_more_than_there_is_room_for(self) -> None:
        log = irig.run(example("one_liar"))
        with mock.patch("irig.scenes.ROOM", 1):
            self.assertEqual([str(stretch) for stretch in log.blame()], self.WANTED)


class Lanes(unittest.TestCase):
    """What a picture of a run shows. c/test_scene.py compares the lanes of all cases with the program's logs."""

    # As examples/README.md says of it, with the words of docs/OUTPUT.md.
    WANTED = [
        Lane("relay", None, "stood", 1, 1, "acquiring", "acquiring"),
        Lane("relay", None, "stood", 2, 16, "locked", "voted"),
        Lane("relay", None, "mark", 12, 12, "month end", None),
        Lane("relay", 0, "told", 1, 16, "agreed", None),
        Lane("relay", 1, "told", 1, 4, "agreed", None),
        Lane("relay", 1, "told", 5, 8, "another second", None),
        Lane("relay", 1, "told", 9, 12, "another mark", None),
        Lane("relay", 1, "told", 13, 16, "agreed", None),
        Lane("relay", 2, "told", 1, 16, "agreed", None),
    ]

    @staticmethod
    def sorted_of(log: irig.Log) -> List[Lane]:
        return sorted(log.lanes(), key=lambda it: (it.reader, -1 if it.port is None else it.port, it.first))

    def test_one_liar(self) -> None:
        path = ROOT / "examples/one_liar.jsonl"
        for log in (irig.run(path, ports=True), irig.run(path)):
            self.assertEqual(self.sorted_of(log), self.WANTED)
        with self.assertRaises(irig.Refused) as caught:
            irig.run(example("one_liar") + "[]\n")
        self.assertEqual(self.sorted_of(caught.exception.log), self.WANTED)
        read = irig.read_log("1 relay - unlocked no-vote\npremises kept\n", path.read_bytes())
        self.assertEqual(self.sorted_of(read), self.WANTED)
        with mock.patch("irig.scenes.ROOM", 1):
            self.assertEqual(self.sorted_of(read), self.WANTED)

    def test_marks(self) -> None:
        """At the edges that examples/README.md names: also in a silence, and beside a false table, are they the
        scenario's."""
        for name, wanted in (
            ("leap_inserted", [(10, "leap second"), (11, "month end")]), ("leap_deleted", [(9, "deleted second")]),
            ("month_end_guard", [(62, "month end")]), ("misled_by_table", [(60, "leap second")]),
            ("plain_minute", []),
        ):
            lanes = irig.run(example(name)).lanes()
            found = [(it.first, it.state) for it in lanes if (it.kind, it.reader) == ("mark", "relay")]
            with self.subTest(name):
                self.assertEqual(found, wanted)

    def test_no_memory(self) -> None:
        log = irig.run(example("one_liar"))
        for name in ("run_lanes", "run_stretches"):
            with mock.patch(f"irig._library.{name}", lambda *words: 6, create=True):
                self.assertRaises(MemoryError, log.lanes if name == "run_lanes" else log.blame)


class Asked(unittest.TestCase):
    """Which line of the scenario asked for a tick, and what was true there."""

    def test_lines(self) -> None:
        """Seconds of both readers, then a tick of one, an empty line, a fault that asks for none, and seconds."""
        plant = Scenario("2016-12-31T23:59:58Z", [Reader("relay", 1), Reader("meter", 1)], leaps=[Leap("2016-12-31")])
        plant.seconds(2)
        plant.event("tick", r="meter")
        text = plant.text() + '\n{"do":"fault","g":0,"kind":"silent"}\n{"do":"seconds","n":1}\n'
        ticks = [(1, "relay", 2), (1, "meter", 2), (2, "relay", 2), (2, "meter", 2), (3, "meter", 3), (3, "relay", 6),
                 (4, "meter", 6)]
        for log, count in ((irig.run(text, all=True), 1), (irig.run(text, all=True, ports=True), 2)):
            wanted = [tick for tick in ticks for _ in range(count)]
            self.assertEqual([(it.edge, it.reader, it.asked) for it in log], wanted)
            again = pickle.loads(pickle.dumps(log))
            self.assertEqual([it.asked for it in again], [it.asked for it in log])
        read = irig.read_log(log.text)
        self.assertEqual((read, {it.asked for it in read}, {it.truth for it in read.ports}), (log, {None}, {None}))
        self.assertEqual([str(it.truth) for it in log.ports if it.reader == "meter"], [
            "2016-12-31T23:59:58Z", "2016-12-31T23:59:59Z", "2016-12-31T23:59:60Z", "2017-01-01T00:00:00Z",
        ])


class Refusals(unittest.TestCase):
    """Lines that are refused."""

    def test_in_the_words_of_the_program(self) -> None:
        count = 0
        for case in cases("run"):
            if case.status == 3 and case.scenario and case.words[:1] == [case.scenario]:
                with self.subTest(case.name), self.assertRaises(irig.Refused) as caught:
                    irig.run(ROOT / case.scenario)
                count += 1
                says = told("run", str(ROOT / case.scenario))[1].splitlines()[0]
                self.assertEqual(str(caught.exception), says)
        self.assertGreater(count, 80)

    def test_parts_of_a_reason(self) -> None:
        text = example("plain_minute").replace('"lock_after":2', '"lock_after":0')
        with self.assertRaises(irig.Refused) as caught:
            irig.run(text)
        refused = caught.exception
        found = refused.place, refused.key, refused.value, refused.allowed
        self.assertEqual(found, ("readers[0]", '"lock_after"', "0", "1 to 60"))
        again = pickle.loads(pickle.dumps(refused))
        self.assertEqual((again.allowed, str(again)), ("1 to 60", str(refused)))

    def test_what_came_before(self) -> None:
        text = example("plain_minute") + '{"do":"tick","r":"rely"}\n'
        with self.assertRaises(irig.Refused) as caught:
            irig.run(text)
        refused = caught.exception
        self.assertEqual((refused.line, refused.number, refused.name), (3, 19, "NoSuchReader"))
        says = 'line 3: 19 NoSuchReader: "r" is "rely"; "relay" may stand here'
        self.assertEqual(str(refused), says)
        whole = irig.run(example("plain_minute"))
        self.assertEqual(f"{refused.log.text}premises kept\n", whole.text)
        self.assertFalse(refused.log.kept)
        again = pickle.loads(pickle.dumps(refused))
        self.assertEqual((again.line, again.log), (3, refused.log))

    def test_texts_of_bytes(self) -> None:
        surrogate = example("plain_minute") + '{"do":"tick","r":"\ud800"}'
        for text in (b"\xff", surrogate, "{"):
            with self.subTest(text), self.assertRaises(irig.Refused) as caught:
                irig.run(text)
            self.assertEqual(caught.exception.name, "Json")
        self.assertRaises(TypeError, irig.run, 5)


if __name__ == "__main__":
    unittest.main()
