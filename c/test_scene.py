#!/usr/bin/env python3
"""Compares the calls of irig_scene.h with the program, `test_scene.py LIBRARY PROGRAM`: logs, reasons, entries,
stretches and lanes, whatever room there is for them, and frames. A call writes the front of what the program prints,
and what lies behind the room stays; null pointers are answered."""
from __future__ import annotations

import ctypes
import re
import sys
import unittest
from collections.abc import Callable, Iterator, Sequence
from ctypes import c_bool, c_size_t, c_uint8
from itertools import groupby, product
from pathlib import Path

ROOT = Path(__file__).resolve().parent.parent
sys.path[:0] = [str(ROOT / "tests"), str(ROOT / "python")]

from case_files import Case, all_cases, answer, has_devices, scenarios  # noqa: E402
from model.lines import lines as lines_of  # noqa: E402
from model.meaning import Plant  # noqa: E402
from model.reader import said_of  # noqa: E402
from model.scenario import port_word  # noqa: E402
from model.simulated import ToldSecond  # noqa: E402
from model.station import Station  # noqa: E402
from model.station_lines import StationPlan  # noqa: E402
from model.times import Timeline, is_month_end, second_at, truth_at  # noqa: E402
import irig  # noqa: E402
from irig import _library, scenes  # noqa: E402
from irig._library import DeviceEntry, Entry, FrameOptions, Lane, Refusal, Stretch, Verdict  # noqa: E402
from irig.stretches import stretches_of  # noqa: E402
from irig.words import CAUSES, LOCKS, MARKS  # noqa: E402

LIBRARY, PROGRAM = ctypes.CDLL(sys.argv[1]), sys.argv[2]
DONE, BAD, NULL, REFUSED = 0, 1, 2, 3
VERSION = 27  # the refusal of devices by the calls that are of readers
UNTOUCHED = b"\xa5"
RULES = ("even", "odd"), ("add", "subtract"), ("check", "ignore")  # by their numbers
TIMES = "2016-12-31T23:59:59Z", "2024-07-01T12:00:00Z"


def typed(name: str) -> Callable[..., int]:
    """A call of the library with the types of its parameters, which LIBRARY's own are without."""
    _, answers, *kinds = _library.CALLS[name]
    call = getattr(ctypes.CDLL(sys.argv[1]), _library.symbol(name))
    call.restype, call.argtypes = answers, kinds
    return call


RUN_STRETCHES, RUN_LANES, RUN_TOLD = typed("run_stretches"), typed("run_lanes"), typed("run_told")
for of_package in ("run_entries", "run_shown", "run_stretches", "run_told"):  # which the package calls then
    setattr(_library, of_package, typed(of_package))


def printed(*words: str, given: bytes = b"") -> tuple[int, bytes, str]:
    """The status of the program, and what it writes."""
    status, log, told = answer(*words, given=given, program=PROGRAM)
    return status, log, told.decode()


class Room:
    """Memory of a size for what a call writes, with more behind it, and how much the call says there is."""

    def __init__(self, size: int) -> None:
        self.size, self.whole = size, c_size_t(0xA5)
        self.bytes = ctypes.create_string_buffer(UNTOUCHED * (size + 100), size + 100)
        self.words = self.bytes if size else None, c_size_t(size), ctypes.byref(self.whole)

    def has(self, text: bytes) -> bool:
        """Whether the front of this stands there, and nothing else."""
        front = text[: self.size]
        return self.bytes.raw == front + UNTOUCHED * (len(self.bytes) - len(front))

    def holds(self, wanted: Sequence[Entry] | Sequence[Stretch] | Sequence[Lane] | Sequence[DeviceEntry]) -> bool:
        """Whether as many of these stand there as there is room for, and behind them nothing else. What lies
        between their numbers says nothing."""
        size = ctypes.sizeof(wanted[0])
        count = min(self.size // size, len(wanted))
        held, rest = (type(wanted[0]) * count).from_buffer(self.bytes), self.bytes.raw[count * size :]
        return all(map(_library.same, held, wanted)) and rest == UNTOUCHED * len(rest)


def with_devices() -> Iterator[tuple[Case, bytes]]:
    """The runs of cases and examples whose plant has devices, with their scenarios."""
    for case in all_cases():
        text = (ROOT / case.scenario).read_bytes() if case.scenario and case.words[0] == b"run" else b""
        if has_devices(text):
            yield case, text


def rooms(size: int) -> Iterator[Room]:
    return map(Room, {0, 1, size // 2, max(size - 1, 0), size, size + 50})


def called(name: str, *words: object) -> int:
    call = getattr(LIBRARY, _library.symbol(name))
    call.restype = c_uint8
    return int(call(*words))


class Runs(unittest.TestCase):
    def test_logs(self) -> None:
        """Of all cases and examples."""
        texts = {**scenarios(), **{case.name: text for case, text in with_devices()}}
        for (name, text), (has_all, has_ports) in product(texts.items(), product((False, True), repeat=2)):
            words = ["--all"] * has_all + ["--ports"] * has_ports
            status, log, told = printed("run", "-", *words, given=text)
            refused = re.match(r"line (\d+): (\d+) \w+: (.*)", told) or ["", "0", "0", ""]
            with self.subTest(name, words=words):
                for room in [] if has_ports else rooms(len(log)):
                    answer = called("run", text, c_size_t(len(text)), c_bool(has_all), *room.words)
                    self.assertEqual((answer, room.whole.value), (status, len(log)))
                    self.assertTrue(room.has(log), f"{room.size} bytes of room")
                for of_reason in rooms(len(refused[3])):
                    shows = c_bool(has_all), c_bool(has_ports)
                    self.shown(text, shows, Room(len(log)), of_reason, status, log, refused)

    def shown(self, text: bytes, shows: tuple[c_bool, c_bool], room: Room, of_reason: Room, status: int,
              log: bytes, refused: Sequence[str]) -> None:
        refusal, reason = Refusal(line=7, number=7), refused[3].encode()
        answer = called("run_shown", text, c_size_t(len(text)), *shows, *room.words, *of_reason.words[:2],
                        ctypes.byref(refusal))
        self.assertEqual((answer, room.whole.value, refusal.whole), (status, len(log), len(reason)))
        self.assertTrue(room.has(log) and of_reason.has(reason), f"{of_reason.size} bytes of room")
        self.assertEqual((refusal.line, refusal.number), (int(refused[1]), int(refused[2])))
        for part in (refusal.place, refusal.key, refusal.value, refusal.allowed):
            self.assertTrue(part.start <= part.end <= len(reason))


class Devices(unittest.TestCase):
    """Plants of devices."""

    def test_logs(self) -> None:
        """What the cases and examples expect of the program."""
        count = 0
        for case, text in with_devices():
            count += 1
            shows, room = (c_bool(word in case.words) for word in (b"--all", b"--ports")), Room(len(case.stdout))
            reason, refusal = Room(500), Refusal()
            status = called("run_shown", text, c_size_t(len(text)), *shows, *room.words, *reason.words[:2],
                            ctypes.byref(refusal))
            with self.subTest(case.name):
                self.assertEqual((status, room.whole.value), (case.status, len(case.stdout)))
                self.assertTrue(room.has(case.stdout))
                last = f"refused: line {refusal.line}: {refusal.number} "
                self.assertEqual(case.stdout.splitlines()[-1].startswith(last.encode()), status == REFUSED)
                self.assertEqual(refusal.whole > 0, status == REFUSED)
        self.assertGreater(count, 150)

    def test_call_of_readers(self) -> None:
        """It refuses the plant, and has nothing of it."""
        for case, text in with_devices():
            ran = scenes.played(typed("run_entries"), Entry, text)
            with self.subTest(case.name):
                self.assertEqual((ran.status, ran.whole, ran.verdict.kind), (REFUSED, 0, 0))
                is_json = not case.stdout.startswith(b"refused: line 1: 24 ")
                self.assertEqual(ran.refusal.number, VERSION if is_json else 24)

    def test_entries(self) -> None:
        """The package has by their numbers what it reads in the program's lines; a plant of readers is refused."""
        for case, text in with_devices():
            for has_all in (False, True):
                lines = printed("run", "-", *["--all"] * has_all, given=text)[1].decode()
                with self.subTest(case.name, all=has_all):
                    ran, read = log_of(irig.run, text, has_all), log_of(irig.read_log, lines)
                    self.assertEqual(ran, read)
                    self.assertTrue(lines.startswith(ran[0].text))
        for name, text in scenarios((0,)).items():
            ran = scenes.played(typed("run_told"), DeviceEntry, text)
            with self.subTest(name):
                self.assertEqual((ran.status, ran.whole, ran.refusal.number), (REFUSED, 0, VERSION))

    def test_lanes(self) -> None:
        """Of runs that end without a refusal: what tests/model has of each told second, and no more."""
        states = set()
        for case, text in with_devices():
            if case.status == 0:
                ran = scenes.played(RUN_LANES, Lane, text)
                found = [numbers_of(lane) for lane in ran.found]
                states |= {(lane.kind, lane.state) for lane in ran.found}
                with self.subTest(case.name):
                    self.assertEqual((ran.status, found), (DONE, ToldByDevices(heard_in(text)).lanes()))
        self.assertLessEqual({(TOLD, state) for state in range(6)} | {(STOOD, lock) for lock in (1, 2, 3)}, states)

    def test_room(self) -> None:
        text, size = (ROOT / "examples/leap_stamped.jsonl").read_bytes(), ctypes.sizeof(DeviceEntry)
        every = scenes.played(RUN_TOLD, DeviceEntry, text)
        for count in (0, 1, every.whole - 1, every.whole, every.whole + 1):
            room, whole, verdict, refusal = Room(count * size), c_size_t(), Verdict(), Refusal()
            entries = ctypes.cast(room.bytes, ctypes.POINTER(DeviceEntry))
            answer = RUN_TOLD(text, len(text), entries, count, whole, verdict, None, 0, refusal)
            self.assertEqual((answer, whole.value, verdict.kind), (DONE, every.whole, every.verdict.kind))
            self.assertTrue(room.holds(every.found), f"{count} entries of room")


def log_of(source: Callable[..., irig.Log], *words: object) -> tuple[irig.Log, object]:
    """The log, and of a scenario that was refused, where and as what."""
    try:
        return source(*words), None
    except irig.Refused as why:
        return why.log, (why.line, why.number, why.name)


def asked_in(text: bytes) -> Iterator[tuple[int, int]]:
    """For each tick of a scenario the line that asks for it, and its reader's place."""
    names: list[str] = []
    for number, said in lines_of(text):
        if isinstance(said, Plant):
            names = list(said.readers)
        elif said["do"] == "tick":
            yield number, names.index(said["r"])
        elif said["do"] == "seconds":
            yield from ((number, place) for _ in range(said["n"]) for place in range(len(names)))


class Entries(unittest.TestCase):
    def test_logs(self) -> None:
        """Of all cases and examples: the package has by their numbers what it reads in the program's lines."""
        for (name, text), (has_all, has_ports) in product(scenarios().items(), product((False, True), repeat=2)):
            with self.subTest(name, all=has_all, ports=has_ports):
                words = ["--all"] * has_all + ["--ports"] * has_ports
                lines = printed("run", "-", *words, given=text)[1].decode()
                ran, read = log_of(irig.run, text, has_all, has_ports), log_of(irig.read_log, lines)
                self.assertEqual(ran, read)
                self.assertEqual([it.told for it in ran[0].ports], [it.told for it in read[0].ports])
                self.assertTrue(lines.startswith(ran[0].text))

    def test_lines(self) -> None:
        """Which line of a scenario that runs to its end asked for which tick, as tests/model reads its lines."""
        for name, text in scenarios((0,)).items():
            held = scenes.played(scenes.c.run_entries, Entry, text).found
            with self.subTest(name):
                self.assertEqual([(one.line, one.reader) for one in held], list(asked_in(text)))

    def test_room(self) -> None:
        text, size = (ROOT / "examples/one_liar.jsonl").read_bytes(), ctypes.sizeof(Entry)
        every = scenes.played(scenes.c.run_entries, Entry, text)
        wanted = every.found
        for count in (0, 1, every.whole - 1, every.whole, every.whole + 1):
            room, whole, verdict, refusal = Room(count * size), c_size_t(), Verdict(), Refusal()
            entries = ctypes.cast(room.bytes, ctypes.POINTER(Entry))
            answer = scenes.c.run_entries(text, len(text), entries, count, whole, verdict, None, 0, refusal)
            self.assertEqual((answer, whole.value, verdict.kind), (DONE, every.whole, every.verdict.kind))
            self.assertTrue(room.holds(wanted), f"{count} entries of room")


class Stretches(unittest.TestCase):
    def ran(self, text: bytes, room: int) -> tuple[int, int, list[Stretch], Verdict, Refusal]:
        stretches, whole, verdict, refusal = (Stretch * room)(), c_size_t(7), Verdict(), Refusal()
        status = RUN_STRETCHES(text, len(text), stretches, room, whole, verdict, None, 0, refusal)
        return status, whole.value, stretches[: whole.value], verdict, refusal

    def test_lines(self) -> None:
        """Of all cases and examples: each line that blame prints before the totals, and no other, as the package
        writes it of these numbers."""
        kinds = set()
        for name, text in {**scenarios(), **{case.name: text for case, text in with_devices()}}.items():
            status, told, _ = printed("blame", "-", given=text)
            answer, whole, stretches, verdict, refusal = self.ran(text, 5000)
            lines = told.decode().split("\n")
            kinds |= {held.kind for held in stretches}
            with self.subTest(name):
                self.assertLess(whole, 5000)
                self.assertEqual((answer, [str(one) for one in stretches_of(text)]), (status, lines[:whole]))
                self.assertRegex(lines[whole], r": \d+ edges, |^refused: line ")
                self.assertEqual((refusal.line > 0, verdict.kind > 0), (status == REFUSED, status == DONE))
        self.assertEqual(kinds, set(range(1, 8)))

    def test_room(self) -> None:
        text, size = (ROOT / "examples/two_liars.jsonl").read_bytes(), ctypes.sizeof(Stretch)
        _, count, wanted, kept, _ = self.ran(text, 100)
        for place in (0, 1, count - 1, count, count + 1):
            room, whole, verdict, refusal = Room(place * size), c_size_t(), Verdict(), Refusal()
            held = ctypes.cast(room.bytes, ctypes.POINTER(Stretch))
            answer = RUN_STRETCHES(text, len(text), held, place, whole, verdict, None, 0, refusal)
            self.assertEqual((answer, whole.value, verdict.kind, verdict.edge), (DONE, count, kept.kind, kept.edge))
            self.assertTrue(room.holds(wanted), f"{place} stretches of room")


# By the words of a log, and where none fits another second was told.
WORDS = {"ok": 0, "silence": 1, "fault": 2, "poor": 3, **dict.fromkeys(MARKS, 5)}
STOOD, TOLD, MARK = 1, 2, 3
BEHIND_PORTS = 6
Numbers = tuple[int, ...]  # of a lane: its reader, kind, port, state and cause, first edge and last


class Told:
    """What a log with silences and ports says, with the true seconds of tests/model, as lanes."""

    def __init__(self, log: Sequence[str], plant: Plant) -> None:
        self.names, self.timeline = list(plant.readers), plant.timeline
        self.ticks: dict[tuple[int, int], int] = {}  # by reader and edge its place in the log
        self.tracks: dict[Numbers, list[Numbers]] = {}  # by reader, kind and port what was at each edge
        for line in log:
            edge, name, *words = line.split()
            reader = self.names.index(name)
            self.ticks.setdefault((reader, int(edge)), len(self.ticks))
            if line[0] == " ":
                for port, word in enumerate(words):
                    self.put((reader, TOLD, port), WORDS.get(word.split(":")[0], 4), 0)
            else:
                self.put((reader, STOOD, 0), LOCKS.index(words[1].split(":")[0]), CAUSES.index(words[2]))

    def put(self, track: Numbers, *stood: int) -> None:
        self.tracks.setdefault(track, []).append(stood)

    def lanes(self) -> list[Numbers]:
        """In the order of c/irig_scene.h."""
        return sorted([*self.runs(), *self.marks()], key=self.place)

    def runs(self) -> Iterator[Numbers]:
        for track, found in self.tracks.items():
            for stood, edges in groupby(enumerate(found, 1), key=lambda pair: pair[1]):
                first, *more = (edge for edge, _ in edges)
                yield *track, *stood, first, more[-1] if more else first

    def marks(self) -> Iterator[Numbers]:
        for reader, edge in self.ticks:
            mark = mark_at(self.timeline, edge)
            if mark:
                yield reader, MARK, 0, mark, 0, edge, edge

    def place(self, lane: Numbers) -> Numbers:
        """A run stands where its reader's next edge ends it, a mark behind those; open ones stand at the end."""
        reader, kind, port, *_, last = lane
        if kind == MARK:
            return self.ticks[reader, last], BEHIND_PORTS
        own = 0 if kind == STOOD else 1 + port
        ended = self.ticks.get((reader, last + 1))
        return (len(self.ticks), reader, own) if ended is None else (ended, own)


class Heard(Station):
    """A plant of devices that tests/model plays: what was told, by the place of the device, in order."""

    def __init__(self, plan: StationPlan) -> None:
        super().__init__(plan, "all")
        self.seconds_told: list[tuple[int, ToldSecond]] = []

    def told(self, name: str, seconds: Iterator[ToldSecond]) -> Iterator[str]:
        self.seconds_told += [(list(self.devices).index(name), second) for second in seconds]
        self.look(name)
        return iter(())


def heard_in(text: bytes) -> Heard:
    """A scenario of devices in which no line is refused, played to its end."""
    station: Heard | None = None
    for _, said in lines_of(text):
        if isinstance(said, StationPlan):
            station = Heard(said)
        else:
            list(station.lines_of(said))
    return station


class ToldByDevices(Told):
    """The same of devices: a lane goes on from one told second to the next, whatever edges lie between them."""

    def __init__(self, station: Heard) -> None:
        self.timeline, self.tracks = station.plan.timeline, {}
        self.heard = [(device, second.edge) for device, second in station.seconds_told]
        for tick, (device, second) in enumerate(station.seconds_told):
            report = second.beat.report
            lock, cause = said_of(report).split()[1:]
            self.put((device, STOOD, 0), tick, LOCKS.index(lock.split(":")[0]), CAUSES.index(cause))
            truth = truth_at(self.timeline, second.edge - 1) if second.edge else None
            for line, word in enumerate(second.beat.told[: len(station.plan.generators)]):
                told = WORDS.get(port_word(word, truth).split(":")[0], 4)
                self.put((device, TOLD, line), tick, told, 0)

    def runs(self) -> Iterator[Numbers]:
        """Here the edges of a run are the places of what was told."""
        for track, found in self.tracks.items():
            for stood, ticks in groupby(found, key=lambda put: put[1:]):
                first, *more = (tick for tick, *_ in ticks)
                yield *track, *stood, first, more[-1] if more else first

    def marks(self) -> Iterator[Numbers]:
        for tick, (device, edge) in enumerate(self.heard):
            mark = mark_at(self.timeline, edge) if edge else 0
            if mark:
                yield device, MARK, 0, mark, 0, tick, tick

    def place(self, lane: Numbers) -> Numbers:
        device, kind, port, *_, last = lane
        if kind == MARK:
            return last, BEHIND_PORTS
        own = 0 if kind == STOOD else 1 + port
        behind = (tick for tick, (other, _) in enumerate(self.heard) if tick > last and other == device)
        ended = next(behind, None)
        return (len(self.heard), device, own) if ended is None else (ended, own)

    def lanes(self) -> list[Numbers]:
        return [(*lane, self.heard[first][1], self.heard[last][1]) for *lane, first, last in super().lanes()]


def numbers_of(lane: Lane) -> Numbers:
    return lane.reader, lane.kind, lane.port, lane.state, lane.cause, lane.first_edge, lane.last_edge


def mark_at(timeline: Timeline, edge: int) -> int:
    """What begins at an edge: 1 a leap second, 2 a month behind a deleted second, 3 another month, else 0."""
    before, second = second_at(timeline, edge - 1), second_at(timeline, edge)
    if second is None or before is None:
        return 0
    if second.of_day == 86_400:
        return 1
    if second.day == before.day or not is_month_end(before.day):
        return 0
    return 2 if before.of_day == 86_398 else 3


class Lanes(unittest.TestCase):
    def ran(self, text: bytes, room: int) -> tuple[int, int, list[Lane], Verdict, Refusal]:
        lanes, whole, verdict, refusal = (Lane * room)(), c_size_t(7), Verdict(), Refusal()
        status = RUN_LANES(text, len(text), lanes, room, whole, verdict, None, 0, refusal)
        return status, whole.value, lanes[: whole.value], verdict, refusal

    def test_logs(self) -> None:
        """Of all cases and examples: what the program's log says, and no more."""
        states = set()
        for name, text in scenarios().items():
            status, log, _ = printed("run", "-", "--all", "--ports", given=text)
            answer, whole, lanes, verdict, refusal = self.ran(text, 5000)
            plant = next((said for _, said in lines_of(text) if isinstance(said, Plant)), None)
            wanted = Told(log.decode().splitlines()[:-1], plant).lanes() if plant else []
            found = list(map(numbers_of, lanes))
            states |= {(one.kind, one.state) for one in lanes}
            with self.subTest(name):
                self.assertLess(whole, 5000)
                self.assertEqual((answer, found), (status, wanted))
                self.assertEqual((refusal.line > 0, verdict.kind > 0), (status == REFUSED, status == DONE))
        each = ((STOOD, range(4)), (TOLD, range(6)), (MARK, range(1, 4)))
        self.assertEqual(states, {(kind, state) for kind, numbers in each for state in numbers})

    def test_room(self) -> None:
        text, size = (ROOT / "examples/two_liars.jsonl").read_bytes(), ctypes.sizeof(Lane)
        _, count, wanted, kept, _ = self.ran(text, 100)
        for place in (0, 1, count - 1, count, count + 1):
            room, whole, verdict, refusal = Room(place * size), c_size_t(), Verdict(), Refusal()
            held = ctypes.cast(room.bytes, ctypes.POINTER(Lane))
            answer = RUN_LANES(text, len(text), held, place, whole, verdict, None, 0, refusal)
            self.assertEqual((answer, whole.value, verdict.kind, verdict.edge), (DONE, count, kept.kind, kept.edge))
            self.assertTrue(room.holds(wanted), f"{place} lanes of room")


class Reasons(unittest.TestCase):
    def test_room(self) -> None:
        """Of a run that has no log: why a scenario is refused, as the program says it."""
        found = re.match(r"line 1: (\d+) \w+: (.*)", printed("run", "-", given=b"x")[2])
        assert found
        number, reason = int(found[1]), found[2].encode()
        calls = ("run_entries", Entry), ("run_stretches", Stretch), ("run_lanes", Lane)
        for name, kind, room in ((*call, room) for call in calls for room in rooms(len(reason))):
            refusal, held, whole = Refusal(), kind(), c_size_t()
            answer = called(name, b"x", c_size_t(1), ctypes.byref(held), c_size_t(1), ctypes.byref(whole),
                            ctypes.byref(Verdict()), *room.words[:2], ctypes.byref(refusal))
            self.assertEqual((answer, refusal.whole, refusal.number), (REFUSED, len(reason), number))
            self.assertTrue(room.has(reason), f"{room.size} bytes of room")


class Frames(unittest.TestCase):
    def made(self, time: str, *options: int) -> bytes | None:
        room = Room(110)
        text = time.encode()
        words = text, c_size_t(len(text)), ctypes.byref(FrameOptions(*options)), room.bytes
        status = called("frame_text", *words)
        self.assertTrue(status == DONE or status == BAD and room.has(b""))
        return room.bytes.raw[:110] if status == DONE else None

    def test_made(self) -> None:
        for time, local, pending, dst, quality, parity, sense in product(
            (*TIMES, "2016-12-30T23:59:60Z"), (-31, 0, 11), range(3), range(2), (0, 15), range(2), range(2)
        ):
            words = [time, f"--local={local}", *["--dst"] * dst, f"--quality={quality}"]
            words += [f"--pending={('insert', 'delete')[pending - 1]}"] if pending else []
            words += [f"--parity={RULES[0][parity]}", f"--sense={RULES[1][sense]}"]
            status, text, _ = printed("frame", *words)
            made = self.made(time, local, pending, dst, quality, parity, sense)
            self.assertEqual(made, text if status == 0 else None, words)

    def test_options_without_a_meaning(self) -> None:
        for place, most in enumerate((31, 2, 1, 15, 1, 1)):
            self.assertIsNone(self.made(TIMES[0], *[0] * place, most + 1))

    def lines(self, text: bytes, rules: tuple[int, ...], room: Room) -> int:
        numbers = map(c_uint8, rules)
        return called("frame_lines", text, c_size_t(len(text)), *numbers, *room.words)

    def test_read(self) -> None:
        frame, odd = (self.made(TIMES[0], 11, 1), self.made(TIMES[1], 4, 0, 0, 9, 1, 1))
        assert frame and odd
        for text, rules in product(
            (frame[:-1], odd[:-1], b"P1", b"", frame.replace(b"P1", b"P?")[:-1], frame.replace(b" P", b" 0")[:-1]),
            product(range(2), repeat=3),
        ):
            options = zip(("parity", "sense", "sbs"), RULES, rules)
            words = [f"--{name}={kinds[rule]}" for name, kinds, rule in options]
            _, wanted, _ = printed("read", text.decode(), *words)
            for room in map(Room, range(201)):
                self.assertEqual((self.lines(text, rules, room), room.whole.value), (DONE, len(wanted)))
                self.assertTrue(room.has(wanted), f"{room.size} bytes of room")

    def test_what_is_not_read(self) -> None:
        for text, rules in ((b"PX", (0, 0, 0)), (b"P", (2, 0, 0)), (b"P", (0, 2, 0)), (b"P", (0, 0, 2))):
            room = Room(200)
            self.assertEqual((self.lines(text, rules, room), room.whole.value), (BAD, 0))
            self.assertTrue(room.has(b""))


class Null(unittest.TestCase):
    def test_each_pointer(self) -> None:
        """One of them null: nothing is done."""
        room, reason, refusal = Room(1), Room(1), Refusal(line=7)
        options, one, whole = FrameOptions(), c_size_t(1), c_size_t(7)
        log, why = room.words, (*reason.words[:2], ctypes.byref(refusal))
        for name, *words in (
            ("run", b"x", one, c_bool(), *log),
            ("run_shown", b"x", one, c_bool(), c_bool(), *log, *why),
            ("run_entries", b"x", one, Entry(), one, ctypes.byref(whole), Verdict(), (c_uint8 * 1)(), one, refusal),
            ("run_stretches", b"x", one, Stretch(), one, ctypes.byref(whole), Verdict(), (c_uint8 * 1)(), one, refusal),
            ("run_lanes", b"x", one, Lane(), one, ctypes.byref(whole), Verdict(), (c_uint8 * 1)(), one, refusal),
            ("run_told", b"x", one, DeviceEntry(), one, ctypes.byref(whole), Verdict(), (c_uint8 * 1)(), one, refusal),
            ("frame_text", b"x", one, ctypes.byref(options), room.bytes),
            ("frame_lines", b"P", one, c_uint8(), c_uint8(), c_uint8(), *log),
        ):
            for place, word in enumerate(words):
                if not isinstance(word, (c_size_t, c_bool, c_uint8)):
                    with self.subTest(name, place=place):
                        self.assertEqual(called(name, *words[:place], None, *words[place + 1 :]), NULL)
        self.assertTrue(room.has(b"") and reason.has(b""))
        self.assertEqual((room.whole.value, whole.value, refusal.line), (0xA5, 7, 7))

    def test_nothing_at_all(self) -> None:
        room = Room(0)
        self.assertEqual(called("run", None, c_size_t(0), c_bool(), *room.words), REFUSED)
        self.assertEqual(called("frame_text", None, c_size_t(0), ctypes.byref(FrameOptions()), Room(110).bytes), BAD)


if __name__ == "__main__":
    unittest.main(argv=sys.argv[:1])
