"""Logs of scenarios: what their lines say, and the one parser of those that a file or a program gives,
line by line (`read_lines`) or whole (`read_log`). It needs no library. docs/OUTPUT.md says what a log has."""
from __future__ import annotations

import re
from array import array
from dataclasses import dataclass, field
from datetime import datetime
from functools import cached_property, lru_cache
from itertools import accumulate
from typing import TYPE_CHECKING, Any, Callable, Dict, Iterable, Iterator, List, Optional, Sequence, Tuple
from typing import Union, cast, overload

from . import _library as c
from .faults import MEANINGS, Detail, detail_of
from .scenarios import has_devices
from .seconds import Second
from .timekeepers import Stamp
from .words import CAUSES, MARKS, Cause, Lock, Mark, PortKind

if TYPE_CHECKING:
    from .lanes import Lane
    from .stretches import Stretch

# ---- what a line says


class Said:
    """What is shown by its text."""

    def __repr__(self) -> str:
        return f"<{type(self).__name__}: {str(self).strip()}>"


class Lines:
    """The lines of a log that was run, which the library writes when one is first asked for; and `asked`, by
    their places which line of the scenario asked for the tick."""

    def __init__(self, write: Callable[[], str]) -> None:
        self._write = write
        self.asked = array("Q")

    @cached_property
    def text(self) -> str:
        return self._write()

    @cached_property
    def starts(self) -> Sequence[int]:
        """Where each line begins, and at last where they end."""
        return array("Q", accumulate(map(len, self.text.splitlines(True)), initial=0))

    def at(self, place: int) -> str:
        return self.text[self.starts[place] : self.starts[place + 1] - 1]


class InLog(Said):
    """What a line of a log says; as a text it is that line."""

    _lines: Union[Lines, str] = ""
    _place = 0

    @property
    def line(self) -> str:
        """The line, as the library or a file has it; empty if this is of no log."""
        return self._lines if isinstance(self._lines, str) else self._lines.at(self._place)

    @property
    def asked(self) -> Optional[int]:
        """The line of the scenario that asked for the tick, from 1; None of a log that was read, and of devices,
        which tick by themselves."""
        return None if isinstance(self._lines, str) or not self._lines.asked else self._lines.asked[self._place]

    def __str__(self) -> str:
        return self.line

    def __repr__(self) -> str:
        fields = (f"{name}={value!r}" for name, value in vars(self).items() if name[0] != "_")
        return super().__repr__() if self.line else f"{type(self).__name__}({', '.join(fields)})"


@dataclass(frozen=True, repr=False)
class Announced(InLog):
    """At its tick `edge`, counted from 1, a reader announced the second that then began.

    reader: its name
    lock: "locked" or "holdover"; with the latter `count` is the edges since the last vote
    cause: "voted" or "held"
    """

    edge: int
    reader: str
    second: Second
    lock: Lock
    count: int
    cause: Cause
    _lines: Union[Lines, str] = field(default="", compare=False)
    _place: int = field(default=0, compare=False)


@dataclass(frozen=True, repr=False)
class Silent(InLog):
    """At its tick `edge` a reader announced nothing; a log with `all` has these.

    reader: its name
    lock: "unlocked" or "acquiring"; with the latter `count` is the votes so far
    cause: "acquiring", "no-vote", "expired", "leap-guard", "jump" or "range-end"
    """

    edge: int
    reader: str
    lock: Lock
    count: int
    cause: Cause
    _lines: Union[Lines, str] = field(default="", compare=False)
    _place: int = field(default=0, compare=False)


@dataclass(frozen=True, repr=False)
class PortWord(Said):
    """What a port told at a tick, by its word in a line of `--ports`.

    text: the word
    kind: "agreed" if it is the true claim; "silent"; "faulty", with the fault's `number` and `name`
        of docs/FAULTS.md and its `place`, if it has one: an element, a field, or how many symbols;
        "poor", with its `quality`; "another second", with the `second` that was claimed; "another
        mark", with the `mark`
    """

    text: str
    kind: PortKind
    number: Optional[int] = None
    name: Optional[str] = None
    place: Detail = None
    quality: Optional[int] = None
    second: Optional[Second] = None
    mark: Optional[Mark] = None

    @property
    def is_untrue(self) -> bool:
        """Whether it claims what is not true: another second or another mark."""
        return self.kind in UNTRUE

    def __str__(self) -> str:
        return self.text


@dataclass(frozen=True, repr=False)
class Ports(InLog):
    """What each port of a reader told at its tick `edge`, in the words of docs/OUTPUT.md. The
    program writes such lines with --ports. `told` has what the words say."""

    edge: int
    reader: str
    words: Tuple[str, ...]
    _lines: Union[Lines, str] = field(default="", compare=False)
    _place: int = field(default=0, compare=False)
    _held: bytes = field(default=b"", compare=False)  # the entry of a run

    @cached_property
    def told(self) -> Tuple[PortWord, ...]:
        """What each port told."""
        if not self._held:
            return tuple(map(port_word, self.words))
        held = c.Entry.from_buffer_copy(self._held)
        truth = held.truth if held.has_truth else None
        return tuple(word_of(text, told, truth) for text, told in zip(self.words, held.told))

    @property
    def truth(self) -> Optional[Second]:
        """The true second of the frame that ended at the edge, which is the one before that which begins there;
        None of a log that was read."""
        held = c.Entry.from_buffer_copy(self._held) if self._held else None
        return Second(held.truth.at.day, held.truth.at.sod) if held and held.has_truth else None


@dataclass(frozen=True, repr=False)
class ToldSecond(InLog):
    """A device told that a second begins.

    edge: the true edge, counted from 1, to which the told one lies nearest by the device's counter
    device: its name
    second: the second that was announced; None if none was, and a log with `all` has these
    lock: "locked", "holdover", "unlocked" or "acquiring"; of the second and the last `count` is as with
        `Announced` and `Silent`
    cause: as there
    off_us: how far the told edge lies behind that true edge, by the counter; below 0 before it
    bound_us: how far it may lie off; None if no second was announced
    """

    edge: int
    device: str
    second: Optional[Second]
    lock: Lock
    count: int
    cause: Cause
    off_us: int
    bound_us: Optional[int]
    _lines: Union[Lines, str] = field(default="", compare=False)
    _place: int = field(default=0, compare=False)


@dataclass(frozen=True, repr=False)
class Stamped(InLog):
    """A device was asked when an event was.

    instant_us: when it was, in true time since edge 0
    device: its name
    stamp: what the device answered; None if it gave none
    """

    instant_us: int
    device: str
    stamp: Optional[Stamp]
    _lines: Union[Lines, str] = field(default="", compare=False)
    _place: int = field(default=0, compare=False)


OfReader = Union[Announced, Silent, Ports]
OfDevice = Union[ToldSecond, Stamped]
Entry = Union[OfReader, OfDevice]
OF_READERS = Announced, Silent, Ports
OF_DEVICES = ToldSecond, Stamped
ENTRIES = *OF_READERS, *OF_DEVICES


@dataclass(frozen=True)
class PremisesKept:
    """Each second in the log is the true one; of devices each told edge lies within its bound too, and each stamp
    names its instant."""

    kept = True

    def __str__(self) -> str:
        return "premises kept"


@dataclass(frozen=True)
class PremiseBroken:
    """At this tick a reader got more false claims than it can outvote, the first to do so."""

    edge: int
    reader: str
    kept = False

    def __str__(self) -> str:
        return f"premises broken: edge {self.edge} reader {self.reader}"


@dataclass(frozen=True)
class TableBroken:
    """This reader's leap table is not true."""

    reader: str
    kept = False

    def __str__(self) -> str:
        return f"premises broken: table of reader {self.reader}"


@dataclass(frozen=True)
class DeviceBroken:
    """In the second of this edge a device broke what the audit asks, the first to do so (docs/OUTPUT.md)."""

    edge: int
    device: str
    kept = False

    def __str__(self) -> str:
        return f"premises broken: edge {self.edge} device {self.device}"


@dataclass(frozen=True)
class DeviceTableBroken:
    """This device's leap table is not true."""

    device: str
    kept = False

    def __str__(self) -> str:
        return f"premises broken: table of device {self.device}"


@dataclass(frozen=True)
class DriftBroken:
    """This device's counter gains or loses more than its `drift` says."""

    device: str
    kept = False

    def __str__(self) -> str:
        return f"premises broken: drift of device {self.device}"


@dataclass(frozen=True)
class RefusedLine:
    """A line of the scenario was refused, `number` and `name` say why (docs/FAULTS.md)."""

    line: int
    number: int
    name: str
    kept = False

    def __str__(self) -> str:
        return f"refused: line {self.line}: {self.number} {self.name}"


Verdict = Union[PremisesKept, PremiseBroken, TableBroken, DeviceBroken, DeviceTableBroken, DriftBroken]
DEVICE_VERDICTS = DeviceBroken, DeviceTableBroken, DriftBroken
LastLine = Union[Verdict, RefusedLine]


# ---- reading lines

NAME = r"[a-z0-9_-]{1,16}"
SAID = rf"(\d{{1,20}}) ({NAME}) (\S+) (locked|unlocked|(?:holdover|acquiring):\d+) ({'|'.join(CAUSES)})"
ENTRY = re.compile(SAID, re.ASCII)
TOLD = re.compile(rf"{SAID} ([+-]\d{{1,20}}) (\d{{1,20}}|-)", re.ASCII)
STAMPED = re.compile(rf"@(\d{{1,20}})\.(\d{{6}}) ({NAME}) (?:- - -|(\S+) (\d{{1,20}}) (\d{{1,20}}))", re.ASCII)
PORTS = re.compile(rf" (\d{{1,20}}) ({NAME})((?: \S+){{1,5}})", re.ASCII)
FAULT = re.compile(r"fault:(\d+):(\w+)(?::(\w+))?", re.ASCII)
POOR = re.compile(r"poor:(1[0-5])", re.ASCII)
REFUSAL = re.compile(r"refused: line (\d+): (\d+) (\w+)", re.ASCII)
BROKEN = re.compile(rf"premises broken: edge (\d+) reader ({NAME})", re.ASCII)
BROKEN_TABLE = re.compile(rf"premises broken: table of reader ({NAME})", re.ASCII)
BROKEN_DEVICE = re.compile(rf"premises broken: edge (\d+) device ({NAME})", re.ASCII)
BROKEN_DRIFT = re.compile(rf"premises broken: (table|drift) of device ({NAME})", re.ASCII)
UNTRUE = ("another second", "another mark")


def read_lines(lines: Iterable[str]) -> Iterator[Union[Entry, LastLine]]:
    """What each line of a log says, as they come: entries, and then the last line, if the run did not
    break off. Empty lines are skipped. A ValueError names the first line that is none."""
    reading = Reading()
    for line in lines:
        said = reading.take(line)
        if said is not None:
            yield said


class Reading:
    """What was read of a log so far, to see if the next line can stand there."""

    def __init__(self) -> None:
        self.number = 0
        self.is_ended = False
        self._edges: Dict[str, int] = {}  # the last edge of each reader
        self._told: Dict[str, Tuple[int, int]] = {}  # the last edge of its ports, and how many
        self._forms: Tuple[Tuple[re.Pattern[str], Callable[[str, re.Match[str]], Entry]], ...] = (
            (ENTRY, self._entry), (PORTS, self._ports), (TOLD, self._told_second), (STAMPED, self._stamped),
        )
        self._plant = ""  # what the lines so far are of: "readers", "devices", or nothing that says it

    def take(self, line: str) -> Union[Entry, LastLine, None]:
        """What the next line says; None if it is empty."""
        self.number += 1
        line = line.rstrip("\r\n")
        if not line or line.isspace():
            return None
        if self.is_ended:
            raise ValueError(f"line {self.number} stands below the last line of a log")
        for form, take in self._forms:
            found = form.fullmatch(line)
            if found:
                return take(line, found)
        last = last_line(line)
        if last is None:
            raise self._no_line(line)
        if not isinstance(last, (PremisesKept, RefusedLine)):
            self._is_of("devices" if isinstance(last, DEVICE_VERDICTS) else "readers")
        self.is_ended = True
        return last

    def _is_of(self, plant: str) -> None:
        if self._plant not in ("", plant):
            raise ValueError(f"line {self.number} is of {plant}, in a log of {self._plant}")
        self._plant = plant

    def _entry(self, line: str, found: re.Match[str]) -> Entry:
        self._is_of("readers")
        edge, reader, time = int(found[1]), found[2], found[3]
        self._follow(reader, edge, self._edges.get(reader, 0))
        self._edges[reader] = edge
        word, _, count = found[4].partition(":")
        stood = cast(Lock, word), int(count or 0), cast(Cause, found[5])
        if time == "-":
            return Silent(edge, reader, *stood, line)
        return Announced(edge, reader, self._second(line, time), *stood, line)

    def _told_second(self, line: str, found: re.Match[str]) -> Entry:
        self._is_of("devices")
        word, _, count = found[4].partition(":")
        stood = cast(Lock, word), int(count or 0), cast(Cause, found[5]), int(found[6])
        if (found[3] == "-") != (found[7] == "-"):
            raise self._no_line(line)
        if found[3] == "-":
            return ToldSecond(int(found[1]), found[2], None, *stood, None, line)
        return ToldSecond(int(found[1]), found[2], self._second(line, found[3]), *stood, int(found[7]), line)

    def _stamped(self, line: str, found: re.Match[str]) -> Entry:
        self._is_of("devices")
        stamp = Stamp(self._second(line, found[4]), int(found[5]), int(found[6])) if found[4] else None
        return Stamped(1_000_000 * int(found[1]) + int(found[2]), found[3], stamp, line)

    def _second(self, line: str, time: str) -> Second:
        try:
            return Second.read(time)
        except ValueError:
            raise self._no_line(line) from None

    def _ports(self, line: str, found: re.Match[str]) -> Ports:
        self._is_of("readers")
        edge, reader, words = int(found[1]), found[2], tuple(found[3].split())
        try:
            for word in words:
                port_word(word)
        except ValueError:
            raise self._no_line(line) from None
        before, count = self._told.get(reader, (0, len(words)))
        self._follow(reader, edge, max(before, self._edges.get(reader, 1) - 1))
        if len(words) != count:
            what = f"{len(words)} ports of {reader}, which had {count}"
            raise ValueError(f"line {self.number} has {what}")
        self._edges[reader] = edge
        self._told[reader] = edge, count
        return Ports(edge, reader, words, line)

    def _follow(self, reader: str, edge: int, before: int) -> None:
        if edge <= before:
            after = f"after edge {before}" if before else "before edge 1"
            raise ValueError(f"line {self.number}: edge {edge} of {reader} comes {after}")

    def _no_line(self, line: str) -> ValueError:
        if line.startswith("{"):
            what = "of a scenario; its log is what ./irig run prints"
        else:
            what = f"no line of a log: {line[:60]!r}"
        return ValueError(f"line {self.number} is {what}")


@lru_cache(maxsize=4096)
def port_word(text: str) -> PortWord:
    """What a word of a line of `--ports` says. A ValueError if it is none."""
    if text == "ok":
        return PortWord(text, "agreed")
    if text == "silence":
        return PortWord(text, "silent")
    if text in MARKS:
        return PortWord(text, "another mark", mark=cast(Mark, text))
    poor, fault = POOR.fullmatch(text), FAULT.fullmatch(text)
    if poor:
        return PortWord(text, "poor", quality=int(poor[1]))
    if fault:
        return _fault_word(text, int(fault[1]), fault[2], fault[3])
    return PortWord(text, "another second", second=Second.read(text))


def word_of(text: str, told: c.Told, true: Optional[c.Claim]) -> PortWord:
    """What a port told by the numbers of a run, beside the true claim; the text is the log's."""
    if told.kind == c.NUMBERS["TOLD_SILENCE"]:
        return PortWord(text, "silent")
    if told.kind == c.NUMBERS["TOLD_FAULT"]:
        number, place = detail_of(told.fault)
        return PortWord(text, "faulty", number=number, name=MEANINGS[number].name, place=place)
    if told.kind == c.NUMBERS["TOLD_POOR"]:
        return PortWord(text, "poor", quality=told.quality)
    if not true or not c.same(told.claim.at, true.at):
        return PortWord(text, "another second", second=Second(told.claim.at.day, told.claim.at.sod))
    if told.claim.mark != true.mark:
        return PortWord(text, "another mark", mark=MARKS[told.claim.mark])
    return PortWord(text, "agreed")


def _has_meaning(number: int, name: str) -> bool:
    return number in MEANINGS and MEANINGS[number].name == name


def _fault_word(text: str, number: int, name: str, place: Optional[str]) -> PortWord:
    if not _has_meaning(number, name):
        raise ValueError(f"{text!r} is no fault of docs/FAULTS.md")
    is_number = place is not None and place.isdecimal()
    where: Detail = int(place or 0) if is_number else place
    return PortWord(text, "faulty", number=number, name=name, place=where)


def last_line(line: str) -> Optional[LastLine]:
    """What the last line of a log says; None if it is no such line."""
    if line == "premises kept":
        return PremisesKept()
    broken = BROKEN.fullmatch(line)
    if broken:
        return PremiseBroken(int(broken[1]), broken[2])
    table = BROKEN_TABLE.fullmatch(line)
    if table:
        return TableBroken(table[1])
    device = BROKEN_DEVICE.fullmatch(line)
    if device:
        return DeviceBroken(int(device[1]), device[2])
    setup = BROKEN_DRIFT.fullmatch(line)
    if setup:
        return DeviceTableBroken(setup[2]) if setup[1] == "table" else DriftBroken(setup[2])
    refusal = REFUSAL.fullmatch(line)
    if not refusal or not _has_meaning(int(refusal[2]), refusal[3]):
        return None
    return RefusedLine(int(refusal[1]), int(refusal[2]), refusal[3])


# ---- ticks


@dataclass(frozen=True)
class Tick:
    """All that a log says of a tick of a reader: its own line, if there is one, and what its ports
    told, if the log has that."""

    edge: int
    reader: str
    said: Union[Announced, Silent, None]
    ports: Optional[Ports]

    @property
    def second(self) -> Optional[Second]:
        """The second that was announced, if one was."""
        return self.said.second if isinstance(self.said, Announced) else None


def ticks_of(lines: Iterable[Union[Entry, LastLine]]) -> Iterator[Tick]:
    """The ticks of what `read_lines` or a Log gives, in order."""
    said: Union[Announced, Silent, None] = None
    for line in lines:
        if isinstance(line, Ports):
            is_of_it = said is not None and (said.edge, said.reader) == (line.edge, line.reader)
            if said and not is_of_it:
                yield Tick(said.edge, said.reader, said, None)
            yield Tick(line.edge, line.reader, said if is_of_it else None, line)
            said = None
            continue
        if said:
            yield Tick(said.edge, said.reader, said, None)
        said = line if isinstance(line, (Announced, Silent)) else None
    if said:
        yield Tick(said.edge, said.reader, said, None)


# ---- a whole log


@dataclass(frozen=True, repr=False)
class Log(Sequence[Entry]):
    """The log of a scenario.

    entries: its lines but the last, in order: `Announced`, `Silent` and `Ports`; of devices `ToldSecond` and
        `Stamped`
    verdict: what its last line says; None of a run that was refused
    scenario: the scenario's bytes, if they are known
    """

    entries: Tuple[Entry, ...]
    verdict: Optional[Verdict]
    scenario: Optional[bytes] = field(default=None, compare=False)
    _lines: Optional[Lines] = field(default=None, compare=False)

    @property
    def kept(self) -> bool:
        """Whether it ends in `premises kept`: what `PremisesKept` says is then so."""
        return self.verdict is not None and self.verdict.kept

    @cached_property
    def text(self) -> str:
        """Its lines, as the program prints them; of a run that was refused all but the last."""
        if self._lines and len(self._lines.starts) == len(self.entries) + 2:  # it has them all, and a last line
            return self._lines.text if self.verdict else self._lines.text[: self._lines.starts[-2]]
        said = (*self.entries, self.verdict) if self.verdict else self.entries
        return "".join(f"{line}\n" for line in said)

    @property
    def ports(self) -> Tuple[Ports, ...]:
        """What the ports told at each tick; nothing if the run was without `ports`."""
        return tuple(entry for entry in self.entries if isinstance(entry, Ports))

    @property
    def readers(self) -> Tuple[str, ...]:
        """The names of its readers, in the order in which they come."""
        return tuple(dict.fromkeys(entry.reader for entry in self.entries if isinstance(entry, OF_READERS)))

    @property
    def devices(self) -> Tuple[str, ...]:
        """The names of its devices, in the order in which they come."""
        return tuple(dict.fromkeys(entry.device for entry in self.entries if isinstance(entry, OF_DEVICES)))

    def ticks(self) -> Iterator[Tick]:
        """Its ticks, in order: the line of each, and what its ports told. Raises ValueError of devices."""
        self._is_of_readers()
        return ticks_of(self.entries)

    def to_rows(self, by_port: bool = False) -> List[Dict[str, Any]]:
        """A table, as `pandas.DataFrame` takes it: a row a tick, with a column for each port, if it
        has what they told; with `by_port` a row for each port of each tick. Raises ValueError of devices."""
        rows = _port_rows if by_port else _rows
        return list(rows(self.ticks()))

    def blame(self) -> List[Stretch]:
        """Who lied, or told nothing, and what it cost: what `irig blame` prints of the scenario. Of a plant of
        devices a device is the reader (`Lane`). Raises ValueError if a log was read without its scenario."""
        from .stretches import stretches_of

        return stretches_of(self._known_scenario())

    def lanes(self) -> List[Lane]:
        """What a picture of the run shows: how each reader or device stood, what its ports or lines told, and where
        leap seconds and months begin. Raises ValueError if a log was read without its scenario."""
        from .lanes import lanes_of

        return lanes_of(self._known_scenario())

    def _is_of_readers(self) -> None:
        has = self.scenario is not None and has_devices(self.scenario)
        if has or self.devices or isinstance(self.verdict, DEVICE_VERDICTS):
            raise ValueError("this is asked of readers, and the scenario's plant has devices")

    def _known_scenario(self) -> bytes:
        if self.scenario is None:
            raise ValueError("what is true is said by the scenario, which read_log takes as its second argument")
        return self.scenario

    def __len__(self) -> int:
        return len(self.entries)

    @overload
    def __getitem__(self, place: int) -> Entry: ...

    @overload
    def __getitem__(self, place: slice) -> Tuple[Entry, ...]: ...

    def __getitem__(self, place: Union[int, slice]) -> Union[Entry, Tuple[Entry, ...]]:
        return self.entries[place]

    def __iter__(self) -> Iterator[Entry]:
        return iter(self.entries)

    def __repr__(self) -> str:
        return f"<Log: {len(self)} entries, {self.verdict or 'refused'}>"


def _rows(ticks: Iterable[Tick]) -> Iterator[Dict[str, Any]]:
    """A row a tick. In a leap second `utc` is no time, as in a silence; `second` has its text."""
    for tick in ticks:
        second = tick.second
        row = {
            "edge": tick.edge,
            "reader": tick.reader,
            "second": None if second is None else str(second),
            "utc": _time_of(second),
            "lock": tick.said and tick.said.lock,
            "count": tick.said and tick.said.count,
            "cause": tick.said and tick.said.cause,
        }
        words = tick.ports.words if tick.ports else ()
        yield {**row, **{f"port_{port}": word for port, word in enumerate(words)}}


def _port_rows(ticks: Iterable[Tick]) -> Iterator[Dict[str, Any]]:
    """A row for each port of a tick."""
    for tick in ticks:
        for port, told in enumerate(tick.ports.told if tick.ports else ()):
            yield {
                "edge": tick.edge,
                "reader": tick.reader,
                "port": port,
                "word": told.text,
                "kind": told.kind,
                "number": told.number,
                "name": told.name,
                "place": told.place,
                "quality": told.quality,
                "second": None if told.second is None else str(told.second),
                "mark": told.mark,
            }


def _time_of(second: Optional[Second]) -> Optional[datetime]:
    return None if second is None or second.is_leap else second.to_datetime()


@dataclass(eq=False, repr=False)
class Refused(ValueError):
    """A line of a scenario was refused. As a text it is what the program says of it.

    line: its number, from 1
    number, name: why, as docs/FAULTS.md and `irig explain` have it
    log: what was played before it
    place: where in the line it is, as `readers[0]`; None if it is the line itself
    key, value: what stands there
    allowed: what may stand there
    reason: the program's words

    What is not known is None: all but line, number and name, if a log was read.
    """

    line: int
    number: int
    name: str
    log: Log
    reason: Optional[str] = None
    place: Optional[str] = None
    key: Optional[str] = None
    value: Optional[str] = None
    allowed: Optional[str] = None

    def __str__(self) -> str:
        reason = self.reason or MEANINGS[self.number].cause
        return f"line {self.line}: {self.number} {self.name}: {reason}"


def read_log(text: str, scenario: Union[str, bytes, None] = None) -> Log:
    """The log of this text, as the program prints it, whole. Raises what `run` raises of such a log.

    scenario: the text of its scenario, if it is at hand; `Log.blame` and `Log.lanes` then know what is true
    """
    *entries, last = [None, *read_lines(text.split("\n"))] if text.endswith("\n") else [None]
    if last is None or isinstance(last, ENTRIES):
        raise ValueError("this is no whole log: it has no last line, or that has no end")
    held = scenario.encode(errors="surrogatepass") if isinstance(scenario, str) else scenario
    said = tuple(entry for entry in entries if isinstance(entry, ENTRIES))
    if isinstance(last, RefusedLine):
        raise Refused(last.line, last.number, last.name, Log(said, None, held))
    return Log(said, last, held)
