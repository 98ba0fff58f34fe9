"""A scenario played: lines in, the log out (docs/SCENARIOS.md, Events; docs/OUTPUT.md)."""

from collections.abc import Iterable, Iterator
from dataclasses import dataclass

from .faults import Refused, refuse_if
from .frames import Told, symbol_of, told, word_of_port
from .generator import GeneratorFault, Kind, sent
from .lines import lines
from .meaning import Event, Plant
from .reader import IDLE, Report, State, after_tick, said_of
from .station import Station
from .station_lines import StationPlan
from .times import Claim, Mark, is_true_table, second_at, text_of_second, truth_at
from .voting import majority, vote

__all__ = ["Readers", "Result", "Run", "default_lines", "lines", "log_of", "play", "port_word", "result_of", "run"]


@dataclass(frozen=True)
class Result:
    """Standard output, exit status, and how the first line of standard error begins."""

    stdout: bytes
    status: int
    error: str | None = None


@dataclass(frozen=True)
class Entry:
    """One tick: the reader, its number, the report, what ports told, the true claim."""

    name: str
    n: int
    report: Report
    told: list[Told]
    truth: Claim


@dataclass
class Reader:
    """How a reader stands: its ticks, its state, and what its ports heard."""

    ticks: int
    state: State
    heard: list[str]


@dataclass
class World:
    """A plant, the edges and faults of its generators, and its readers."""

    plant: Plant
    edges: list[int]
    faults: list[GeneratorFault | None]
    readers: dict[str, Reader]


def world_of(plant: Plant) -> World:
    """A plant before its first event (docs/SCENARIOS.md, The plant line)."""
    count = len(plant.generators)
    readers = {name: Reader(0, IDLE, [""] * count) for name in plant.readers}
    return World(plant, [0] * count, [None] * count, readers)


def delivered(world: World, event: Event) -> str:
    """The symbols that come to a port (docs/SCENARIOS.md, Events)."""
    plant, g = world.plant, event["g"]
    if event["do"] == "raw":
        return "".join(map(symbol_of, event["widths"]))
    if event["do"] == "replay":
        refuse_if(21, event["edge"] > world.edges[g])
        return sent(plant.generators[g], None, plant.timeline, plant.rules, event["edge"])
    frame = sent(plant.generators[g], world.faults[g], plant.timeline, plant.rules, world.edges[g])
    if event["do"] == "damage" and frame:
        return frame[: event["at"]] + symbol_of(event["width"]) + frame[event["at"] + 1 :]
    return frame


def tick(world: World, name: str) -> Entry:
    """A tick of a reader (docs/SCENARIOS.md, Events; docs/READER.md, The rule)."""
    plant, reader, setup = world.plant, world.readers[name], world.plant.readers[name]
    truth = truth_at(plant.timeline, reader.ticks)
    refuse_if(22, truth is None)
    reader.ticks += 1
    words = [told(plant.rules, heard) for heard in reader.heard]
    reader.heard = [""] * len(words)
    voted = vote(words, len(words))
    reader.state, report = after_tick(setup.rules, setup.table, reader.state, voted)
    return Entry(name, reader.ticks, report, words, truth)


def second_of_events(plant: Plant) -> list[Event]:
    """One second of `seconds` (docs/SCENARIOS.md, Events)."""
    generators = range(len(plant.generators))
    carries = [{"do": "carry", "g": g, "r": name} for g in generators for name in plant.readers]
    ticks = [{"do": "tick", "r": name} for name in plant.readers]
    return carries + ticks + [{"do": "step", "g": g} for g in generators]


def happen(world: World, event: Event) -> Iterator[Entry]:
    """What an event does, or its refusal, 20 to 22 (docs/SCENARIOS.md, Events)."""
    g, name = event.get("g", 0), event.get("r")
    refuse_if(20, g >= len(world.plant.generators))
    match event["do"]:
        case "seconds":
            for part in second_of_events(world.plant) * event["n"]:
                yield from happen(world, part)
        case "tick":
            yield tick(world, name)
        case "step":
            refuse_if(22, second_at(world.plant.timeline, world.edges[g] + 1) is None)
            world.edges[g] += 1
        case "fault":
            leap = Mark(event["leap"]) if "leap" in event else None
            value = event.get("by", event.get("q", leap))
            world.faults[g] = GeneratorFault(Kind(event["kind"]), value, world.edges[g])
        case "repair":
            world.faults[g] = None
        case "restart":
            reader = world.readers[name]
            reader.state, reader.heard = IDLE, [""] * len(reader.heard)
        case _:
            heard = world.readers[name].heard
            heard[g] = (heard[g] + delivered(world, event))[:101]


def port_word(word: Told, truth: Claim) -> str:
    """What a port told (docs/OUTPUT.md, What each port told)."""
    if not isinstance(word, Claim):
        return word_of_port(word)
    if word.second != truth.second:
        return text_of_second(word.second)
    return "ok" if word == truth else word.mark.value


def entry_lines(entry: Entry, entries: str) -> Iterator[str]:
    """The lines of a tick (docs/OUTPUT.md, The log of a scenario, and What each port told)."""
    said = entry.report
    if said.second is not None or "all" in entries:
        yield f"{entry.n} {entry.name} {said_of(said)}"
    if "ports" in entries:
        words = [port_word(word, entry.truth) for word in entry.told]
        yield " ".join(["", str(entry.n), entry.name, *words])


def is_broken(entry: Entry) -> bool:
    """Whether f + 1 or more ports told an untrue claim (docs/SCENARIOS.md, The audit)."""
    untrue = [word for word in entry.told if isinstance(word, Claim) and word != entry.truth]
    return len(untrue) >= majority(len(entry.told))


def verdict(plant: Plant, broken: list[Entry]) -> str:
    """The last line of a log (docs/OUTPUT.md, The last line; docs/SCENARIOS.md, The audit)."""
    for name, reader in plant.readers.items():
        if not is_true_table(reader.table, plant.timeline):
            return f"premises broken: table of reader {name}"
    if broken:
        return f"premises broken: edge {broken[0].n} reader {broken[0].name}"
    return "premises kept"


class Readers:
    """A plant of readers, and the first tick that broke a premise, if there was one."""

    def __init__(self, plant: Plant, entries: str):
        self.world, self.entries = world_of(plant), entries
        self.ticked: list[Entry] = []
        self.broken: list[Entry] = []

    def lines_of(self, event: Event) -> Iterator[str]:
        """The lines of an event, or its refusal."""
        for entry in happen(self.world, event):
            self.ticked.append(entry)
            yield from entry_lines(entry, self.entries)
            self.broken += [entry] if is_broken(entry) and not self.broken else []

    def last_line(self) -> str:
        return verdict(self.world.plant, self.broken)


def begun(plant: Plant | StationPlan, entries: str) -> Readers | Station:
    """A plant of either kind before its first event."""
    return Station(plant, entries) if isinstance(plant, StationPlan) else Readers(plant, entries)


def default_lines(log: bytes) -> bytes:
    """A log without what --all and --ports add: ticks that announce nothing, and what ports told
    (docs/OUTPUT.md). A stamp that was not given stands in any log."""
    lines = log.splitlines(keepends=True)
    return b"".join(line for line in lines if line[:1] == b"@" or line[:1] != b" " and b" - " not in line)


@dataclass(frozen=True)
class Run:
    """A scenario that was played: its plant, if a line began one, the lines of its log, the last line, and the
    refusal, if a line was refused."""

    plant: Readers | Station | None
    log: list[str]
    last: str
    error: str | None


def run(data: bytes, entries: str = "default") -> Run:
    """Plays the lines of a scenario up to the first that is refused."""
    plant, log, number = None, [], 0
    try:
        for number, meaning in lines(data):
            if isinstance(meaning, Refused):
                raise meaning
            if plant is None:
                plant = begun(meaning, entries)
                continue
            for line in plant.lines_of(meaning):
                log.append(line)
        return Run(plant, log, plant.last_line(), None)
    except Refused as refused:
        error = f"line {number}: {refused}"
        return Run(plant, log, f"refused: {error}", error)


def result_of(played: Run, said: Iterable[str]) -> Result:
    """The result of a run of which this is said."""
    text = "".join(f"{line}\n" for line in said)
    return Result(text.encode(), 3 if played.error else 0, played.error)


def log_of(played: Run) -> Result:
    """The log of a run, with its last line."""
    return result_of(played, [*played.log, played.last])


def play(data: bytes, entries: str = "default") -> Result:
    """The log of a scenario, `entries` being "default", "all", "ports" or "all ports"
    (docs/SCENARIOS.md; docs/OUTPUT.md; docs/FAULTS.md, Refusals of a scenario)."""
    return log_of(run(data, entries))
