"""Values of tests/model as definitions have them."""

from collections.abc import Callable
from dataclasses import fields
from enum import Enum

from model.faults import NAMES, Fault, Refused
from model.frames import Coded, Control, Poor, Rules
from model.generator import Generator, GeneratorFault, Kind, Zone
from model.meaning import Event, Plant, ReaderSetup
from model.reader import ReaderRules, Report
from model.scenario import Entry
from model.times import Claim, Mark, Second, Table, Timeline

from . import antt as base
from .antt import Antt, antt, integer, record, some

# The fields of a record in the order of those of its value here; ± stands before an integer.
FIELDS = {
    Second: "day sod", Claim: "at mark", Timeline: "start leaps", Table: "until leaps",
    Zone: "±half_hours dst", Coded: "second minute hour day year control sbs",
    Control: "leap_pending leap_delete dst_pending dst ±offset_half_hours quality",
    ReaderRules: "lock_after holdover", ReaderSetup: "rules table",
}  # fmt: skip
PORTS = {1: "One", 3: "Three", 5: "Five"}


def camel(word: str) -> str:
    """A word as a variant: no-leap and no_leap as NoLeap."""
    return "".join(part.capitalize() for part in word.replace("-", "_").split("_"))


def written(value) -> Antt:
    """A value of the model, if no further words are needed for it."""
    match value:
        case Enum():
            return Antt(f"{type(value).__name__}.{camel(value.value)}")
        case Rules():
            sbs = Antt("SbsUse.Check" if value.check_binary_seconds else "SbsUse.Ignore")
            return record(parity=value.parity, sense=value.sense, sbs=sbs)
        case Report(second, lock, cause, count):
            lock = antt(lock) if count is None else Antt(f"({antt(lock)} {count})")
            return record(announce=some(second), lock=lock, cause=cause)
    named_parts = zip(FIELDS[type(value)].split(), fields(value))
    return record(**dict(part_of(name, getattr(value, field.name)) for name, field in named_parts))


def part_of(name: str, value) -> tuple[str, Antt]:
    if name == "leaps":
        return name, leaps(value)
    if name == "table":
        return name, antt(value or Table(0, ()))  # none is one that ends before the first day
    return name.removeprefix("±"), integer(value) if name.startswith("±") else antt(value)


base.written = written


def leap(value: Mark) -> Antt:
    return Antt(f"Leap.{camel(value.value)}")


def leaps(value) -> Antt:
    return antt([(day, leap(kind)) for day, kind in value])


def fault(value: Fault) -> Antt:
    """A fault of a frame or of the time that it says."""
    place = value.place if isinstance(value.place, int) else f"Field.{camel(value.place or '')}"
    name = f"{'FrameFault' if value.number <= 6 else 'TimeFault'}.{NAMES[value.number - 1]}"
    return Antt(name if value.place is None else f"({name} {place})")


def outcome(make: Callable, value):
    """What the model makes of a value, or the refusal of it."""
    try:
        return make(value)
    except Refused as refused:
        return refused


def refusal(value: Refused, kind: str = "Refusal") -> Antt:
    return Antt(f"{kind}.{NAMES[value.number - 1]}")


def refused_by(kind: str, check: Callable, value) -> Antt:
    """The refusal by a check, as a fault of a kind, if there is one."""
    refused = outcome(check, value)
    return some(refused and refusal(refused, kind))


def result(value, of_fault: Callable, of_value: Callable = antt) -> Antt:
    """A value, or the fault or refusal in its place."""
    is_fault = isinstance(value, Fault | Refused)
    return Antt(f"(Err {of_fault(value)})" if is_fault else f"(Ok {of_value(value)})")


def told(value) -> Antt:
    match value:
        case None:
            return Antt("Told.Silence")
        case Poor(quality):
            return Antt(f"(Told.Poor {quality})")
        case Fault(number) if number <= 10:
            return Antt(f"(Told.Fault (PortFault.{'Frame' if number <= 6 else 'Time'} {fault(value)}))")
        case Fault(number):
            return Antt(f"(Told.Fault PortFault.{NAMES[number - 1]})")
    return Antt(f"(Told.Claim {antt(value)})")


def tells(words: list) -> Antt:
    """What five ports tell, those that there are and silent ones."""
    return record(**{name: told(word) for name, word in zip("abcde", [*words, None, None, None, None])})


def letters(text: str) -> list[Antt]:
    """Symbols one by one: they need not be read of a text each time that one is asked for."""
    names = {"0": "Zero", "1": "One", "P": "Marker", "?": "Bad"}
    return [Antt(f"Symbol.{names[letter]}") for letter in text]


def symbols(letters: str) -> Antt:
    return Antt(f"(symbols {antt(letters)})")


def ports(count: int) -> Antt:
    return Antt(f"Redundancy.{PORTS[count]}")


def changes(value: Generator) -> Antt:
    return antt([record(at=at, zone=zone) for at, zone in value.changes])


def generator_fault(value: GeneratorFault) -> Antt:
    kind, by = f"GenFault.{camel(value.kind.value)}", value.value
    if by is None:
        return Antt(kind)
    return Antt(f"({kind} {leap(by) if isinstance(by, Mark) else by if value.kind == Kind.QUALITY else integer(by)})")


def fault_of(event: Event, since: int = 0) -> GeneratorFault:
    """The fault of a generator that an event sets at an edge."""
    leap = Mark(event["leap"]) if "leap" in event else None
    return GeneratorFault(Kind(event["kind"]), event.get("by", event.get("q", leap)), since)


def generator(value: Generator, rules: Rules, edge: int = 0, fault: GeneratorFault | None = None) -> Antt:
    return record(
        zone=value.zone, changes=changes(value), rules=rules, edge=edge,
        fault=some(fault and generator_fault(fault)), since=fault.since if fault else 0,
    )  # fmt: skip


def setup(plant: Plant) -> Antt:
    return record(
        times=plant.timeline, generators=antt([generator(one, plant.rules) for one in plant.generators]),
        rules=plant.rules, readers=list(plant.readers.values()),
    )  # fmt: skip


def event(value: Event, readers: list[str]) -> Antt:
    """An event by its keys, its reader by its place."""
    words = ["GenEdge" if value["do"] == "step" else camel(value["do"])]
    words += [value["g"]] if "g" in value else []
    words += [readers.index(value["r"])] if "r" in value else []
    words += [antt(value[key]) for key in ("at", "width", "edge", "widths") if key in value]
    words += [generator_fault(fault_of(value))] if "kind" in value else []
    return Antt(f"(Event.{' '.join(map(str, words))})")


def entry(value: Entry, readers: list[str]) -> Antt:
    """An entry of a log, its reader by its place."""
    return record(
        reader=readers.index(value.name), edge=value.n, report=value.report, redundancy=ports(len(value.told)),
        told=tells(value.told), truth=some(value.truth),
    )  # fmt: skip


def flags(shown: str) -> Antt:
    return record(all="all" in shown, ports="ports" in shown)
