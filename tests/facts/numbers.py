"""Numbers of C: what those of a setup, a second and a stamp stand for, by the names that c/irig.h gives them."""

import re
from collections.abc import Iterator
from pathlib import Path
from random import Random

from model.frames import Parity, Rules, Sense
from model.reader import Cause, Lock, ReaderRules, Report
from model.times import Mark, Second, Table
from random_scenarios import LAST_DAY, MONTH_ENDS

from . import values as v
from .antt import Antt, Fact, antt, equal, integer, question, record, some

HEADER = (Path(__file__).resolve().parents[2] / "c/irig.h").read_text()
NUMBER = {name: int(number) for name, number in re.findall(r"\bIRIG_(\w+) = (\d+)", HEADER)}
PORTS = {1: "ONE", 3: "THREE", 5: "FIVE"}
SILENT = record(**dict.fromkeys("abcde", Antt("Told.Silence")))
EXACT = "use Rattle.irig_lines.specs.Refusals.{within_of, limits_of}\n"
MOMENTS = """use Rattle.c_keeper.specs.Lives.Moment.{Pulsed as was_pulsed, Ticked as was_ticked}
use Rattle.irig_timekeeper.specs.Life.Call.{Hear, Tick}
"""


def number_of(kind: str, word: str) -> int:
    return NUMBER[f"{kind}_{word.upper().replace('-', '_')}"]


@question("header", "c_keeper.made_in")
def setups(random: Random) -> Iterator[Fact]:
    """Setups, tables of which not all leaps count, and wires."""
    for _ in range(3):
        asked, made = zip(*(random_setup(random) for _ in range(20)))
        yield equal(antt(list(asked)), list(made), above=(EXACT,))


def random_setup(random: Random) -> tuple[Antt, Antt]:
    """What is made of the numbers of a setup, a table and wires, as it is asked and as it is."""
    parity, sense = random.choice(list(Parity)), random.choice(list(Sense))
    rules, ports = Rules(parity, sense, random.random() < 0.5), random.choice(list(PORTS))
    reader_rules = ReaderRules(random.randint(1, 60), random.randint(0, 1_000_000))
    not_before = random.choice((0, random.randint(1, LAST_DAY)))
    poor_from = random.choice((0, 0, random.randint(1, 8)))
    days = random.sample(MONTH_ENDS, random.randint(0, 4))
    leaps = [(day, random.choice((Mark.INSERT, Mark.DELETE))) for day in days]
    count, until = random.randint(0, len(leaps)), random.randint(0, LAST_DAY)
    within, drift = random.choice((1, 10, 450, random.randint(1, 450))), random.randint(0, 100)
    setup = record(
        parity=number_of("PARITY", parity.value), sense=number_of("SENSE", sense.value),
        sbs=number_of("SBS", "check" if rules.check_binary_seconds else "ignore"),
        redundancy=number_of("PORTS", PORTS[ports]), lock_after=reader_rules.lock_after,
        holdover=reader_rules.holdover, not_before=not_before, poor_from=poor_from,
    )  # fmt: skip
    numbers = [record(day=day, kind=number_of("LEAP", kind.value)) for day, kind in leaps]
    late = record(**{line: integer(random.randint(-4_000, 4_000)) for line in "abcde"})
    table = record(until=until, len=count, leaps=numbers)
    prefers = random.choice((0, 0, 1, random.randrange(256)))
    wander = random.choice((0, 1_000, random.randint(0, 100_000)))
    wires = record(within_us=within, drift_us=drift, delays=late, prefers_frames=prefers, wander_ppb=wander)
    limits = Antt(f"limits_of {record(not_before=not_before, poor_from=poor_from or 7)}")
    exact = {"within": Antt(f"within_of {within}"), "limits": limits, "drift_us": drift, "delays": late,
             "prefers_frames": prefers != 0, "wander_ppb": wander}  # fmt: skip
    clock = record(reader_rules=reader_rules, redundancy=v.ports(ports), **exact)
    made = record(rules=rules, clock=clock, table=Table(until, tuple(leaps[:count])))
    return Antt(f"(made_in {setup} {table} {wires})"), made


def random_report(random: Random) -> Report:
    lock, cause = random.choice(list(Lock)), random.choice(list(Cause))
    count = random.randint(0, 60) if lock in (Lock.ACQUIRING, Lock.HOLDOVER) else None
    second = Second(random.randint(1, LAST_DAY), random.randrange(86_401))
    return Report(random.choice((None, second)), lock, cause, count)


def second_of(random: Random, report: Report, beside: dict[str, int], told: int = 1, against: int = 0) -> Antt:
    """A second of C, with these numbers beside its report. What it says of its ports and lines has no meaning here, and
    none have its strays and its doubt."""
    second = report.second or Second(0, 0)
    ports = {name: random.randrange(16) for name in ("agreed", "differed", "faulty", "poor", "quality", "against_hold")}
    numbers = record(
        announces=int(report.second is not None), lock=number_of("LOCK", report.lock.value),
        cause=number_of("CAUSE", report.cause.value), lock_count=report.count or 0, day=second.day, sod=second.of_day,
        has_local=1, local_half_hours=integer(random.randint(-31, 31)), dst=1, **ports,
    )  # fmt: skip
    masks = "agreed apart differed faulty poor broken silent unjudged".split()
    lines = record(**{name: random.randrange(32) for name in masks})
    strays, doubt = (random.choice((0, 1, random.randrange(2**32))) for _ in range(2))
    return record(is_told=told, against_table=against, **beside, strays=strays, doubt=doubt, lines=lines, report=numbers)


@question("header", "c_keeper.beat_in")
def seconds(random: Random) -> Iterator[tuple]:
    for _ in range(60):
        report, missed = random_report(random), random.choice((0, random.randrange(2_000)))
        edge, bound = random.randrange(2**32), random.randrange(492_900)
        beside = {"edge_us": edge, "bound_us": bound, "missed": missed, "moved": random.randrange(3)}
        against = random.randrange(2)
        beat = record(report=report, told=SILENT, against_table=against == 1, **beside)
        yield (second_of(random, report, beside, against=against),), beat


@question("header", "c_keeper.stamp_in")
def stamps(random: Random) -> Iterator[tuple]:
    """A stamp stands for one if the call answered 0."""
    for answer in (0, 0, 0, 0, 26, 1):
        second = Second(random.randint(1, LAST_DAY), random.randrange(86_401))
        offset, bound = random.randrange(2_000_000), random.randrange(492_900)
        numbers = record(day=second.day, sod=second.of_day, offset_us=offset, bound_us=bound)
        stamp = record(second=second, offset_us=offset, bound_us=bound)
        yield (answer, numbers), some(stamp if answer == 0 else None)


@question("header", "c_keeper.calls_of c_keeper.since_vote")
def pasts(random: Random) -> Iterator[Fact]:
    """Pulses and ticks, the newest first: the calls that they were, and how many seconds came since a vote."""
    for _ in range(20):
        moments, calls, since = [], [], 0
        for now in range(random.randint(1, 8)):
            report, missed, told = random_report(random), random.choice((0, 0, 3)), random.choice((0, 1, 1))
            pulsed = f"{random.randrange(5)} {now} 2000"
            beside = {"edge_us": 0, "bound_us": 0, "missed": missed, "moved": 0}
            second = second_of(random, report, beside, told)
            moments += [f"was_pulsed {pulsed} {random.randint(0, 100)}", f"was_ticked {now} {second}"]
            calls += [f"Hear {pulsed}", f"Tick {now}"]
            since = (0 if report.cause == Cause.VOTED else since + missed + 1) if told else since
        past = f"({' ∷ '.join([*reversed(moments), '[]'])})"
        yield equal(f"calls_of {past}", [Antt(one) for one in reversed(calls)], above=(MOMENTS,))
        yield equal(f"since_vote {past}", since, since + 1, (MOMENTS,))
