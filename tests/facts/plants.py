"""Generators, readers and plants: what is sent, reported, logged, and when a second is held."""

from collections import Counter
from collections.abc import Iterator
from dataclasses import replace
from random import Random

from model import scenario
from model.faults import Refused
from model.generator import Generator, Zone, check_generator, sent
from model.meaning import Event, Plant, ReaderSetup
from model.reader import IDLE, ReaderRules, after_tick
from model.times import Claim, Mark, Second, Table, Timeline, truth_at
from random_scenarios import LAST_DAY, MONTH_ENDS, random_event, random_fault

from . import values as v
from .antt import Antt, Fact, antt, equal, question, record, some
from .times import LATE, some_plant

Pairs = Iterator[tuple]
EARLY, MONTH_END = MONTH_ENDS[:2], 36_463
SHOWN = ("default", "all", "ports", "all ports")


# ---- generators


@question("model", "irig_gen.sent_of")
def frames_sent(random: Random) -> Pairs:
    """Of generators with and without a fault, about the end of a day or a change; a few of any time."""
    for ends in [*[LATE] * 150, *[MONTH_ENDS] * 10]:
        plant = some_plant(random, ends)
        generator, to_end = plant.generators[0], 86_398 - plant.timeline.start.of_day + random.randint(-3, 5)
        edge = max(0, random.choice((random.randint(0, 5), to_end, random.randrange(130))))
        fault = random.choice((None, *[v.fault_of(random_fault(random), random.randint(0, edge))] * 7))
        letters = sent(generator, fault, plant.timeline, plant.rules, edge) or None
        asked = v.generator(generator, plant.rules, edge, fault)
        yield (asked, plant.timeline), some(letters and v.symbols(letters))


@question("model", "irig_gen.gen_refusal")
def refused_generators(random: Random) -> Pairs:
    """Some with two changes at one second, out of order, at no minute's first second, too far away."""
    for _ in range(100):
        generator = random.choice(some_plant(random).generators)
        changes = list(generator.changes) + random.choice(([], list(generator.changes[:1])))
        if random.random() < 0.3:
            at = Second(random.randint(1, LAST_DAY), random.choice((60, 61, 86_340, 86_399)))
            changes.insert(0, (at, Zone(random.choice((31, -31, 32, -32)), True)))
        zone = replace(generator.zone, local=random.choice((0, 31, -31, random.randint(-33, 33))))
        generator = Generator(zone, tuple(changes))
        yield (zone, v.changes(generator)), v.refused_by("GenRefusal", check_generator, generator)


# ---- readers


def random_votes(random: Random, times: Timeline, length: int) -> list[Claim | None]:
    """The first votes of a timeline, of which some are lost, repeated, marked wrongly or jump."""
    lossy, marks = random.choice((0, 0.1, 0.3, 0.7)), random.choice(([], [Mark.UNSPOKEN] * 9, list(Mark)))
    n, votes = 0, []
    for _ in range(length):
        truth = truth_at(times, n)
        said = truth and Claim(truth.second, random.choice([truth.mark, *marks]))
        votes.append(None if random.random() < lossy else said)
        n = max(0, n + random.choice((*[1] * 30, -1, 0, 2, 3)))
    return votes


@question("model", "irig_reader.report_of")
def reports(random: Random) -> Pairs:
    """The reports along some votes, about the end of a month or of the years."""
    for _ in range(60):
        plant, state = some_plant(random), IDLE
        setup, start = random.choice(list(plant.readers.values())), plant.timeline.start
        times = replace(plant.timeline, start=random.choice((*[start] * 6, Second(LAST_DAY, 86_396))))
        votes = random_votes(random, times, random.randint(1, 12))
        for place, vote in enumerate(votes):
            state, report = after_tick(setup.rules, setup.table, state, vote)
            before = [some(one) for one in reversed(votes[:place])]
            yield (setup.rules, setup.table or Table(0, ()), some(vote), before), report


# ---- plants


def random_events(random: Random, plant: Plant) -> list[Event]:
    """The events of a few seconds, with a chance of mishaps."""
    count, readers, events = len(plant.generators), list(plant.readers), []
    if random.random() < 0.2:  # damage where nothing is sent
        events.append({"do": "fault", "g": 0, "kind": "silent"})
        events.append({"do": "damage", "g": 0, "r": readers[0], "at": 5, "width": 5000})
    for event in scenario.second_of_events(plant) * random.choice((2, 3, 3, 4)):
        events += [event] if random.random() < 0.96 else []
        of_them = count + (random.random() < 0.1)  # or the one behind the last, which is refused
        events += [random_event(random, of_them, readers)] if random.random() < 0.1 else []
    return events[: random.randint(len(events) // 2, len(events))]


class Run:
    """What the model makes of a plant and events: those that it takes, the entries, and what it refuses."""

    def __init__(self, plant: Plant, events: list[Event]) -> None:
        self.plant, self.names, self.events, self.entries = plant, list(plant.readers), [], []
        self.refused = None  # the event, and its refusal
        world = scenario.world_of(plant)
        for event in events:
            try:
                self.entries += scenario.happen(world, event)
            except Refused as refused:
                self.refused = event, refused
                break
            self.events.append(event)

    def stated(self) -> tuple[str, str]:
        """The plant and the events, the newest first, under names of their own."""
        newest = antt([v.event(event, self.names) for event in reversed(self.events)])
        plant = f"abbrev $_plant : Setup\n$_plant = {v.setup(self.plant)}\n"
        return plant, f"abbrev $_events : List Event\n$_events = {newest}\n"

    def log(self) -> list[Antt]:
        return [v.entry(said, self.names) for said in self.entries]

    def verdict(self) -> str:
        return scenario.verdict(self.plant, [said for said in self.entries if scenario.is_broken(said)])

    def audit(self) -> Antt:
        match self.verdict().split():
            case [*_, "edge", n, "reader", name]:
                return Antt(f"(Audit.Broken {self.names.index(name)} {n})")
            case [*_, "table", "of", "reader", name]:
                return Antt(f"(Audit.FalseTable {self.names.index(name)})")
        return Antt("Audit.Kept")


def random_run(random: Random, ends: list[int]) -> Run:
    plant = some_plant(random, ends)
    return Run(plant, random_events(random, plant))


@question("model", "irig_plant.log_of irig_plant.audit_of irig_plant.refusal report_log.audit_text")
def logs(random: Random) -> Iterator[Fact]:
    """The log and the audit of some events, of each kind some, and the refusal of the one behind them."""
    wanted = Counter(kept=3, edge=2, table=2, refused=2)
    while wanted.total():
        run = random_run(random, LATE)
        kind = "refused" if run.refused else next(word for word in wanted if word in run.verdict())
        if not wanted[kind]:
            continue
        wanted[kind] -= 1
        yield equal("log_of $_plant $_events", run.log(), above=run.stated())
        yield equal("audit_of $_plant $_events", run.audit(), above=run.stated())
        yield equal(f"audit_text {antt(run.names)} {run.audit()}", run.verdict() + "\n")
        if run.refused:
            event, refused = run.refused
            right = some(v.refusal(refused, "PlantFault"))
            yield equal(f"refusal $_plant {v.event(event, run.names)} $_events", right, above=run.stated())


@question("model", "report_log.lines_text")
def log_texts(random: Random) -> Iterator[Fact]:
    """The text of logs about an early end of a month, as the texts of its seconds are soon found."""
    for _ in range(6):
        run, shown = random_run(random, EARLY), random.choice(SHOWN)
        text = "".join(f"{line}\n" for said in run.entries for line in scenario.entry_lines(said, shown))
        yield equal(f"lines_text {antt(run.names)} {v.flags(shown)} {antt(run.log())}", text, "-" + text)


@question("model", "irig_plant.is_voted irig_plant.is_restarted")
def edges(random: Random) -> Iterator[Fact]:
    """Which edges of a reader are voted, by what ports told, and behind which it is restarted."""
    for _ in range(10):
        run = random_run(random, LATE)
        place, name = random.choice(list(enumerate(run.names)))
        mine = [said for said in run.entries if said.name == name]
        voted = [said.told.count(said.truth) > len(said.told) // 2 for said in mine]
        ticks, restarted = 0, [False] * (len(mine) + 1)
        for event in run.events:
            ticks += event == {"do": "tick", "r": name}
            restarted[ticks] |= event == {"do": "restart", "r": name}
        left = f"map (is_voted $_plant {place} $_events) (range_with_len 1 {len(voted)})"
        yield equal(left, voted, above=run.stated())
        left = f"map (is_restarted {place} $_events) (range_with_len 0 {len(restarted)})"
        yield equal(left, restarted, above=run.stated())


def random_edges(random: Random, length: int, last: int | None) -> tuple[Timeline, ReaderSetup, list[bool], list[bool]]:
    """A timeline and a reader, so many edges over the end of a month that are voted, up to the last or at
    random, and those behind which it is restarted."""
    leaps, lossy = random.choice(((), ((MONTH_END, Mark.INSERT),))), random.choice((0.1, 0.3, 0.5))
    start = 86_339 if last else 86_399 - length + random.randint(1, 3)
    rules = ReaderRules(1, 1000) if last else ReaderRules(random.choice((1, 1, 2, 3)), random.choice((0, 1, 3)))
    until = random.choice((0, MONTH_END - 1, MONTH_END))
    table = Table(until, leaps if until == MONTH_END else ())
    voted = [False, *(n <= last if last else random.random() >= lossy for n in range(1, length + 1))]
    restarted = [last is None and random.random() < 0.05 for _ in voted]
    return Timeline(Second(MONTH_END, start), leaps), ReaderSetup(rules, table), voted, restarted


def announced(times: Timeline, setup: ReaderSetup, voted: list[bool], restarted: list[bool]) -> Iterator[bool]:
    """The edges at which the model's reader announces that has the true votes of the voted edges."""
    state = IDLE
    for n in range(1, len(voted)):
        vote = truth_at(times, n - 1) if voted[n] else None
        state, report = after_tick(setup.rules, setup.table, IDLE if restarted[n - 1] else state, vote)
        yield report.second is not None


@question("model", "irig_plant.is_held")
def held(random: Random) -> Iterator[Fact]:
    """The longer lists have no vote for 56 to 59 edges before the end of a month."""
    for length, last in (*[(12, None)] * 12, (60, 2), (61, 3), (62, 2), (63, 1), (64, 3)):
        times, setup, *lists = random_edges(random, length, last)
        voted, restarted = (Antt(f"λ i. slice_index_or {antt(one)} i false") for one in lists)
        asked = record(times=times, reader_rules=setup.rules, table=setup.table, voted=voted, restarted=restarted)
        yield equal(f"map (is_held {asked}) (range_with_len 1 {length})", list(announced(times, setup, *lists)))
