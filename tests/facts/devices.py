"""Devices: what ticks, waits and stamps answer in a life of pulses and ticks, whether the conditions of their laws hold
there, and what is refused of a setup."""

from collections.abc import Iterator
from dataclasses import dataclass, replace
from fractions import Fraction
from math import ceil, floor
from random import Random

from model.device import OFF, SECOND, WRAP, Beat, Device, Frame, Rate, Stamp
from model.frames import Parity, Rules, Sense, symbol_of
from model.generator import Generator, GeneratorFault, Kind, Zone, sent
from model.reader import ReaderRules
from model.times import Claim, Mark, Second, Table, Timeline
from random_scenarios import random_fault

from . import values as v
from .antt import Antt, Fact, antt, equal, integer, question, record, some
from .times import LATE

WIDTHS = {"0": 2_000, "1": 5_000, "P": 8_000}
STUCK, HALF_HOUR = 500_000, 1_800 * SECOND
EXACT = "use Rattle.irig_lines.specs.Refusals.{within_of, limits_of}\n"
EARLY = 4_000  # so long before it rose by its clock a pulse may be told, of a line that is early


# ---- what lines send


@dataclass(frozen=True)
class Pulse:
    """A pulse on a line, by the device's counter without its wrap, and when the device is told of it."""

    line: int
    rise: int
    width: int
    told: int = 0


Call = Pulse | int  # an int is a tick at that time


@dataclass(frozen=True)
class World:
    """A timeline, a device's counter, when the first second begins and how long one lasts, how exact true lines are,
    how long behind its end a pulse is told at most, and how late lines are."""

    timeline: Timeline
    rules: Rules
    begin: int
    second: int
    within: int
    delay: int
    late: tuple[int, ...]

    def edge(self, n: int) -> int:
        return self.begin + self.second * n

    def element(self, n: int, place: int) -> int:
        """When an element of that second is due: so many hundredths of the way from edge to edge."""
        return self.edge(n) + self.second * place // 100

    def frames(self, seconds: int, zone: Zone, fault: GeneratorFault | None = None) -> list[str]:
        return [sent(Generator(zone), fault, self.timeline, self.rules, n) for n in range(seconds)]


def random_world(random: Random) -> World:
    """Some seconds, most about the end of a month, with a leap or without, by a counter that may wrap in them."""
    day, leap = random.choice(LATE), random.choice((Mark.NO_LEAP, Mark.INSERT, Mark.DELETE))
    of_day = 86_399 - random.randint(2, 5) if random.random() < 0.8 else random.randrange(86_000)
    leaps = () if leap == Mark.NO_LEAP else ((day, leap),)
    rules = Rules(random.choice(list(Parity)), random.choice(list(Sense)), random.random() < 0.8)
    begin = random.choice((2 * SECOND, WRAP - random.randrange(4 * SECOND), random.randrange(2**31)))
    within, delay = random.choice((450, 450, 50, 10, 1)), random.choice((0, 500, 30_000))
    late = random.choice(((0,), (0, within, 2 * within), (1 - within, within - 1), range(1 - within, within)))
    second = SECOND + random.choice((0, random.randint(-100, 100)))
    return World(Timeline(Second(day, of_day), leaps), rules, begin, second, within, delay, tuple(late))


def spoilt(random: Random, pulse: Pulse) -> list[Pulse]:
    """What comes in the place of a pulse that is at fault."""
    half = pulse.width // 2
    return random.choice((
        [],
        [replace(pulse, width=random.choice((400, 3_499, 3_500, 6_499, 6_500, 9_499, 9_500, STUCK - 1, STUCK)))],
        [replace(pulse, rise=pulse.rise + random.choice((-1_500, -999, 999, 1_000)))],
        [replace(pulse, width=half - 200), replace(pulse, rise=pulse.rise + half, width=half)],
        [pulse, replace(pulse, rise=pulse.rise + 9_000, width=random.choice((300, 600)))],
    ))  # fmt: skip


def told_in_order(random: Random, pulses: list[Pulse], delay: int) -> list[Pulse]:
    """These pulses with when each is told: when it has ended, or later, but behind the one before."""
    told = []
    for pulse in sorted(pulses, key=lambda pulse: pulse.rise):
        at = pulse.rise + min(pulse.width, 10_000) + random.randint(0, delay)
        told.append(replace(pulse, told=max([at, *(one.told for one in told[-1:])])))
    return told


def line_pulses(random: Random, world: World, line: int, frames: list[str], late: int) -> list[Pulse]:
    """What a line brings that sends these frames, all so much late: some pulses are at fault, from one on all may be
    later or earlier, and it may be pulled for a while."""
    faults, found = random.choice((0, 0, 0.002, 0.01)), []
    jump, shift = random.randrange(100 * len(frames)), random.choice((*[0] * 8, -1_001, -1_000, 999, 1_000))
    for k, symbol in enumerate("".join(frames)):
        n, place = divmod(k, 100)
        pulse = Pulse(line, world.element(n, place) + late + (shift if k >= jump else 0), WIDTHS[symbol])
        found += spoilt(random, pulse) if random.random() < faults else [pulse]
    pulled = random.choice((0, 0, 0, random.randrange(150)))
    start = random.choice((0, random.randrange(len(found) + 1)))
    return told_in_order(random, found[:start] + found[start + pulled :], world.delay)


def true_line(random: Random, world: World, line: int, seconds: int, zone: Zone, quality: int = 0) -> list[Pulse]:
    """A line whose clock says this quality, and is so far off at most; of one that has no vote it says nothing."""
    most = OFF[quality] if quality < len(OFF) else 5_000
    late = random.choice(world.late) + random.choice((-most, most, random.randint(-most, most)))
    return line_pulses(random, world, line, world.frames(seconds, zone, quality_fault(quality)), late)


def quality_fault(quality: int) -> GeneratorFault:
    return GeneratorFault(Kind.QUALITY, quality)


def random_quality(random: Random, poor_from: int) -> int:
    """As a clock may say it: the worst that has a vote as often as any other, and now and then one that has none."""
    return random.choice((0, poor_from - 1, random.randrange(poor_from), random.randrange(9)))


def false_lines(
    random: Random, world: World, lines: list[int], seconds: int, zone: Zone, said: int = 0
) -> list[list[Pulse]]:
    """Lines of clocks that have one fault, or are too late or early and say this quality, from some second on."""
    fault, true = random.choice((None, v.fault_of(random_fault(random), 1))), random.randrange(seconds)
    apart = 2 * (world.within - 1)
    frames = [*world.frames(seconds, zone)[:true], *world.frames(seconds, zone, fault or quality_fault(said))[true:]]
    ends = (apart, apart + 1, apart + OFF[said], apart + OFF[said] + 1, 3_000 - OFF[said], 3_001 - OFF[said], 5_000)
    lates = [sign * end for end in ends for sign in (-1, 1)] if fault is None else (0,)
    return [line_pulses(random, world, line, frames, random.choice(lates)) for line in lines]


# ---- lives


def random_ticks(random: Random, world: World, count: int) -> list[int]:
    """Ticks of some seconds: where frames end, before the counter alone counts, behind that, at any time, and late."""
    near, any_ = (0, world.within - 1, 1_099, 2_899, 6_000), [random.randint(0, SECOND - 10_000) for _ in range(3)]
    ways = [random.sample(near, 1), (-1, 1_000), random.sample(near, 2), (8_000, 60_000), (98_000,), (100_000,)]
    ways += [(100_001,), (103_000,), any_[:1], any_[1:], ()]
    mostly = random.choice(ways[:6])
    each = [mostly if random.random() < 0.6 else random.choice(ways) for _ in range(count)]
    return sorted(world.edge(n) + behind for n, way in enumerate(each, 1) for behind in way)


def pause(random: Random, world: World, calls: list[Call], length: int) -> list[Call]:
    """These calls with a pause before some second, in which ticks come as seldom as they may."""
    n = world.edge(random.randint(1, 3)) + random.choice((0, random.randrange(SECOND)))
    ticks = range(n + 1_700 * SECOND, n + length, 1_700 * SECOND)
    moved = [one + length if isinstance(one, int) else replace(one, rise=one.rise + length, told=one.told + length)
             for one in calls if (one if isinstance(one, int) else one.rise) >= n]  # fmt: skip
    return [*(one for one in calls if (one if isinstance(one, int) else one.rise) < n), *ticks, *moved]


def in_turn(pulses: list[Pulse], ticks: list[int]) -> list[Call]:
    return sorted([*pulses, *ticks], key=lambda call: call if isinstance(call, int) else call.told)


def random_life(random: Random) -> tuple[World, Device, list[Call]]:
    """A device, and its calls, the oldest first: of its lines at most f are false, or f + 1; then all are out."""
    world, redundancy = random_world(random), random.choice((1, 3, 3, 3, 5))
    seconds, zones = {1: 6, 3: 4, 5: 2}[redundancy], [Zone(local, False) for local in (0, 11, -10)]
    few = random.sample(range(redundancy), random.randint(0, redundancy // 2 + (random.random() < 0.4)))
    lines = false_lines(random, world, few, seconds, random.choice(zones), random.randrange(8))
    others = set(range(redundancy)) - set(few)
    day, poor_from = world.timeline.start.day, random.choice((7, 7, 8, 8, random.randint(1, 8)))
    qualities = [random_quality(random, poor_from) for _ in others]
    lines += [true_line(random, world, line, seconds, random.choice(zones), quality)
              for line, quality in zip(sorted(others), qualities)]  # fmt: skip
    wrong = random.choice(((), ((day, random.choice((Mark.INSERT, Mark.DELETE))),)))
    table = random.choice((None, Table(day, world.timeline.leaps), Table(day, wrong)))
    rules = ReaderRules(random.choice((1, 1, 2)), random.choice((0, 1, 100)))
    drift = random.choice((100, abs(world.second - SECOND)))
    delays = tuple(random.choice((0, 0, 4_000, -4_000, random.randint(-4_000, 4_000))) for _ in range(5))
    prefers = random.random() < 0.3
    device = Device(world.rules, rules, table, redundancy, world.within, drift, delays, prefers, poor_from)
    ticks = random_ticks(random, world, seconds + random.choice((0, 2, 4)))
    calls = in_turn([pulse for line in lines for pulse in line], ticks)
    return world, device, pause(random, world, calls, random.choice((0, 0, 0, 0, 0, SECOND, WRAP)))


def call(value: Call) -> Antt:
    return Antt(f"Tick {value}" if isinstance(value, int) else f"Hear {value.line} {value.rise} {value.width}")


def beat(value: Beat | None) -> Antt:
    return some(value and record(
        report=value.report, told=v.tells(value.told), edge_us=value.edge, bound_us=value.bound, missed=value.missed,
        moved=value.moved, against_table=value.against_table,
    ))  # fmt: skip


def stamp(value: Stamp | None) -> Antt:
    return some(value and record(second=value.second, offset_us=value.offset, bound_us=value.bound))


def rate(value: Rate | None) -> Antt:
    return some(value and record(seconds=value.seconds, least_ns=value.least, most_ns=value.most))


def clock(device: Device) -> Antt:
    """The rules of a device's clock."""
    limits = Antt(f"limits_of {record(not_before=0, poor_from=device.poor_from)}")
    delays = record(**dict(zip("abcde", map(integer, device.delays))))
    exact = {"within": Antt(f"within_of {device.within}"), "limits": limits, "drift_us": device.drift,
             "delays": delays, "prefers_frames": device.prefers_frames, "wander_ppb": 0}  # fmt: skip
    return record(reader_rules=device.reader_rules, redundancy=v.ports(device.redundancy), **exact)


def made(device: Device) -> Antt:
    lines = {"lines": Antt("new_lines"), "fresh": Antt("are_new")}
    return record(rules=device.rules, clock=clock(device), table=device.table or Table(0, ()), **lines)


# A life in parts, each of calls, the newest first, with a tick behind them and an event: what the tick answers, how
# long a device would have waited then, and behind the tick the stamp of the event, how many votes strayed, how many
# seconds are in doubt, how long seconds are, and what the lines are. Each step is a function of its own, so that the
# checker computes once what becomes of the device.
WALK = """use Rattle.irig_lives.proofs.LifeFacts.{new_lines, are_new}
use Rattle.irig_timekeeper.specs.Life.{after_calls}
use Rattle.irig_timekeeper.specs.Life.Call.{Hear, Tick}
use Rattle.irig_timekeeper.specs.Keeping.{after_tick, rate_at}
use Rattle.irig_lines.specs.declared.rate.Rate.{Rate}
use Rattle.irig_timekeeper.specs.States.{state_of}
use Rattle.irig_vote.specs.Vote.{ports_in}
""", """abbrev Said : Type 0
Said = Option Beat × ℕ × Option Stamp × ℕ × ℕ × Option Rate × List LineState
""", """abbrev lines_of : Keeping → List LineState
lines_of k = map (state_of k.clock k.state) (range_with_len 0 (ports_in k.clock.redundancy))
""", """abbrev behind : Option Beat → ℕ → Keeping → ℕ → (Keeping → List Said) → List Said
behind beat wait k event rest =
    (beat, wait, stamp_at k event, k.state.strays, k.state.doubt, rate_at k, lines_of k) ∷ rest k
""", """abbrev ticked : Keeping → ℕ → ℕ → (Keeping → List Said) → List Said
ticked k now event rest = behind (answer_at k now) (wait_at k now) (after_tick k now) event rest
""", """abbrev asked : List (List Call × ℕ × ℕ) → Keeping → List Said
asked [] k = []
asked ((calls, now, event) ∷ parts) k = ticked (after_calls k calls) now event (asked parts)
"""  # fmt: skip


def parts_of(random: Random, device: Device, calls: list[Call]) -> Iterator[tuple[tuple, tuple]]:
    """The pulses between ticks, each tick, and an event behind it or before; and what the model answers: at the tick,
    for how long to wait before it, of the event, how many votes strayed, how many seconds are in doubt, how long they
    are by the counter, and what the lines are."""
    heard = []
    for one in calls:
        if isinstance(one, int):
            wait, said, last = device.wait(one % WRAP), device.tick(one % WRAP), device.last
            ends = (last.edge + SECOND + last.bound, last.edge + SECOND + last.bound + 1, last.edge - 1) if last else ()
            event = random.choice((one, one - SECOND, one + random.randint(-1_200_000, 1_200_000), *ends)) % WRAP
            asked = [call(pulse) for pulse in reversed(heard)], one % WRAP, event
            states = [Antt(f"LineState.{device.state(line)}") for line in range(device.redundancy)]
            doubts = device.strays, device.doubt, rate(device.rate())
            yield asked, (beat(said), wait, stamp(device.stamp(event)), *doubts, states)
            heard = []
        else:
            device.hear(one.line, one.rise % WRAP, one.width)
            heard.append(replace(one, rise=device.corrected(one.line, one.rise)))


@question("model", "irig_timekeeper.life_of irig_timekeeper.answer_at irig_timekeeper.wait_at irig_timekeeper.stamp_at")
def lives(random: Random) -> Iterator[Fact]:
    for _ in range(16):
        _, device, calls = random_life(random)
        above = (EXACT, f"abbrev $_made : Made\n$_made = {made(device)}\n", *WALK)
        parts = list(parts_of(random, device, calls))
        asked = antt([part for part, _ in parts])
        yield equal(f"asked {asked} (life_of $_made [])", [antt(said) for _, said in parts], above=above)


def random_frame(random: Random, device: Device, base: int) -> tuple[Frame, int]:
    """A frame whose last time lies near this one, or where it begins or ends to count, and the quality that it says."""
    quality = random.choice((0, device.poor_from - 1, random.randrange(device.poor_from)))
    half = device.half(quality)
    inside = random.randint(0, 2 * half)
    ends = (2 * half + 1, -3_000, -3_001, 3_001, random.randint(-3_000, 3_000))
    near = random.choice((0, 0, 2 * half, inside, inside, inside, *ends))
    second = Second(6_209, 43_200 + (random.random() < 0.1))
    claim = Claim(second, Mark.INSERT if random.random() < 0.1 else Mark.UNSPOKEN)
    return Frame(claim, (base + near - half) % WRAP, random.random() < 0.9, half), quality


def line_with(frame: Frame | None, quality: int) -> Antt:
    sync = record(rise_us=0, place=0, was_marker=0)
    kept = frame and record(told=v.told(frame.word), quality=quality, end_us=frame.end, is_even=frame.is_even)
    return record(sync=sync, begin_us=0, frame=some(kept), seen=some(None), is_heard=False)


def random_vote(random: Random) -> tuple[Antt, Antt]:
    """Frames of lines, as definitions are asked, and the vote that they have."""
    within, drift, poor_from = (random.choice(one) for one in ((450, 10, 1), (0, 1, 100), (1, 6, 7, 8)))
    redundancy, base = random.choice((1, 3, 3, 5, 5)), random.choice((0, WRAP - 1_000, random.randrange(WRAP)))
    device = Device(Rules(), ReaderRules(1, 0), None, redundancy, within, drift, (0,) * 5, False, poor_from)
    found = [random_frame(random, device, base) for _ in range(redundancy)]
    for line, (frame, _) in zip(device.lines, found):
        line.frame = frame
    lines = [line_with(*one) for one in found] + [line_with(None, 0)] * (5 - redundancy)
    agreed = device.agreed(base)
    vote = agreed and record(claim=agreed.claim, edge_us=agreed.edge, bound_us=agreed.bound)
    return Antt(f"(agreed {clock(device)} {record(**dict(zip('abcde', lines)))})"), some(vote)


@question("model", "irig_lines.agreed")
def agreed_edges(random: Random) -> Iterator[Fact]:
    """By docs/EXACTNESS.md: the edge on which frames agree, whose last times lie about where one begins or ends to have
    a part."""
    for _ in range(10):
        asked, said = zip(*(random_vote(random) for _ in range(20)))
        yield equal(antt(list(asked)), list(said), above=(EXACT,))


def random_anchor(random: Random, now: int) -> tuple[int, int, int] | None:
    """Where an interval begins, how long it is, and how many seconds ago that was."""
    seconds = random.choice((0, 1, 999, 1_000, 1_999, 2_000, random.randint(2, 1_998)))
    begin = now - seconds * SECOND - random.randint(-200_000, 200_000)
    return random.choice((None, *[(begin % WRAP, random.choice((0, 38, 900, 980_000)), seconds)] * 3))


def anchor(value: tuple[int, int, int] | None) -> Antt:
    return some(value and record(begin_us=value[0], long_us=value[1], seconds=value[2]))


@question("model", "irig_lines.rate_of")
def rates(random: Random) -> Iterator[tuple]:
    """From the anchor's end to the interval's begin at least, and from its begin to the interval's end at most."""
    for _ in range(60):
        now, long = random.randrange(WRAP), random.choice((0, 40, 1_700))
        one, known = random_anchor(random, now), random.random() < 0.9
        said = None
        if known and one and one[2]:
            gap = (now - one[0]) % WRAP
            each = 1_000 * max(0, gap - one[1]) // one[2], -(-1_000 * (gap + long) // one[2])
            said = Rate(one[2], *(min(value, WRAP - 1) for value in each))
        yield (some(record(begin_us=now, long_us=long) if known else None), anchor(one)), rate(said)


@question("model", "irig_lines.anchors_cut irig_lines.anchors_on")
def anchors(random: Random) -> Iterator[Fact]:
    """By docs/EXACTNESS.md: 1,000 s behind an anchor the next is set, and 2,000 s behind it it is dropped."""
    for _ in range(40):
        now, seconds, is_known = random.randrange(WRAP), random.choice((0, 1, 1_000, 5_000)), random.random() < 0.8
        old, young = random_anchor(random, now), random_anchor(random, now)
        both = record(old=anchor(old), young=anchor(young))
        cut = (old, young) if young and young[2] < 1_000 else (young, (now, 40, 0))
        yield equal(f"anchors_cut {record(begin_us=now, long_us=40)} {both}", record(old=anchor(cut[0]), young=anchor(cut[1])))
        later = [one and (*one[:2], one[2] + seconds) for one in (old, young)]
        on = [one if one and is_known and one[2] <= 2_000 else None for one in later]
        known = some(record(begin_us=now, long_us=40) if is_known else None)
        yield equal(f"anchors_on {seconds} {known} {both}", record(old=anchor(on[0]), young=anchor(on[1])))


@question("model", "irig_lines.learned")
def learned_paces(random: Random) -> Iterator[Fact]:
    """By docs/COUNTER.md: the middle of a mean of 1,000 s, off by half of what lies between, the wander and 1 ns; not
    one that is no sharper by 1 us than the drift, nor one that is more than 100 us off."""
    for _ in range(60):
        drift, wander = random.choice((0, 1, 2, 50, 100)), random.choice((0, 1, 26, 1_000, 100_000))
        seconds, middle = random.choice((1, 999, 1_000, 1_500, 2_000)), 10**9 + random.choice((0, 37_000, -60_000))
        middle += random.choice((0, 0, 0, 63_000, 63_001, -40_000, -40_001))
        half = max(0, 1_000 * drift - 1_000 - wander - 1 + random.choice((0, 0, 1, -random.randrange(10_000))))
        least, most = middle - half + random.randrange(2), middle + half
        middle, spread = (least + most) // 2, -((least - most) // 2) + wander + 1
        is_fit = spread <= 1_000 * (drift - 1) and abs(middle - 10**9) <= 100_000
        said = (middle, spread, 0) if wander and seconds >= 1_000 and is_fit else None
        device = Device(Rules(), ReaderRules(1, 100), None, 3, 10, drift, (0,) * 5)
        setup = clock(device).replace("wander_ppb = 0", f"wander_ppb = {wander}")
        asked = f"learned {setup} {antt(rate(Rate(seconds, least, most)))}"
        yield equal(asked, pace(said), above=(EXACT,))


def pace(value: tuple[int, int, int] | None) -> Antt:
    """How long a second is, how far that may be off, and what an edge lies behind its microsecond, in nanoseconds."""
    return some(value and record(**dict(zip(("second_ns", "within_ns", "rest_ns"), value))))


def random_pace(random: Random) -> tuple[int, int, int]:
    second = 10**9 + random.choice((0, 999, -999, 100_000, -100_000, random.randint(-100_000, 100_000)))
    return second, random.choice((2, 999, 1_000, random.randrange(99_000))), random.choice((0, 999, random.randrange(1_000)))


@question("model", "irig_lines.edge_on irig_lines.pace_on irig_lines.grown_us irig_lines.is_spent irig_lines.edges_own")
def paced_edges(random: Random) -> Iterator[Fact]:
    """By docs/COUNTER.md: where an edge is some seconds later, to the nanosecond, and its microsecond; how much further
    off it may lie, and whether so many more seconds could make it 490 ms; and how many edges are counted alone, each
    6 ms behind its place from the first one's on."""
    for _ in range(60):
        held, edge = random_pace(random), random.choice((0, WRAP - 1, random.randrange(WRAP)))
        seconds, drift = random.choice((0, 1, 2, 1_000, random.randrange(5_000))), random.choice((0, 1, 100))
        second, within, rest = held
        at = Fraction(1_000 * edge + rest + seconds * second, 1_000)
        behind = (second, within, int(at * 1_000) % 1_000)
        grown = min(seconds * drift, 1 + ceil(Fraction(seconds * within, 1_000)))
        yield equal(f"edge_on {antt(pace(held))} {edge} {seconds}", floor(at) % WRAP)
        yield equal(f"pace_on true {seconds} {antt(pace(held))}", pace(behind))
        yield equal(f"grown_us {drift} {antt(pace(held))} {seconds}", grown)
        more, age = random.choice((1, 2, 1_000)), random.choice((seconds, random.randrange(400_000)))
        aged = min(age * drift, 1 + ceil(Fraction(age * within, 1_000)))
        yield equal(f"is_spent {drift} {antt(pace(held))} {age} {more}", aged + more * drift > 490_000)
        last = 4_900 - more  # behind so many seconds, and by 100 us each, the next ones make 490 ms, and no more
        yield equal(f"is_spent 100 {antt(pace(None))} {last} {more}", False)
        yield equal(f"is_spent 100 {antt(pace(None))} {last + 1} {more}", True)
        gap = 1_006_000 + seconds % 1_700 * second // 1_000 + random.choice((0, -1, random.randrange(10**6)))
        counted = sum(1 for k in range(1_701) if gap >= 1_006_000 + k * second // 1_000)
        yield equal(f"edges_own {antt(pace(held))} (Some {edge}) {(edge + gap) % WRAP}", counted)


@question("model", "irig_lines.carried_by")
def paced_intervals(random: Random) -> Iterator[tuple]:
    """By docs/COUNTER.md: one second later an interval begins by the shortest second and ends by the longest one."""
    for _ in range(60):
        held, begin, long = random_pace(random), random.randrange(WRAP), random.choice((0, 1_700, 979_900, 980_000))
        shortest, longest = floor(Fraction(held[0] - held[1], 1_000)), ceil(Fraction(held[0] + held[1], 1_000))
        more = long + longest - shortest
        said = record(begin_us=(begin + shortest) % WRAP, long_us=more) if more <= 980_000 else None
        yield (0, pace(held), 1, some(record(begin_us=begin, long_us=long))), some(said)


@question("model", "irig_lines.corrected")
def corrected_rises(random: Random) -> Iterator[tuple]:
    for _ in range(40):
        delay = random.choice((0, 1, -1, 4_000, -4_000, random.randint(-4_000, 4_000)))
        rise = random.choice((0, 3_999, WRAP - 1, random.randrange(WRAP)))
        yield (rise, integer(delay)), (rise - delay) % WRAP


@question("model", "irig_lines.delay_at")
def delays_of_lines(random: Random) -> Iterator[tuple]:
    for line in (*range(5), 5, 255):
        delays = [random.randint(-4_000, 4_000) for _ in range(5)]
        yield (record(**dict(zip("abcde", map(integer, delays)))), line), integer(delays[min(line, 4)])


@question("model", "irig_lines.clock_fault")
def refused_clocks(random: Random) -> Iterator[tuple]:
    """By docs/EXACTLY_WHEN.md: a drift above 100, else one by which a holdover and two seconds err too much if nothing
    is learned."""
    for _ in range(40):
        drift = random.choice((0, 1, 10, 100, 101, random.randint(0, 120)))
        holdover = random.choice((0, 1_000_000, 490_000 // max(1, drift) - 2 + random.randint(-1, 1)))
        wander = random.choice((0, 0, 1, 100_000))
        is_long = wander == 0 and (holdover + 2) * drift > 490_000
        fault = "Drift" if drift > 100 else "Holdover" if is_long else None
        yield (ReaderRules(1, max(0, holdover)), drift, wander), some(fault and Antt(f"ClockFault.{fault}"))


@question("model", "irig_timekeeper.quality_of")
def qualities(random: Random) -> Iterator[tuple]:
    """By powers of ten: 4 within 1 us, 10 within a second, 15 beyond."""
    tens = [10**place + more for place in range(8) for more in (-1, 0, 1)]
    for bound in (*tens, *(random.randrange(10 ** random.randint(1, 9)) for _ in range(20))):
        digits = len(str(bound - 1)) if bound > 1 else 0
        yield (bound,), 4 + digits if digits < 7 else 15


# ---- the conditions of a device's laws

CALLS = """use Rattle.std.specs.Prelude.{get_or, ◌/◌}
use Rattle.irig_timekeeper.specs.Life.Call.{Hear, Tick}
"""


def newest_first(calls: list[Call]) -> Antt:
    return antt([call(one) for one in reversed(calls)])


def pulses_on(line: int, calls: list[Call]) -> list[Pulse]:
    """The pulses on a line; what is too wide is none."""
    return [one for one in calls if isinstance(one, Pulse) and one.line == line and one.width < STUCK]


def is_next(call: Call, start: int, redundancy: int, before: list[Call]) -> bool:
    """Whether a timekeeper may be called so behind these calls (docs/WIRES.md, the first two things that it asks)."""
    ticked = max([start, *(one for one in before if isinstance(one, int))])
    risen = [pulses_on(line, before)[-1].rise for line in range(redundancy) if pulses_on(line, before)]
    if isinstance(call, int):
        return ticked <= call < ticked + HALF_HOUR - STUCK - EARLY and all(rise <= call + EARLY for rise in risen)
    told = pulses_on(call.line, before)[-1:]
    return call.line < redundancy and (call.width >= STUCK or (
        ticked <= call.rise + STUCK and all(pulse.rise <= call.rise for pulse in told)))  # fmt: skip


def random_calls(random: Random, redundancy: int) -> list[Call]:
    """Some calls at rising times, of which a few come too late or too early, or are of no line."""
    now, calls = 5 * SECOND, []
    for _ in range(random.randint(1, 12)):
        now += random.choice((0, 10_000, 10_000, 300_000, 600_000, 1_700 * SECOND, 1_801 * SECOND))
        early = random.choice((0, 0, 0, 0, 0, -4_000, -4_001, 5_000, 400_000, 600_000))
        line, width = random.randrange(redundancy + (random.random() < 0.1)), random.choice((2_000, 8_000, STUCK))
        pulse = Pulse(line, now - early, width)
        calls.append(random.choice((pulse, pulse, now - early)))
    return calls


@question("model", "irig_lives.in_order")
def orders(random: Random) -> Iterator[Fact]:
    for _ in range(40):
        redundancy, start = random.choice((1, 3, 5)), 5 * SECOND
        calls = random_calls(random, redundancy)
        right = all(is_next(one, start, redundancy, calls[:place]) for place, one in enumerate(calls))
        yield equal(f"in_order {start} {v.ports(redundancy)} {newest_first(calls)}", right, not right, (CALLS,))


def is_true_lately(world: World, frames: list[str], pulses: list[Pulse], now: int) -> bool:
    """Whether the pulses of the last 1.2 s are those of these frames, each as near its place as lines are exact
    (docs/WIRES.md)."""
    before = 100 * len(frames)
    for pulse in reversed([pulse for pulse in pulses if pulse.rise + 1_200_000 >= now]):
        n, behind = divmod((pulse.rise + 500 - world.begin) % WRAP, world.second)
        place = behind * 100 // world.second
        k, off = 100 * n + place, behind - 500 - world.second * place // 100
        if k >= before or abs(off) >= world.within or frames[n][place] != symbol_of(pulse.width):
            return False
        before = k
    return True


def untrue_ticks(world: World, frames: list[str], calls: list[Call]) -> list[int]:
    """The places of the ticks at which more than one of three lines are not true."""
    ticks = [place for place, one in enumerate(calls) if isinstance(one, int)]
    lines = [[is_true_lately(world, frames, pulses_on(line, calls[:place]), calls[place]) for line in range(3)]
             for place in ticks]  # fmt: skip
    return [place for place, true in zip(ticks, lines) if true.count(False) > 1]


def line_of(world: World, frames: list[str]) -> tuple[str, ...]:
    """A line of these frames, and when they begin."""
    symbols = antt([v.letters(frame) for frame in frames])
    line = f"$_line k = get_or (get_or {symbols} (k / 100) []) (k % 100) Symbol.Bad"
    edges = f"$_edges n = {world.begin} + {world.second} * n"
    return f"abbrev $_line : ℕ → Symbol\n{line}\n", f"abbrev $_edges : ℕ → ℕ\n{edges}\n"


@question("model", "irig_lives.are_lately irig_lives.are_true_at_ticks irig_lives.are_true_over")
def true_lives(random: Random) -> Iterator[Fact]:
    """Three lines, of which some are false for a while: whether at each tick all but one are true, and so of some
    calls behind others."""
    for _ in range(6):
        world, zone, false = random_world(random), Zone(0, False), random.sample(range(3), random.choice((0, 1, 1, 2)))
        frames, others = world.frames(3, zone), sorted({0, 1, 2} - set(false))
        lines = false_lines(random, world, false, 2, zone)
        lines += [true_line(random, world, line, 2, zone) for line in others]
        calls = in_turn([pulse for line in lines for pulse in line], random_ticks(random, world, 3))
        split, above = random.randrange(len(calls) + 1), line_of(world, frames)
        untrue = untrue_ticks(world, frames, calls)
        test = f"(λ at pulses. are_lately {world.within} $_line $_edges at (Some {100 * len(frames)}) pulses)"
        right, asked = not untrue, f"are_true_at_ticks {test} 1 {newest_first(calls)}"
        yield equal(asked, right, not right, (CALLS, *above))
        right = all(place < split for place in untrue)
        asked = f"are_true_over {test} 1 {newest_first(calls[split:])} {newest_first(calls[:split])}"
        yield equal(asked, right, not right, (CALLS, *above))
