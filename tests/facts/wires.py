"""Cables and oscillators of simulated devices: what a line brings, what happens next, and what a counter shows."""

from collections.abc import Iterator
from random import Random

from model.wires import END, SECOND, TICK, Cable, Pulse, first_shown, next_of, shown

from .antt import Antt, Fact, antt, equal, integer, question, record, some

CALLS = "use Rattle.irig_wires.specs.Calls.Call.{Pull, Plug, BeLate, Send, Add, Take}\n"
LATE = (0, 1, 350, 700, 1_998, 1_999)
WIDTHS = (0, 1, 2_000, 5_000, 8_000, 8_001, 10_000, 600_000)
MOST = 10**17  # as long as a scenario can last


# ---- oscillators


def random_gain(random: Random) -> int:
    return random.choice((-1_000, -999, -70, -1, 0, 1, 20, 999, 1_000, random.randint(-1_000, 1_000)))


def random_first(random: Random) -> int:
    return random.choice((0, 1, 4_290_000_000, 2**32 - 1, random.randrange(2**32)))


def random_time(random: Random) -> int:
    """A time, often where a second begins or ends, or the counter stands or passes over a count."""
    near = random.choice((0, SECOND, 10**6 // 20, 10**6 // 70, SECOND * random.randrange(10**6), MOST))
    return max(0, random.choice((near, near, random.randrange(10**8), random.randrange(MOST))) + random.randint(-2, 2))


@question("model", "irig_wires.rate_of")
def rates() -> Iterator[tuple]:
    for gain in (-1_000, -999, -70, -1, 0, 1, 20, 999, 1_000):
        yield (integer(gain),), shown(0, gain, SECOND)


@question("model", "irig_wires.counter_at")
def counts(random: Random) -> Iterator[tuple]:
    for _ in range(100):
        first, gain, time = random_first(random), random_gain(random), random_time(random)
        yield (first, SECOND + gain, time), shown(first, gain, time)


@question("model", "irig_wires.time_of")
def first_times(random: Random) -> Iterator[tuple]:
    for _ in range(100):
        first, gain = random_first(random), random_gain(random)
        count = max(0, shown(first, gain, random_time(random)) + random.choice((-first, -1, 0, 0, 1)))
        yield (first, SECOND + gain, count), first_shown(first, gain, count)


# ---- lines


def flight(pulse: Pulse) -> Antt:
    return record(rise_us=pulse[0], end_us=pulse[1])


def wire(cable: Cable) -> Antt:
    on_its_way = some(cable.pulse and flight(cable.pulse))
    return record(is_plugged=not cable.is_out, late_us=cable.late, flight=on_its_way)


def random_cables(random: Random) -> list[Cable]:
    """Five cables, often with pulses that end at one time."""
    ends = [random.randint(1, 30_000) for _ in range(random.randint(1, 3))]
    found = []
    for _ in range(5):
        end = random.choice(ends)
        pulse = random.choice((None, (random.randint(0, end), end)))
        found.append(Cable(random.choice(LATE), random.random() < 0.2, pulse))
    return found


def coming(cables: list[Cable], tick: int | None, send: int) -> Antt:
    """What happens next to a device of these cables."""
    time, kind, line = next_of([cable.pulse for cable in cables], tick, send)
    pulse = cables[line].pulse
    if kind == END and pulse:
        return record(time_us=time, what=Antt(f"(Happening.End {record(line=line, flight=flight(pulse))})"))
    return record(time_us=time, what=Antt("Happening.Tick" if kind == TICK else "Happening.Send"))


@question("model", "irig_wires.coming_of")
def what_is_next(random: Random) -> Iterator[tuple]:
    for _ in range(100):
        cables = random_cables(random)
        near = [cable.pulse[1] for cable in cables if cable.pulse] or [0]
        tick, send = (max(0, random.choice(near) + random.randint(-1, 1)) for _ in range(2))
        asked = random.choice((None, tick, tick, send))
        yield (record(**dict(zip("abcde", map(wire, cables)))), some(asked), send), coming(cables, asked, send)


def random_call(random: Random, cable: Cable, now: int) -> tuple[Antt, list[Pulse]]:
    """A call of a line as definitions are asked, and what was taken by it."""
    width, late, kind = random.choice(WIDTHS), random.choice(LATE), random.randrange(10)
    if kind < 4:
        cable.send(now, width)
        return Antt(f"(Send {now} {width})"), []
    if kind < 7:
        ended = cable.take(now)
        return Antt(f"(Take {now})"), [ended] if ended else []
    if kind == 7:
        cable.add(now, width)
        return Antt(f"(Add {now} {width})"), []
    if kind == 8:
        cable.late = late
        return Antt(f"(BeLate {late})"), []
    cable.is_out = not cable.is_out
    return Antt("Pull" if cable.is_out else "Plug"), []


@question("model", "irig_wires.carried")
def what_a_line_carries(random: Random) -> Iterator[Fact]:
    """Some calls in order of time, often at the very end of a pulse or beside it: what was taken, and what is on its way."""
    for _ in range(60):
        cable, now = Cable(random.choice(LATE)), 0
        calls: list[Antt] = []
        brought: list[Pulse] = []
        late = cable.late
        for _ in range(random.randint(1, 30)):
            end = cable.pulse[1] + random.randint(-1, 1) if cable.pulse else 0
            now = max(now, random.choice((end, end, now, now + random.randrange(10_000))))
            call, ended = random_call(random, cable, now)
            calls, brought = [call, *calls], [*ended, *brought]
        carried = [cable.pulse, *brought] if cable.pulse else brought
        yield equal(f"carried {late} {antt(calls)}", [flight(pulse) for pulse in carried], above=(CALLS,))
