"""Frames, from pulses to what a port tells, and the vote: by the decoder for sigrok and by the model."""

import importlib
import sys
import types
from collections.abc import Callable, Iterator
from dataclasses import replace
from random import Random

from model.faults import Fault
from model.frames import (
    MARKERS, Coded, Control, Parity, Poor, Rules, Sense, claim_of_coded, control_of, frame_of, has_parity, read,
    symbol_of, told, word_of,
)  # fmt: skip
from model.times import Claim, Mark, Second, second_of_text
from model.voting import vote
from random_scenarios import MONTH_ENDS

from . import values as v
from .antt import ROOT, Antt, Fact, antt, equal, integer, question, some
from .days import shown_on
from .times import random_second

sys.modules["sigrokdecode"] = types.SimpleNamespace(Decoder=object, OUTPUT_ANN=0, SRD_CONF_SAMPLERATE=0)
sys.path.insert(0, str(ROOT / "sigrok"))
sigrok, decoder = (importlib.import_module(f"irigb.{name}") for name in ("frame", "pd"))

Pairs = Iterator[tuple]


def random_control(random: Random, local: int, sense: Sense) -> Control:
    """Control bits, most of them with the offset of the zone."""
    offset = -local if sense == Sense.ADD else local
    if random.random() < 0.15:
        offset = max(-31, min(31, offset + random.randint(-62, 62)))
    quality = random.choice((0, 0, 0, 9, 10, 15, random.randrange(16)))
    return Control(*(random.random() < 0.5 for _ in range(4)), offset, quality)


def turned(symbols: str, place: int) -> str:
    """The symbols, of which one is the other bit."""
    return symbols[:place] + ("0" if symbols[place] == "1" else "1") + symbols[place + 1 :]


def with_parity(symbols: str, parity: Parity) -> str:
    """The symbols, of which that of the parity may be another."""
    return symbols if has_parity(symbols, parity) else turned(symbols, 75)


def damaged(random: Random, symbols: str) -> str:
    """Symbols with others in some places, or with fewer or more of them."""
    made = list(symbols)
    while random.random() < 0.3:
        made[random.randrange(len(made))] = random.choice("01P?01")
    if random.random() < 0.04:
        made = made[: random.choice((0, 1, 50, 99))] if random.random() < 0.6 else [*made, "0"]
    return "".join(made)


def random_symbols(random: Random, rules: Rules) -> str:
    """A frame of a second, true or with another bit, or one of any bits; half of all with damage."""
    if random.random() < 0.75:
        local = random.choice((0, 0, 11, -10, 31, -31, random.randint(-31, 31)))
        control = random_control(random, local, rules.sense)
        symbols = frame_of(random_second(random, 2), local, control, rules.parity)
        if random.random() < 0.25:
            symbols = turned(symbols, random.choice([place for place in range(100) if place not in MARKERS]))
    else:
        ones = random.choice((0.1, 0.2, 0.5))
        bits = ("1" if random.random() < ones else "0" for _ in range(100))
        symbols = "".join("P" if place in MARKERS else bit for place, bit in enumerate(bits))
    symbols = with_parity(symbols, rules.parity)
    return damaged(random, symbols) if random.random() < 0.5 else symbols


def random_frames(random: Random, count: int) -> Iterator[tuple[Rules, str]]:
    for _ in range(count):
        rules = Rules(random.choice(list(Parity)), random.choice(list(Sense)), random.random() < 0.7)
        yield rules, random_symbols(random, rules)


def told_by_decoder(rules: Rules, letters: str):
    """What the decoder for sigrok shows of these symbols."""
    if len(letters) != 100:
        return (Fault(1, len(letters)) if len(letters) < 100 else Fault(2)) if letters else None
    try:
        sigrok.check_symbols(letters)
        if not sigrok.has_parity(letters, rules.parity.value):
            return Fault(17)
        sbs = "check" if rules.check_binary_seconds else "ignore"
        shown, mark = sigrok.claim_of(letters, rules.sense.value, sbs)
    except sigrok.Fault as fault:
        place = (str(fault).split() + [None])[2]
        return Fault(fault.number, int(place) if place and place.isdigit() else place)
    quality = sigrok.quality_of(letters)
    return Poor(quality) if quality >= sigrok.POOR else Claim(second_of_text(shown), Mark(mark or "unspoken"))


def told_by(tells: Callable, frames: Iterator[tuple[Rules, str]]) -> Pairs:
    return (((rules, v.symbols(letters)), v.told(tells(rules, letters))) for rules, letters in frames)


@question("sigrok", "irig_port.told_of")
def decoded_told(random: Random) -> Pairs:
    return told_by(told_by_decoder, random_frames(random, 250))


@question("model", "irig_port.told_of")
def modelled_told(random: Random) -> Pairs:
    return told_by(told, random_frames(random, 400))


def new_line() -> decoder.Decoder:
    """The decoder's own steps, with nothing shown."""
    line = decoder.Decoder()
    line.reset()
    line.samplerate, line.putx, line.handle_frame = 1_000_000, lambda *_: None, lambda: None
    return line


@question("sigrok", "irig_sync.place_at")
def places() -> Pairs:
    """Every place of a pulse, on time or not, a marker or not, behind a marker or not."""
    for case in range(8 * 101):
        on_time, is_marker, was_marker = (bool(case >> bit & 1) for bit in range(3))
        line = new_line()
        line.counted, line.was_marker = [None] * (case // 8), was_marker
        yield (on_time, is_marker, was_marker, case // 8), line.place_of(is_marker, on_time)


ALONG = """abbrev places_along : Sync → List (ℕ × ℕ) → List ℕ
places_along s [] = []
places_along s (p ∷ ps) = place_of s p.0 p.1 ∷ places_along (pulse_of s p.0 p.1) ps
"""


@question("sigrok", "irig_sync.place_of irig_sync.pulse_of")
def pulses(random: Random) -> Iterator[Fact]:
    """Pulses one after another, by a clock of 32 bits that may wrap, some early, late or left out."""
    for _ in range(8):
        time, heard, places, line = random.choice((1000, 2**32 - 300_000)), [], [], new_line()
        for place in range(random.randint(20, 130)):
            width = 8000 if place % 100 in MARKERS else random.choice((2000, 5000))
            if random.random() < 0.03:
                width = random.choice((0, 2000, 5000, 8000, 6499, 6500, 9499, 9500))
            if random.random() > 0.02:
                line.handle_pulse(time, time + width)
                heard.append((time % 2**32, width))
                places.append(len(line.counted))
            late = random.choice((8999, 9000, 10_999, 11_000, 20_000))
            time += 10_000 if random.random() < 0.95 else late
        left = f"places_along (record {{ rise_us = 0; place = 0; was_marker = 0 }}) {antt(heard)}"
        yield equal(left, places, above=(ALONG,))


@question("model", "irig_frame.symbol_of")
def widths(random: Random) -> Pairs:
    bounds = (0, 499, 500, 501, 3499, 3500, 6499, 6500, 9499, 9500, 2**32 - 1)
    for width in (*bounds, *(random.randrange(11_000) for _ in range(29))):
        kind = {"0": "Zero", "1": "One", "P": "Marker", "?": "Bad"}[symbol_of(width)]
        yield (width,), Antt(f"Symbol.{kind}")


@question("model", "irig_frame.decode_result")
def decoded(random: Random) -> Pairs:
    for _, letters in random_frames(random, 240):
        yield (v.symbols(letters),), v.result(read(letters), v.fault)


@question("model", "irig_time.frame_of_second")
def encoded(random: Random) -> Pairs:
    for _ in range(120):
        parity, local, second = random.choice(list(Parity)), random.randint(-31, 31), random_second(random, 2)
        control = random_control(random, local, random.choice(list(Sense)))
        yield (parity, second, integer(local), control), v.symbols(frame_of(second, local, control, parity))


@question("model", "irig_control.has_parity irig_control.with_parity")
def parities(random: Random) -> Pairs:
    for _, letters in random_frames(random, 120):
        if len(letters) == 100 and all(letters[place] == "P" for place in MARKERS):
            parity = random.choice(list(Parity))
            made = with_parity(letters[:75] + "0" + letters[76:], parity)
            yield (parity, v.symbols(letters)), (has_parity(letters, parity), v.symbols(made))


@question("model", "irig_control.control_of irig_control.normal_word")
def controls(random: Random) -> Pairs:
    for word in random.sample(range(2**18), 1500):
        yield (word,), (control_of(word), word_of(control_of(word)))


@question("model", "irig_control.word_of")
def words(random: Random) -> Pairs:
    for word in random.sample(range(2**18), 1500):
        yield (control_of(word),), word_of(control_of(word))


def random_values(random: Random, sense: Sense) -> tuple[Coded, Control]:
    """Values and bits about a month's or the years' end, also such as no frame has together."""
    control = random_control(random, random.randint(-31, 31), sense)
    day = random.choice((0, 1, 2, 36_522, 36_523, 36_524, *random.sample(MONTH_ENDS, 6)))
    offset = control.offset if sense == Sense.ADD else -control.offset
    minute = 1440 * day + random.choice((0, 1439, 1439, random.randrange(1440))) - 30 * offset
    second = random.choice((0, 1, 58, 59, 59, 60, random.randrange(61)))
    coded = shown_on(*divmod(max(0, min(1440 * 36_525 - 1, minute)), 1440), second)
    of_year = random.choice((366, 365)) if random.random() < 0.1 else coded.day
    return replace(coded, day=of_year, control=word_of(control)), control


@question("model", "irig_time.claim_by")
def claims(random: Random) -> Pairs:
    for _ in range(300):
        sense = random.choice(list(Sense))
        coded, control = random_values(random, sense)
        yield (sense, coded, control), v.result(claim_of_coded(coded, sense), v.fault)


def random_tell(random: Random, near: Second):
    """What a port may tell: a claim of a second or one near it, or none."""
    if random.random() < 0.25:
        return random.choice((None, Poor(10), Poor(15), Fault(17), Fault(3, 7), Fault(1, 99), Fault(8)))
    others = Second(near.day, near.of_day - 1), Second(near.day - 1, near.of_day)
    second = near if random.random() < 0.8 else random.choice(others)
    return Claim(second, random.choice((Mark.NO_LEAP, Mark.NO_LEAP, *Mark)))


@question("model", "irig_vote.vote_of")
def votes(random: Random) -> Pairs:
    for _ in range(600):
        count = random.choice((1, 3, 3, 5, 5))
        words = [random_tell(random, Second(6209, 86_399)) for _ in range(5)]
        yield (v.tells(words), v.ports(count)), some(vote(words[:count], count))
