"""Whole scenarios, from bytes to the log, and what the log vouches for."""

import re
from collections import Counter
from collections.abc import Iterator
from random import Random

from case_files import cases, of_readers
from model import scenario
from model.meaning import plant_of
from random_scenarios import random_event, random_plant

from . import values as v
from .antt import COUNTEREXAMPLES, ROOT, Fact, antt, equal, names, opened, question
from .lines import LEAP, PLANT, READER, TABLE, line_of, plan_of, random_line
from .plants import SHOWN

USUAL, EARLY = b'"start":"2016-06-15T12:00:00Z"', b'"start":"2000-01-02T00:00:00Z"'


def output(data: bytes, shown: str, stdout: bytes, wrong: bytes | None = None) -> Fact:
    """That the bytes of a scenario come to the text."""
    return equal(f"output_shown {antt(data)} {v.flags(shown)}", stdout, wrong)


@question("cases", "irig_scene.output_shown")
def outcomes(random: Random) -> list[Fact]:
    """Cases that are refused before a tick whenever they start, by their `stdout`, which is worked out by
    hand: from an early start on, as it is soon found."""
    found = []
    for case in of_readers(cases()):
        data = (ROOT / case.scenario).read_bytes()
        is_soon_refused = case.words[:1] == [b"run"] and case.stdout.startswith(b"refused")
        if is_soon_refused and USUAL in data and data.count(b'"20') == 1 and len(data) < 1000:
            words, wrong = str(case.words[2:]), b"-" + case.stdout
            found.append(output(data.replace(USUAL, EARLY), words, case.stdout, wrong))
    return random.sample(found, 20)


def early_plant(random: Random) -> dict:
    """A plant of the first seconds, as its times are soon found; its reader may have a false table."""
    plant, tables = random_plant(random), random.choice(({}, {"table": TABLE}))
    readers = [{key: one[key] for key in ("name", "lock_after", "holdover")} | tables for one in plant["readers"][:1]]
    return plant | {
        "version": 3, "start": f"2000-01-02T00:00:0{random.randrange(10)}Z", "leaps": random.choice(([], [LEAP])),
        "generators": [{key: one[key] for key in one if key != "changes"} for one in plant["generators"]],
        "readers": readers,
    }  # fmt: skip


@question("model", "irig_scene.output_shown")
def outputs(random: Random) -> Iterator[Fact]:
    """Early plants with events of a few seconds, and a false table or a line that is refused."""
    wanted = Counter({0: 2, 3: 3})
    while wanted.total():
        plant = early_plant(random)
        readers = [one["name"] for one in plant["readers"]]
        mishaps = [random_event(random, len(plant["generators"]), readers) for _ in range(3)]
        seconds = {"do": "seconds", "n": 1}
        lines = [line_of(one) + b"\n" for one in (plant, *mishaps[:2], seconds, mishaps[2], seconds)]
        data = b"".join(lines) + random.choice((b"", b" \t\r\n", random_line(random)))
        shown = random.choice(SHOWN)
        played = scenario.play(data, shown)
        if wanted[played.status] and not re.search(b"kept|edge", played.stdout):
            wanted[played.status] -= 1
            yield output(data, shown, played.stdout)


TRUE = PLANT | {"generators": [{"local": 0}] * 3, "readers": [READER | {"lock_after": 1}]}


@question("model", "irig_scene.output_shown")
def kept() -> Iterator[Fact]:
    """A plant whose tables are true, and a tick: here each day of the years is looked at."""
    data = line_of(TRUE) + b'\n{"do":"tick","r":"r1"}'
    yield output(data, "all", scenario.play(data, "all").stdout)


# That a log is false in which the second of edge 1 is another than 2000-01-02T00:00:02Z.
REFUTED = """use Rattle.std.proofs.lemmas.List.Elements.{recursion_from_All, All-from_recursion}
use Rattle.scenario_line.proofs.NamesAndTimes.{plan_has}
use Rattle.irig_scene.proofs.PlantLines.{one_plant_line}
abbrev $_bytes : List ℕ
$_bytes = BYTES

abbrev $_plan : Plan
$_plan = PLAN

$_says : plan_in_line LINE ≡ Ok $_plan
unfolding OPENS
$_says = refl

$_is_plant : IsPlantLineOf $_bytes $_plan.names $_plan.setup.times
unfolding lines
$_is_plant = record { line = LINE; first = refl; says = plan_has LINE $_plan $_says }

$_text : second_text (record { day = 1; sod = 2 }) ≡ codes "2000-01-02T00:00:02Z"
unfolding OPENS
$_text = refl

$_not_time : ¬ IsTimeOf $_plan.setup.times 1 (codes "MOVED")
unfolding second_at
$_not_time h =
    let is : ◌≡◌ {A = Option UtcSecond} (Some (record { day = 1; sod = 2 })) (Some h.second) = h.is_true in
    let same : ◌≡◌ {A = UtcSecond} h.second (record { day = 1; sod = 2 }) = cc in
    omega (arith, ap (λ (text : List ℕ). unwrap_or (slice_get text 18) 0) (h.written ∙ (ap second_text same ∙ $_text)))

$_shows : Shows $_plan.names (codes "SAID") 0 1 (codes "MOVED")
unfolding digits
$_shows = record {
  number = omega arith;
  named = omega arith;
  word = All-from_recursion (λ b. b ≢ 32) (codes "MOVED") (search arith);
  more = codes "locked voted";
  is = refl;
}

$_false : ¬ ShowsTruth $_plan.names $_plan.setup.times (codes "SAID")
$_false h = $_not_time (h 0 1 (codes "MOVED") $_shows (λ e. omega (arith, ap length e)))

$_untrue : ¬ AreTrueOf $_bytes ((codes "SAID") ∷ [])
$_untrue h =
    let only = one_plant_line $_bytes h.names $_plan.names h.times $_plan.setup.times h.plant $_is_plant in
    let shown = (recursion_from_All (ShowsTruth h.names h.times) ((codes "SAID") ∷ []) h.lines).0 in
    let named = subst (λ names. ShowsTruth names h.times (codes "SAID")) only.0 shown in
    $_false (subst (λ times. ShowsTruth $_plan.names times (codes "SAID")) only.1 named)
"""
KEPT = "\npremises kept\n"
VOUCHED = "irig_scene.VouchesByPlantLine irig_scene.plant_line_of scenario_line.plan_in_line irig_time.second_text"


@question(COUNTEREXAMPLES, VOUCHED)
def vouching() -> Iterator[Fact]:
    """A log with one line whose second is moved, and the premises kept: it does not vouch for that."""
    line, opens = line_of(TRUE), opened(names(VOUCHED))
    bytes_ = antt(line + b'\n{"do":"seconds","n":1}\n')
    words = {"BYTES": bytes_, "LINE": antt(line), "PLAN": plan_of(plant_of(TRUE)), "OPENS": opens}
    for second in "019":
        moved, above = f"2000-01-02T00:00:0{second}Z", REFUTED
        said = f"1 r1 {moved} locked voted"
        for word, value in {**words, "SAID": said, "MOVED": moved}.items():
            above = above.replace(word, value)
        says = f"¬ VouchesByPlantLine $_bytes {antt(f'{said}{KEPT}')}"
        yield Fact(says, above=(above,), proof=f'λ h. $_untrue (h ((codes "{said}") ∷ []) refl)')
