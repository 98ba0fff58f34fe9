#!/usr/bin/env python3
"""Compares the page with the program in Chromium, `compare.py PAGE PROGRAM`: status and bytes of each
case and example, of 3,000 scenarios made at random, and frames that are made and read. What is drawn of the
runs of cases and examples is compared with tools/parts/log_lanes.py."""
from __future__ import annotations

import base64
import hashlib
import json
import random
import re
import subprocess
import sys
from collections.abc import Iterator
from concurrent.futures import ThreadPoolExecutor
from itertools import product
from pathlib import Path

WEB = Path(__file__).resolve().parent
sys.path.insert(0, str(WEB.parent / "tools/tests"))

import browser  # noqa: E402
from loading import ROOT, loaded  # noqa: E402
from case_files import NOTHING, all_cases, has_devices  # noqa: E402
from parts.log_lanes import drawn  # noqa: E402

BY_CHANCE, FRAMES = 3000, 400
MOST_SECONDS = 5_000  # of a scenario made at random, so that all end soon
BATCH = 100
LETTERS = "01P?"
REFUSED = 3
RULES = ("even", "odd"), ("add", "subtract"), ("check", "ignore")  # by their numbers
PLACES = "edges", "lines", "told_edges", "told_lines"  # of a lane beside a log
FROM_INPUT = [], ["run", "-"]  # the words of a case that runs its input, without options

FUZZ = loaded(ROOT / "tests/fuzz")


# ---- what is asked, and what the program says of it


def ran(program: Path, *words: str, text: bytes = b"") -> tuple[int, bytes, str]:
    done = subprocess.run([program, *words], input=text, capture_output=True, timeout=120)
    return done.returncode, done.stdout, done.stderr.decode()


def scenario(text: bytes, has_all: bool, has_ports: bool, is_drawn: bool) -> dict:
    shown = {"all": has_all, "ports": has_ports}
    return {"text": base64.b64encode(text).decode(), "shown": shown, "is_drawn": is_drawn}


def places_in(log: str) -> dict[str, dict[str, list[int]]]:
    """Of each reader which lines of a log are of which edges."""
    found: dict[str, dict[str, list[int]]] = {}
    for number, line in enumerate(log.splitlines()):
        if placed := re.match(r"( ?)(\d+) (\S+) ", line):
            blank, edge, reader = placed.groups()
            lane, told = found.setdefault(reader, {name: [] for name in PLACES}), "told_" if blank else ""
            lane[f"{told}edges"].append(int(edge))
            lane[f"{told}lines"].append(number)
    return found


def beside(log: str, drawing: dict, has_ports: bool) -> dict:
    """A drawing as it is shown beside a log that may have fewer lines."""
    places = places_in(log)
    for lane in drawing["lanes"]:
        seconds = dict(zip(lane["edges"], zip(lane["days"], lane["sods"])))
        lane |= places.get(lane["reader"], {name: [] for name in PLACES})
        lane["days"], lane["sods"] = ([seconds[edge][part] for edge in lane["edges"]] for part in (0, 1))
        lane |= {} if has_ports else {"ports": [], "lies": {name: [] for name in lane["lies"]}}
    return drawing


def told_scenario(program: Path, request: dict) -> list:
    text = base64.b64decode(request["text"])
    options = [f"--{name}" for name, is_shown in request["shown"].items() if is_shown]
    status, log, why = ran(program, "run", "-", *options, text=text)
    reason = re.sub(r"^(line \d+: \d+) \w+:", r"\1:", why.partition("\n")[0]) if status == REFUSED else None
    answer = [status, hashlib.sha256(log).hexdigest(), reason]
    if not request["is_drawn"]:
        return answer
    return [*answer, beside(log.decode(), drawn(text), request["shown"]["ports"] or has_devices(text))]


def files() -> Iterator[tuple[bytes, bool]]:
    """The scenario of each case that is a run, and of each example; and whether no line is refused, of which a part
    may have been run."""
    for case in all_cases():
        words = [word for word in case.texts() if word not in ("--all", "--ports")]
        path = case.input if words in FROM_INPUT else NOTHING
        if case.scenario and words == ["run", case.scenario]:
            path = case.scenario
        text = (ROOT / path).read_bytes() if path != NOTHING else b""
        if path != NOTHING:
            yield text, case.status == 0


def by_chance() -> Iterator[bytes]:
    FUZZ.MOST_SECONDS = MOST_SECONDS
    for number in range(BY_CHANCE):
        yield FUZZ.scenario(random.Random(f"web:{number}"))


def second(chance: random.Random) -> str:
    """A second of the years served, or some other text."""
    if chance.random() < 0.1:
        return chance.choice(["2016-12-31", "2017-12-31T23:59:61Z", "2016-02-30T00:00:00Z", "now"])
    month = chance.choice(["01-31", "06-30", "12-31", "02-28", "02-29", "07-04", "09-30"])
    clock = chance.choice(["00:00:00", "23:59:58", "23:59:59", "23:59:60", "12:34:56", "22:30:01"])
    return f"{chance.randrange(1999, 2101)}-{month}T{clock}Z"


def frame(chance: random.Random) -> dict:
    return {
        "time": second(chance), "local": chance.choice([0, 0, *range(-31, 32)]),
        "pending": chance.choice(["", "insert", "delete"]), "dst": False, "dst_pending": False,
        "quality": 0, "is_odd": False,
    }


def told_frame(program: Path, request: dict) -> str | None:
    words = [request["time"], f"--local={request['local']}"]
    words += [f"--pending={request['pending']}"] if request["pending"] else []
    status, text, _ = ran(program, "frame", *words)
    return text.decode().rstrip("\n") if status == 0 else None


def damaged(chance: random.Random, text: str) -> str:
    """A frame of which some letters are others, too few or too many."""
    letters = list(text)
    for _ in range(chance.choice([0, 1, 1, 1, 2, 5, 40])):
        at = chance.randrange(len(letters))
        letters[at : at + 1] = chance.choice([*LETTERS, *LETTERS, "", "01", "x", " "])
    return "".join(letters)


def reading(chance: random.Random, texts: list[str]) -> dict:
    rules = [chance.choice([0, 0, 1]) for _ in RULES]
    return {"frame": damaged(chance, chance.choice(texts)), "rules": rules}


def told_reading(program: Path, request: dict) -> str | None:
    rules = zip(("--parity", "--sense", "--sbs"), RULES, request["rules"])
    words = [word for name, kinds, rule in rules for word in (name, kinds[rule])]
    status, text, _ = ran(program, "read", request["frame"], *words)
    return text.decode().rstrip("\n") if status == 0 else None


def expected(program: Path) -> tuple[dict[str, list[dict]], dict[str, list]]:
    """The requests of each kind, and the answers of the program."""
    chance = random.Random("frames")
    each = list(product((False, True), repeat=2))
    found = [scenario(text, *shown, is_done) for text, is_done in files() for shown in each]
    made = [scenario(text, place % 2 == 0, place % 3 == 0, False) for place, text in enumerate(by_chance())]
    frames = [frame(chance) for _ in range(FRAMES)]
    with ThreadPoolExecutor(2) as pool:
        answers = {
            "runs of cases and examples": list(pool.map(lambda it: told_scenario(program, it), found)),
            "random runs": list(pool.map(lambda it: told_scenario(program, it), made)),
            "frames": list(pool.map(lambda it: told_frame(program, it), frames)),
        }
        texts = [text for text in answers["frames"] if text]
        readings = [reading(chance, texts) for _ in range(FRAMES)]
        answers["readings"] = list(pool.map(lambda it: told_reading(program, it), readings))
    return dict(zip(answers, (found, made, frames, readings))), answers


# ---- what the page answers


IN_BROWSER = """
const worker_of_check = new Worker(tab.runner.source);
const calls_of_check = Promise.all([ready, modules.runner]).then(([[, [codec, texts]], module]) => ({
  codec, texts,
  run: (text, shown) => new Promise((told, failed) => {
    worker_of_check.onmessage = ({ data }) => {
      if (data.kind === "done") told(data);
      if (data.kind === "failed") failed(new Error(data.reason));
    };
    worker_of_check.postMessage({ module, text, shown, most: 1 << 30 });
  }),
}));
"""


def in_browser(page: Path, requests: list[dict]) -> list:
    """By a worker of the page, under its policy."""
    window = browser.Browser()
    try:
        window.open(page)
        window.ask((WEB / "answers.js").read_text() + IN_BROWSER + "0")
        answers: list = []
        for first in range(0, len(requests), BATCH):
            batch = json.dumps(requests[first : first + BATCH])
            told = window.ask(f"calls_of_check.then((calls) => answers_of({batch}, calls))")
            assert isinstance(told, list)
            answers += told
        if window.errors:
            raise RuntimeError(f"the page says {window.errors}")
        return answers
    finally:
        window.close()


def main() -> None:
    page, program = Path(sys.argv[1]).resolve(), Path(sys.argv[2]).resolve()
    requests, wanted = expected(program)
    wrong = 0
    for kind, asked in requests.items():
        answers = in_browser(page, asked)
        differ = [it for it in zip(asked, answers, wanted[kind], strict=True) if it[1] != it[2]]
        wrong += len(differ)
        print(f"{len(asked) - len(differ)} of {len(asked)} {kind} are as the program has them")
        for request, answer, program_says in differ[:3]:
            print(f"  {json.dumps(request)[:600]}\n  {answer}, and the program: {program_says}")
    statuses = [answer[0] for answer in wanted["random runs"]]
    print(f"of the random ones {statuses.count(0)} are done, {statuses.count(3)} refused")
    sys.exit(wrong > 0)


if __name__ == "__main__":
    main()
