"""Runs of the program, of which tests make something else each time: each example, each case, help, and
command lines that are not understood."""
from __future__ import annotations

import os
import subprocess
import tempfile
from collections import Counter
from collections.abc import Callable, Iterator
from contextlib import contextmanager
from multiprocessing import Pool
from typing import NamedTuple

from case_files import NOTHING, PROGRAM, ROOT, all_cases, examples

SECONDS = 30

FURTHER = (
    "--help", "help frame", "run --help", "frame --help", "read --help", "explain --help", "--version",
    "flatten", "flatten --help", "flatten no_such_file", "blame --help", "blame no_such_file", "blame a b",
    "explain 13", "explain 99", "explain x", "explain OutOfYears", "explain premises", "explain poor:",
    "run a b", "frame", "frame 2000", "read x", "read P --parity=odd", "read P --sbs=x",
    "frame 2000-01-03T00:00:00Z --quality=9 --dst", "frame 2000-01-03T00:00:00Z --quality=16",
    "run no_such_file", "run docs", "--bogus",
)


class Run(NamedTuple):
    """A run by its name, from the top of the repository."""

    name: str
    input: str
    words: list[bytes]


class Outcome(NamedTuple):
    """How a run ended: its status, below 0 by a signal, and what it wrote."""

    status: int
    log: bytes
    told: bytes


def all_runs() -> Iterator[Run]:
    """An example is run as it is shown, with what the ports told, and as the input."""
    for case in all_cases():
        yield Run(case.name, case.input, case.words)
    for name in (example.name for example in examples()):
        yield Run(f"{name} with ports", NOTHING, [b"run", name.encode(), b"--all", b"--ports"])
        yield Run(f"{name} as the input", name, [])
    for words in FURTHER:
        yield Run(words, NOTHING, words.encode().split())


def outcome_of(run: Run, program: object = PROGRAM, **settings: str) -> Outcome:
    """How a run ends with no more than these settings in its environment."""
    with open(ROOT / run.input, "rb") as given:
        ended = subprocess.run(
            [str(program).encode(), *run.words], stdin=given, capture_output=True, cwd=ROOT, env=settings,
            timeout=SECONDS,
        )
    return Outcome(ended.returncode, ended.stdout, ended.stderr)


def over_all(judge: Callable[[Run], Counter[str]]) -> Counter[str]:
    """What a test counts in all runs, side by side."""
    with Pool(len(os.sched_getaffinity(0))) as pool:
        return sum(pool.imap_unordered(judge, all_runs()), Counter())


def wrong(run: Run, what: str, outcome: Outcome) -> Counter[str]:
    """Says that a run was not as it has to be, with a word on what was made of it."""
    told = outcome.told.decode(errors="replace")
    print(f"failed: {run.name}, {what}: status {outcome.status}, {len(outcome.log)} bytes, then: {told}")
    return Counter(wrong=1)


@contextmanager
def injected(name: str) -> Iterator[str]:
    """The settings that load a source of this folder before the C library."""
    with tempfile.TemporaryDirectory() as folder:
        made = f"{folder}/{name}.so"
        words = ["cc", "-std=gnu11", "-O2", "-Wall", "-Wextra", "-Werror", "-shared", "-fPIC"]
        subprocess.run([*words, ROOT / f"tests/{name}.c", "-o", made], check=True)
        yield made
