"""Recordings of lines with changed bytes: whatever these are, the program judges them, says that nothing is
decided, or refuses them in one line, within a bound on its time and memory."""
from __future__ import annotations

import json
import os
import random
import re
import resource
import subprocess
from collections.abc import Callable, Iterator
from pathlib import Path

from case_files import PROGRAM, ROOT

# The files of a recording by their endings: a dump or a table alone, or a configuration with its samples.
Recording = dict[str, bytes]
SECONDS = 10  # 1,000 hours of silent lines take one
MEMORY = 64 << 20  # of addresses, with the system's libraries
PARTS = [b"#99999999999999999999", b"-1", b"1e400", b"nan", b"\x1b[2J", b"\xff" * 300, b",,,,", b"\r", b"\0"]


def recordings(folders: list[Path]) -> Iterator[Recording]:
    """Those that stand in folders: dumps, tables, and records."""
    for path in sorted(path for folder in folders for path in folder.iterdir()):
        ending = path.suffix
        if ending in (".vcd", ".csv"):
            yield {ending: path.read_bytes()}
        elif ending.lower() == ".cfg":
            samples = path.with_suffix(".DAT" if ending == ".CFG" else ".dat")
            yield {ending: path.read_bytes(), samples.suffix: samples.read_bytes() if samples.exists() else b""}


KNOWN = list(recordings([ROOT / "examples", *sorted((ROOT / "cases").glob("judge_*"))]))


def flipped(chance: random.Random, text: bytes) -> bytes:
    at = chance.randrange(len(text))
    return text[:at] + bytes([text[at] ^ 1 << chance.randrange(8)]) + text[at + 1:]


def without_a_part(chance: random.Random, text: bytes) -> bytes:
    at = chance.randrange(len(text))
    return text[:at] + text[at + chance.choice([1, 2, 16, 300, len(text)]):]


def with_a_part(chance: random.Random, text: bytes) -> bytes:
    at, other = chance.randrange(len(text)), chance.choice(list(chance.choice(KNOWN).values()))
    begin = chance.randrange(len(other) + 1)
    part = chance.choice([*PARTS, other[begin:begin + chance.choice([1, 20, 1000])], text[at:at + 200]])
    return text[:at] + part + text[at:]


def with_a_number(chance: random.Random, text: bytes) -> bytes:
    """A number of its head is another one."""
    numbers = list(re.finditer(rb"\d+", text[:4000]))
    if not numbers:
        return text
    number = chance.choice(numbers)
    other = b"%d" % chance.choice([0, 1, 2, 5, 65536, 1 << 31, 1 << 32, 1 << 63, 1 << 64, 10**30])
    return text[:number.start()] + other + text[number.end():]


CHANGES: list[Callable[[random.Random, bytes], bytes]] = [flipped, without_a_part, with_a_part, with_a_number]


def hostile(chance: random.Random) -> Recording:
    """A recording of which some bytes were changed."""
    changed = dict(chance.choice(KNOWN))
    for _ in range(chance.randrange(1, 6)):
        ending = chance.choice(list(changed))
        if changed[ending]:
            changed[ending] = chance.choice(CHANGES)(chance, changed[ending])
    return changed


def bound() -> None:
    resource.setrlimit(resource.RLIMIT_AS, (MEMORY, MEMORY))


def judged(path: Path, *words: str) -> tuple[int, bytes, bytes]:
    """The status of a judge, and both its outputs."""
    done = subprocess.run([PROGRAM, "judge", *words, path], capture_output=True, timeout=SECONDS, preexec_fn=bound)
    return done.returncode, done.stdout, done.stderr


def fault_in(recording: Recording, folder: str) -> str | None:
    """What a judge of this recording should not have done."""
    paths = [Path(folder, f"{os.getpid()}{ending}") for ending in recording]
    for path, text in zip(paths, recording.values()):
        path.write_bytes(text)
    try:
        return fault_of(judged(paths[0]), judged(paths[0], "--json"))
    except subprocess.TimeoutExpired:
        return f"no end within {SECONDS} s"


def fault_of(said: tuple[int, bytes, bytes], as_json: tuple[int, bytes, bytes]) -> str | None:
    status, text, told = said
    if status not in (0, 3, 7):
        return f"status {status}, {told!r}"
    if re.search(rb"[^ -~\n]", text + told + as_json[1]):
        return f"bytes of the recording are printed: {text!r} {told!r}"
    if (status, told) != (as_json[0], as_json[2]):
        return f"as JSON it ends otherwise: {as_json}"
    if status == 3:
        return None if not text and told.count(b"\n") == 2 else f"a refusal in other lines: {text!r} {told!r}"
    if json.loads(as_json[1])["decided"] != (status == 0):
        return f"status {status} of {as_json[1]!r}"
    return None
