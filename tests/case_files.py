"""The one reader of cases and examples: what the program is asked, and what it has to answer. And what it does.

A case is a folder of cases/: `args` (one word a line, SCENARIO standing for its `scenario.jsonl`,
RECORDING for its `recording.vcd` or `recording.csv`, RECORD for its `record.cfg`, beside which `record.dat` may be,
and SINGLE for its `record.cff`), `stdin` where it reads any, `stdout` (each byte), `stderr` where anything is written there, and
`status`. A `note`, which nothing reads, may say what to look at. Of a text that `clap`, a library or the system wrote `stderr` has the first words, and then
`..`; of a refusal it may be missing: then the line of the log that says so stands for it, with any
reason behind it. An example is NAME.jsonl of examples/ with its log NAME.log, and NAME.args has the
further words for `run` where there are any."""
from __future__ import annotations

import re
import subprocess
from collections.abc import Iterable
from dataclasses import dataclass
from pathlib import Path

ROOT = Path(__file__).resolve().parent.parent
PROGRAM = ROOT / "crates/irig_main/out/irig_main"  # that was proved
NOTHING = "/dev/null"
OF_NO_SCENARIO = ([b"read"], [b"judge"])  # commands whose input is none


@dataclass(frozen=True)
class Case:
    """Words may be no UTF-8. Paths are those from the top of the repository, and there may be no
    scenario."""

    name: str
    words: list[bytes]
    input: str
    status: int
    stdout: bytes
    stderr: bytes = b""
    scenario: str | None = None

    def texts(self) -> list[str]:
        """The words as text, with U+FFFD for what is no UTF-8."""
        return [word.decode(errors="replace") for word in self.words]

    def tells(self, told: bytes) -> bool:
        """Whether this may stand on the standard error."""
        wanted = self.stderr.rstrip(b"\n")
        if not wanted.endswith(b".."):
            return told == self.stderr
        begin, told = wanted.removesuffix(b".."), told.rstrip(b"\n")
        return told.startswith(begin) and len(told) > len(begin)


def answer(*words: str, given: bytes = b"", program: str | Path = PROGRAM) -> tuple[int, bytes, bytes]:
    """The status of the program, and what it writes on the standard output and error."""
    ran = subprocess.run([program, *words], input=given, capture_output=True, timeout=60)
    return ran.returncode, ran.stdout, ran.stderr


def words_in(path: Path) -> list[bytes]:
    """The lines of a file, none if it is not there."""
    text = path.read_bytes() if path.exists() else b""
    return text.removesuffix(b"\n").split(b"\n") if text else []


def standard_error(folder: Path, status: int, stdout: bytes) -> bytes:
    if (folder / "stderr").exists():
        return (folder / "stderr").read_bytes()
    last = stdout.removesuffix(b"\n").rpartition(b"\n")[2]
    if status == 3 and last.startswith(b"refused: "):
        return last.removeprefix(b"refused: ") + b": ..\n"
    return b""


def case_in(folder: Path) -> Case:
    name = str(folder.relative_to(ROOT))
    scenario = f"{name}/scenario.jsonl"
    table = (folder / "recording.csv").exists()
    recording = f"{name}/recording.csv" if table else f"{name}/recording.vcd"
    others = {b"RECORDING": recording.encode(), b"RECORD": f"{name}/record.cfg".encode(),
              b"SINGLE": f"{name}/record.cff".encode()}
    files = {b"SCENARIO": scenario.encode(), **others}
    words = [files.get(word, word) for word in words_in(folder / "args")]
    status, stdout = int((folder / "status").read_text()), (folder / "stdout").read_bytes()
    return Case(
        name, words, f"{name}/stdin" if (folder / "stdin").exists() else NOTHING, status, stdout,
        standard_error(folder, status, stdout), scenario if (ROOT / scenario).exists() else None,
    )


def example_of(path: Path) -> Case:
    name = str(path.relative_to(ROOT))
    words = [b"run", name.encode(), *words_in(path.with_suffix(".args"))]
    return Case(name, words, NOTHING, 0, path.with_suffix(".log").read_bytes(), scenario=name)


def cases() -> list[Case]:
    return [case_in(folder) for folder in sorted((ROOT / "cases").iterdir())]


def examples() -> list[Case]:
    return [example_of(path) for path in sorted((ROOT / "examples").glob("*.jsonl"))]


def all_cases() -> list[Case]:
    """Each case, and then each example."""
    return [*cases(), *examples()]


def has_devices(scenario: bytes) -> bool:
    """Whether a scenario's plant has devices in place of readers: its version is 4."""
    return re.search(rb'\A\s*{[^\n]*"version"\s*:\s*4\b', scenario) is not None


def of_readers(cases: Iterable[Case]) -> list[Case]:
    """Those that have a scenario, and no devices in it."""
    return [case for case in cases if case.scenario and not has_devices((ROOT / case.scenario).read_bytes())]


def scenarios(statuses: tuple[int, ...] = (0, 3)) -> dict[str, bytes]:
    """The scenarios of cases and examples that have no devices and end with these, by their names."""
    found = {}
    for case in all_cases():
        path = case.scenario or (case.input if case.words[:1] not in OF_NO_SCENARIO else NOTHING)
        text = (ROOT / path).read_bytes() if path != NOTHING else b""
        if path != NOTHING and case.status in statuses and not has_devices(text):
            found[case.name] = text
    return found


def over_whole_ports(case: Case) -> Case | None:
    """The same for test_whole_port, which runs what it is given and takes no more words than --all;
    none where a case is of something else, or of devices."""
    words, input = case.words, case.input
    if words[:1] in ([b"flatten"], [b"blame"], [b"judge"]):
        return None
    if case.scenario and has_devices((ROOT / case.scenario).read_bytes()):
        return None
    if case.scenario:
        words, input = words[2:], case.scenario
    if not case.name.startswith("examples/") and b" ".join(words) not in (b"", b"--all"):
        return None
    return Case(f"{case.name} over whole ports", words, input, case.status, case.stdout)
