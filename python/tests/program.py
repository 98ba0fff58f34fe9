"""The program that was built, and what cases and examples of the repository expect of it."""
from __future__ import annotations

import sys
from pathlib import Path
from typing import Iterator, List, NamedTuple, Optional, Tuple

ROOT = Path(__file__).resolve().parent.parent.parent
sys.path.insert(0, str(ROOT / "tests"))

from case_files import all_cases, answer  # noqa: E402,F401


class Case(NamedTuple):
    """A case of a command: its words, what it prints, its exit status, and its scenario's path."""

    name: str
    words: List[str]
    printed: str
    status: int
    scenario: Optional[str]


def cases(command: str) -> Iterator[Case]:
    for case in all_cases():
        words = case.texts()
        if words[:1] == [command]:
            yield Case(case.name, words[1:], case.stdout.decode(), case.status, case.scenario)


def printed(*words: str, text: str = "") -> str:
    """What the program prints, with this on its standard input."""
    return answer(*words, given=text.encode())[1].decode()


def told(*words: str) -> Tuple[int, str]:
    """The program's status, and what it says on the standard error."""
    status, _, error = answer(*words)
    return status, error.decode()
