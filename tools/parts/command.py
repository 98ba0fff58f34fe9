"""The manner of the commands of tools/: help begins with an example, and what is wrong is said in one
line on the standard error, with status 2."""
from __future__ import annotations

import argparse
import os
import sys
from importlib.util import find_spec
from pathlib import Path
from types import TracebackType
from typing import NoReturn, Optional, Type

ROOT = Path(__file__).resolve().parents[2]
DEBIAN = "/usr/bin/python3"  # it has Debian's packages, which another Python on the PATH has not


def end_quietly(
    kind: Type[BaseException], error: BaseException, trace: Optional[TracebackType]
) -> None:
    """Says nothing of Ctrl-C, by which the command then ends."""
    if not issubclass(kind, KeyboardInterrupt):
        sys.__excepthook__(kind, error, trace)


sys.excepthook = end_quietly


def program() -> str:
    """The program that the environment names in IRIG, or ./irig."""
    return os.environ.get("IRIG", str(ROOT / "irig"))


def warn(name: str, reason: object) -> None:
    """Says what is wrong, in the name of a command."""
    print(f"{name}: {reason}", file=sys.stderr)


def fail(name: str, reason: object) -> NoReturn:
    """Ends the command of this name."""
    warn(name, reason)
    sys.exit(2)


def put(name: str, text: str) -> None:
    """Prints a text, all of it."""
    try:
        sys.stdout.write(text)
        sys.stdout.flush()
    except OSError:
        os.dup2(os.open(os.devnull, os.O_WRONLY), sys.stdout.fileno())  # which takes the rest at the end
        fail(name, "standard output took no more: is the disk full, or has its reader ended?")


def need_matplotlib(name: str) -> None:
    """Goes on in Debian's Python if this one has no matplotlib."""
    if not find_spec("matplotlib"):
        if sys.executable != DEBIAN and os.path.exists(DEBIAN):
            os.execv(DEBIAN, [DEBIAN, *sys.argv])
        fail(name, "matplotlib is missing; on Debian: apt-get install python3-matplotlib")


class Command(argparse.ArgumentParser):
    """The words of a command, with an example of its use."""

    def __init__(self, name: str, example: str, description: str) -> None:
        super().__init__(
            prog=name,
            description=description,
            formatter_class=argparse.RawDescriptionHelpFormatter,
        )
        self.example = example

    def format_help(self) -> str:
        return f"for example:\n\n    {self.example}\n\n{super().format_help()}"

    def error(self, message: str) -> NoReturn:
        fail(self.prog, f"{message}; see {self.prog} --help")


def read_text(name: str) -> str:
    """The text of a file, of standard input if its name is `-`."""
    source = sys.stdin.buffer.read() if name == "-" else Path(name).read_bytes()
    return source.decode()


def shown(text: str) -> str:
    """A text of others, with escapes for what is not printable, such as what a terminal or XML obeys."""
    return "".join(letter if letter.isprintable() else ascii(letter)[1:-1] for letter in text)


def reason_of(error: ImportError | MemoryError | OSError | ValueError) -> str:
    """What is wrong, in words."""
    if isinstance(error, UnicodeDecodeError):
        return "it is no text"
    if isinstance(error, MemoryError):
        return "out of memory"
    return str(getattr(error, "strerror", None) or error)
