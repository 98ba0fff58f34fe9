"""Scripts in place of programs, over which the scripts of this repository are tried in seconds."""
from __future__ import annotations

import os
import subprocess
import tempfile
import time
import unittest
from collections.abc import Callable, Iterable, Iterator
from concurrent.futures import ThreadPoolExecutor
from pathlib import Path

ROOT = Path(__file__).resolve().parent.parent


def write(path: Path, text: str) -> None:
    """Writes a file that may be run, with its folders."""
    path.parent.mkdir(parents=True, exist_ok=True)
    path.write_text(text)
    path.chmod(0o755)


def copy(name: str, to: Path) -> None:
    """Copies a script of the repository to its place in another one."""
    write(to / name, (ROOT / name).read_text())


def files_below(folder: Path) -> set[str]:
    return {str(path.relative_to(folder)) for path in folder.rglob("*") if not path.is_dir()}


def each(tests: Iterable[unittest.TestCase | unittest.TestSuite]) -> Iterator[unittest.TestCase]:
    for test in tests:
        if isinstance(test, unittest.TestSuite):
            yield from each(test)
        else:
            yield test


class SideBySide(unittest.TestSuite):
    """Tests of which each waits most of its time for scripts in a folder of its own."""

    def run(self, result: unittest.TestResult, debug: bool = False) -> unittest.TestResult:
        def begin(test: unittest.TestCase) -> None:
            if not result.shouldStop:
                test.run(result)

        with ThreadPoolExecutor(6) as pool:
            for done in [pool.submit(begin, test) for test in each(self)]:
                done.result()
        return result


class InAFolder(unittest.TestCase):
    """In a folder of its own with a repository, whose commands come from `bin` of a kit first."""

    def setUp(self) -> None:
        folder = tempfile.TemporaryDirectory()
        self.addCleanup(folder.cleanup)
        self.folder = Path(folder.name).resolve()
        self.root = self.folder / "a repository"
        self.kit = self.folder / "kit"
        self.environment = dict(os.environ, PATH=f"{self.kit}/bin:{os.environ['PATH']}")

    def run_here(self, *words: str | Path, **more: str) -> subprocess.CompletedProcess[str]:
        return subprocess.run(
            words, cwd=self.root, env={**self.environment, **more}, stdin=subprocess.DEVNULL,
            capture_output=True, text=True, timeout=60,
        )

    def until(self, is_so: Callable[[], bool], what: str) -> None:
        """Waits for what another process does."""
        for _ in range(1000):
            if is_so():
                return
            time.sleep(0.02)
        self.fail(f"this has not come in 20 s: {what}")
