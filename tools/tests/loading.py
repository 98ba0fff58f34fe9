"""For tests of the tools, and of web/: once this is imported, so can be what stands in tools/, in tests/
and the package of python/."""
from __future__ import annotations

import re
import subprocess
import sys
import tempfile
import unittest
from pathlib import Path

ROOT = Path(__file__).resolve().parents[2]
sys.path[:0] = [str(ROOT / "tools"), str(ROOT / "tests"), str(ROOT / "python")]

from as_module import loaded  # noqa: E402, F401


def peak(*words: object) -> tuple[str, int]:
    """What a command prints, and the most memory that it and what it starts take, in KiB: a process tells
    that takes little itself."""
    least = "import resource as r, subprocess as s, sys; s.run(sys.argv[1:], check=True);" \
        "print(r.getrusage(r.RUSAGE_CHILDREN).ru_maxrss, file=sys.stderr)"
    command = [sys.executable, "-c", least, *map(str, words)]
    ran = subprocess.run(command, capture_output=True, text=True, check=True, timeout=300)
    return ran.stdout, int(ran.stderr.splitlines()[-1])


class InAFolder(unittest.TestCase):
    """Tests that write files."""

    def setUp(self) -> None:
        folder = tempfile.TemporaryDirectory()
        self.addCleanup(folder.cleanup)
        self.folder = Path(folder.name)


def compare_pictures(
    case: unittest.TestCase, tool: Path, folder: Path, environment: dict[str, str] | None = None
) -> None:
    """That the pictures of a folder, and of those in it, are what a tool draws now, by the same matplotlib."""
    with tempfile.TemporaryDirectory() as made:
        ran = subprocess.run([tool, made], stderr=subprocess.PIPE, text=True, timeout=300, env=environment)
        if ran.returncode == 2 and "missing" in ran.stderr:
            print(f"skipped: {ran.stderr.strip()}")
            case.skipTest(ran.stderr)
        case.assertEqual((ran.returncode, ran.stderr), (0, ""))
        drawn, kept = ({str(path.relative_to(at)): path.read_text() for path in at.rglob("*.svg")}
                       for at in (Path(made), folder))
    case.assertLessEqual(set(drawn), set(kept))
    here, there = (set(re.findall(r"Matplotlib v[\d.]+", "".join(of.values()))) for of in (drawn, kept))
    if here != there:
        print(f"skipped: {folder.name} was drawn by {there}, and here is {here}")
        case.skipTest("another matplotlib")
    for name, picture in drawn.items():
        case.assertTrue(picture == kept[name], f"{name} is not what {tool.name} draws")
