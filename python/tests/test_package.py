"""The builder of the package."""
from __future__ import annotations

import base64
import hashlib
import os
import shutil
import subprocess
import sys
import tempfile
import unittest
import zipfile
from pathlib import Path

import irig
from irig import _library
from program import ROOT, printed

HOOK = "import backend, sys; print(backend.{}(sys.argv[1]))"
DEBIAN = "/usr/bin/python3"  # which has Debian's pandas, where it is installed


class Example(unittest.TestCase):
    def test_log_to_pandas(self) -> None:
        """Of ten seconds in darkness, edges 9 to 18, between eight voted ones."""
        if subprocess.run([DEBIAN, "-c", "import pandas"], capture_output=True).returncode:
            self.skipTest("skipped: python3-pandas is missing")
        with open(ROOT / "examples/dark_hour.log") as log:
            ran = subprocess.run(
                [DEBIAN, ROOT / "python/examples/log_to_pandas.py"], stdin=log, text=True,
                capture_output=True, env={"PYTHONPATH": str(ROOT / "python"), "PATH": os.environ["PATH"]},
            )
        self.assertRegex(ran.stdout, r"relay +held +10 +9 +18\n +voted +8 +5 +3616\npremises kept\n$")


class Package(unittest.TestCase):
    """Wheels, as `pip` asks for them."""

    def setUp(self) -> None:
        folder = tempfile.TemporaryDirectory()
        self.addCleanup(folder.cleanup)
        self.folder = Path(folder.name)

    def hook(self, name: str, folder: Path, root: Path = ROOT) -> subprocess.CompletedProcess[str]:
        words = [sys.executable, "-c", HOOK.format(name), str(folder)]
        return subprocess.run(words, cwd=root / "python", capture_output=True, text=True)

    def wheel(self, name: str) -> Path:
        ran = self.hook(name, self.folder)
        self.assertEqual(ran.returncode, 0, ran.stderr)
        return self.folder / ran.stdout.splitlines()[-1]

    def test_wheel(self) -> None:
        wheel = self.wheel("build_wheel")
        version = printed("--version").split()[1]
        self.assertEqual(irig.__version__, version)
        self.assertRegex(wheel.name, rf"^irig-{version}-py3-none-linux_\w+\.whl$")
        with zipfile.ZipFile(wheel) as opened:
            names = set(opened.namelist())
            about = f"irig-{version}.dist-info"
            sources = {path.name for path in (ROOT / "python/irig").glob("*.py")}
            others = {_library.IRIG, _library.SCENE, "py.typed", "layout.txt", "FAULTS.md"}
            self.assertLessEqual({f"irig/{name}" for name in sources | others}, names)
            self.assertIn(f"Version: {version}\n", opened.read(f"{about}/METADATA").decode())
            licences = {path.name for path in ROOT.glob("LICENSE-*")}
            self.assertLessEqual({f"{about}/{name}" for name in licences}, names)
            self.assertEqual(len(licences), 2)
            self.assertEqual(opened.read(f"{about}/THIRD_PARTY"), (ROOT / "c/out/THIRD_PARTY").read_bytes())
            self.assertIn(b"\nserde_json ", opened.read(f"{about}/THIRD_PARTY"))
            listed = opened.read(f"{about}/RECORD").decode().splitlines()
            self.assertEqual({line.split(",")[0] for line in listed}, names)
            for line in listed[:-1]:
                name, digest, size = line.split(",")
                data = opened.read(name)
                wanted = base64.urlsafe_b64decode(digest.partition("=")[2] + "=")
                self.assertEqual((hashlib.sha256(data).digest(), len(data)), (wanted, int(size)))

    def test_the_same_wheel_each_time(self) -> None:
        first = self.wheel("build_wheel").read_bytes()
        self.assertEqual(self.wheel("build_wheel").read_bytes(), first)

    def test_editable(self) -> None:
        with zipfile.ZipFile(self.wheel("build_editable")) as opened:
            self.assertEqual(opened.read("irig.pth").decode(), f"{ROOT / 'python'}\n")

    def test_a_folder_alone(self) -> None:
        ignored = shutil.ignore_patterns("__pycache__")
        shutil.copytree(ROOT / "python", self.folder / "python", ignore=ignored)
        ran = self.hook("build_wheel", self.folder, self.folder)
        self.assertEqual((ran.returncode, ran.stdout), (1, ""))
        self.assertRegex(ran.stderr, "is not in a checkout of irig")


if __name__ == "__main__":
    unittest.main()
