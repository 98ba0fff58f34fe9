#!/usr/bin/env python3
"""Tests of tests/cases: what it takes for a pass, and what not."""
from __future__ import annotations

import subprocess
import sys
import tempfile
import unittest
from dataclasses import replace
from pathlib import Path

from as_module import loaded
from case_files import NOTHING, ROOT, Case, all_cases, of_readers, over_whole_ports, standard_error

# Of /bin/echo, which prints its words.
ECHO = Case("cases/echo", [b"a", b"\xff"], NOTHING, 0, b"a \xff\n")


class Cases(unittest.TestCase):
    def test_standard_error(self) -> None:
        for wanted, told, is_right in (
            (b"", b"", True), (b"", b"\n", False), (b"a\n", b"a\n", True), (b"a\n", b"a", False),
            (b"a\n", b"a\nb\n", False), (b"a: ..\n", b"a: b\n", True), (b"a: ..\n", b"a: b\nc\n", True),
            (b"a: ..\n", b"a: \n", False), (b"a: ..\n", b"a\n", False), (b"a: ..\n", b"ba: b\n", False),
        ):
            with self.subTest(wanted=wanted, told=told):
                self.assertEqual(replace(ECHO, stderr=wanted).tells(told), is_right)

    def test_a_refusal_stands_for_its_reason(self) -> None:
        with tempfile.TemporaryDirectory() as name:
            folder, log = Path(name), b"1 relay - unlocked no-vote\nrefused: line 2: 25 Shape\n"
            self.assertEqual(standard_error(folder, 3, log), b"line 2: 25 Shape: ..\n")
            self.assertEqual(standard_error(folder, 0, log), b"")
            self.assertEqual(standard_error(folder, 3, b"premises kept\n"), b"")
            (folder / "stderr").write_bytes(b"a text\n")
            self.assertEqual(standard_error(folder, 3, log), b"a text\n")

    def test_what_is_wrong(self) -> None:
        wrong_in = loaded(ROOT / "tests/cases").wrong_in
        self.assertEqual(wrong_in(ECHO, "/bin/echo"), [])
        for what in ({"status": 1}, {"stdout": b"a \xff"}, {"stdout": b""}, {"stderr": b"a\n"}):
            with self.subTest(what):
                self.assertTrue(wrong_in(replace(ECHO, **what), "/bin/echo"))

    def test_none_of_this_name(self) -> None:
        words = [sys.executable, ROOT / "tests/cases", "--proved", "no case has this name"]
        ran = subprocess.run(words, capture_output=True, text=True)
        self.assertEqual((ran.returncode, ran.stdout.splitlines()[-1:]), (1, ["0 passed, 0 failed"]))

    def test_each_scenario_is_run_over_whole_ports(self) -> None:
        """But for those of cases with other options, or of other commands or devices, which
        test_whole_port does not know."""
        for case in of_readers(all_cases()):
            is_run = case.scenario and case.words[:1] == [b"run"]
            is_known = is_run and case.words[2:] in ([], [b"--all"])
            if is_known or case.name.startswith("examples/"):
                with self.subTest(case.name):
                    whole = over_whole_ports(case)
                    self.assertEqual((whole.stdout, whole.status), (case.stdout, case.status))
                    self.assertEqual(whole.words, case.words[2:])


if __name__ == "__main__":
    unittest.main()
