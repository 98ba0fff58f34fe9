#!/usr/bin/env python3
"""Tests of the command scenario.py: the examples that it was made for, and what it says of mistakes;
and of the help of all tools. python/tests tests what it builds scenarios by."""
import os
import subprocess
import sys
import unittest

from loading import ROOT


def example(name: str) -> str:
    return (ROOT / "examples" / name).read_text()


class Command(unittest.TestCase):
    """Words of the command line, and the examples that they make."""

    def printed(self, *words: str) -> str:
        command = [sys.executable, ROOT / "tools/scenario.py", *words]
        return subprocess.run(command, capture_output=True, text=True, check=True).stdout

    def test_examples(self) -> None:
        made = {
            "dark_hour": "--reader relay,5,10 seconds:8 dark:3600 seconds:8",
            "lost_vote": "--reader relay,3,60 seconds:1 lose:1:1,2 seconds:4 lose:1:1,2 seconds:2",
            "restart": "--reader relay,3,60 seconds:5 restart:relay seconds:5",
            "one_liar": "--start 2017-06-30T23:59:48Z seconds:4 fault:1:skew:5 seconds:4"
            " fault:1:false_pending:insert seconds:8",
            "ignored_leap": "--start 2016-12-31T23:59:50Z --leap 2016-12-31 fault:1:no_pending"
            " until:2016-12-31T23:59:60Z fault:1:skew:1 seconds:5",
            "gps_time": "--start 2016-12-31T23:59:50Z --leap 2016-12-31 fault:2:skew:18 seconds:14",
            "month_end_guard": "--start 2017-03-31T23:58:58Z seconds:3 dark:61 seconds:4",
        }
        for name, words in made.items():
            with self.subTest(name):
                self.assertEqual(self.printed(*words.split()), example(f"{name}.jsonl"))

    def test_what_is_wrong_is_one_line_with_the_word(self) -> None:
        kinds = "silent, stuck, skew, no_pending, false_pending, quality, wrong_offset"
        for word, reason in {
            "hours:1": "'hours' is none of seconds, until, dark, lose, fault, repair, restart",
            "dark:90:0,2": "'0,2' is none of 0, 1, 2",
            "dark": "a part is missing; see scenario.py --help",
            "restart:relay:0": "a part is too much; see scenario.py --help",
            "restart:rely": "'rely' is none of relay",
            "until:noon": "a part is missing; see scenario.py --help",
            "until:2016-06-15T11:00:00Z": "[^\n]+ is no second of the timeline [^\n]+",
            "seconds:9999999999999": "[^\n]+ seconds from [^\n]+ is not from 2000-01-02 to 2099-12-30",
            "seconds:-3": "'-3' is no whole number from 0 on",
            "lose:1:3": "'3' is none of 0, 1, 2",
            "lose:1:0:relay,rely": "'rely' is none of relay",
            "fault:1:skw:18": f"'skw' is none of {kinds}",
            "fault:1:skew": "skew takes a value",
            "fault:1:skew:x": "'x' is no whole number from 0 on",
            "fault:1:stuck:1": "stuck takes no value",
            "fault:1:quality:-1": "'-1' is no whole number from 0 on",
            "fault:1:false_pending:1": "'1' is none of insert, delete",
        }.items():
            with self.subTest(word):
                command = [sys.executable, ROOT / "tools/scenario.py", "seconds:1", word]
                ran = subprocess.run(command, capture_output=True, text=True)
                self.assertEqual((ran.returncode, ran.stdout), (2, ""))
                self.assertRegex(ran.stderr, rf"\Ascenario.py: {word}: {reason}\n\Z")

    def test_help_begins_with_an_example(self) -> None:
        first, example = self.printed("--help").split("\n\n")[:2]
        self.assertEqual(first, "for example:")
        # The plant, a line of seconds, three faults, seconds, three repairs, and seconds.
        made = self.printed(*example.split()[1:])
        self.assertEqual(len(made.splitlines()), 10)

    def test_help_of_all_tools_begins_with_an_example(self) -> None:
        for tool in ("capture", "gallery", "leaps", "plot", "study", "view", "wave"):
            with self.subTest(tool):
                words = [ROOT / "tools" / tool, "--help"]
                ran = subprocess.run(words, capture_output=True, text=True, check=True)
                first, example = ran.stdout.split("\n\n")[:2]
                self.assertEqual(first, "for example:")
                self.assertIn(f"tools/{tool} ", example)

    def test_an_output_that_takes_no_more(self) -> None:
        day = "scenario --lock-after=2 --holdover=10 --seed=7".split()
        for tool, words in (("scenario.py", ["seconds:1"]), ("scenario.py", ["lose:9999:0"]), ("study", day)):
            source, sink = os.pipe()
            os.close(source)
            with os.fdopen(sink) as closed, open("/dev/full", "w") as full:
                for out in (closed, full):
                    command = [ROOT / "tools" / tool, *words]
                    ran = subprocess.run(command, stdout=out, stderr=subprocess.PIPE, text=True)
                    self.assertEqual((ran.returncode, ran.stderr), (
                        2, f"{tool}: standard output took no more: is the disk full, or has its reader ended?\n"))

    def test_an_interrupt_prints_nothing(self) -> None:
        for code, said in (("raise KeyboardInterrupt", ""), ("raise SystemExit('tool: no')", "tool: no\n")):
            words = [sys.executable, "-c", f"import parts.command; {code}"]
            ran = subprocess.run(words, cwd=ROOT / "tools", capture_output=True, text=True)
            self.assertEqual(ran.stderr, said)
            self.assertNotEqual(ran.returncode, 0)


if __name__ == "__main__":
    unittest.main()
