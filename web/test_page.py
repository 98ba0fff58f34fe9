#!/usr/bin/env python3
"""Drives the page as a person would, in Chromium: `test_page.py PAGE`."""
from __future__ import annotations

import base64
import json
import subprocess
import sys
import tempfile
import time
import unittest
from pathlib import Path

WEB = Path(__file__).resolve().parent
sys.path.insert(0, str(WEB.parent / "tools/tests"))

import browser  # noqa: E402
from loading import ROOT  # noqa: E402
from case_files import Case, cases, examples  # noqa: E402
from parts.log_lanes import STATES  # noqa: E402

PAGE = WEB / "out/irig.html"
PATIENCE = 60.0

PLANT = {
    "version": 1, "start": "2016-12-31T23:00:00Z", "leaps": [{"day": "2016-12-31", "kind": "insert"}],
    "parity": "even", "sense": "add", "sbs": "check", "generators": [{"local": 0}] * 3,
    "readers": [{"name": "relay", "lock_after": 2, "holdover": 3600}],
}

SIXTEEN = [{"name": f"r{number}", "lock_after": 2, "holdover": 9} for number in range(16)]


def plant(*lines: dict, **changed: object) -> str:
    return "".join(f"{json.dumps(line, separators=(',', ':'))}\n" for line in ({**PLANT, **changed}, *lines))


def files_of(case: Case) -> dict[str, str]:
    """What the case of a recording reads, by its name: of a record its samples too."""
    named = [ROOT / word for word in case.texts() if (ROOT / word).is_file()]
    found = [path for name in named for path in name.parent.glob(f"{name.stem}.*")]
    return {str(path.relative_to(ROOT)): base64.b64encode(path.read_bytes()).decode() for path in found}


# Its heap gives a place, and its run does nothing but trap.
TRAP = """(module (import "env" "memory" (memory 1))
  (func (export "heap_give") (param i64) (result i64) (i64.const 1024))
  (func (export "irig_scene_c_run_entries") (param i64 i64 i64 i64 i64 i64 i64 i64 i64) (result i32) (unreachable)))"""


def trap_module() -> bytes:
    with tempfile.TemporaryDirectory() as folder:
        source, made = Path(folder, "trap.wat"), Path(folder, "trap.wasm")
        source.write_text(TRAP)
        subprocess.run(["wasm-as", source, "-o", made], check=True)
        return made.read_bytes()


class InBrowser(browser.Driven):
    """What the page does."""

    height = 900
    timeline = "tab.timeline"

    def setUp(self) -> None:
        self.page.scheme("light")
        self.open()
        self.push("ports")  # off: what follows counts lines of entries

    # ---- what a person does

    def open(self) -> None:
        self.page.open(PAGE)
        self.page.ask("ready.then(() => 0)")
        self.end_of_run()

    def value(self, name: str) -> str:
        return str(self.part(name, "value"))

    def paste(self, name: str, text: str) -> None:
        """In place of what stands there."""
        self.page.ask(f"(() => {{ part('{name}').focus(); part('{name}').select(); }})()")
        self.page.call("Input.insertText", text=text)
        self.page.settle()

    def wait(self, expression: str, patience: float = PATIENCE) -> None:
        end = time.monotonic() + patience
        while not self.page.ask(expression):
            if time.monotonic() > end:
                self.fail(f"{expression}: {self.text('state')}")
            time.sleep(0.02)
        self.page.settle()

    def end_of_run(self) -> str:
        self.wait("!part('run').disabled")
        return self.text("state")

    def run_text(self, text: str) -> str:
        self.set("text", text)
        self.push("run")
        return self.end_of_run()

    def run_example(self, name: str) -> None:
        self.set("example", name)
        self.push("run")
        self.end_of_run()

    def log(self) -> str:
        return str(self.page.ask("new TextDecoder().decode(tab.log.lines.bytes)"))

    # ---- running

    def test_each_example(self) -> None:
        names = self.page.ask("[...part('example').options].map((it) => it.value).filter((it) => it)")
        cases = {Path(case.name).stem: case for case in examples()}
        self.assertEqual(set(names), set(cases))
        for name in names:
            with self.subTest(name):
                self.set("example", name)
                for option in ("all", "ports"):
                    if self.page.ask(f"part('{option}').checked") != (f"--{option}" in cases[name].texts()):
                        self.push(option)
                self.assertEqual(self.value("text"), (ROOT / cases[name].name).read_text())
                self.assertIn("Look at", self.text("look"))
                self.push("run")
                self.assertTrue(self.end_of_run().startswith("done: "))
                log = cases[name].stdout.decode()
                self.assertEqual(self.log(), log)
                self.assertIn(log.splitlines()[-1], self.text("verdict"))

    def test_keys_lead_everywhere(self) -> None:
        self.run_example("two_liars")
        self.page.ask("part('tab-run').focus()")
        reached = []
        for _ in range(40):
            for kind in ("keyDown", "keyUp"):
                self.page.call("Input.dispatchKeyEvent", type=kind, key="Tab", windowsVirtualKeyCode=9)
            reached.append(self.page.ask("document.activeElement.id"))
        self.assertLessEqual(
            {"example", "all", "ports", "most", "run", "to-verdict", "cause", "reader", "previous", "next",
             "edge", "in", "out", "whole", "canvas", "file", "link", "text", "search", "search-next", "save",
             "log"},
            set(reached),
        )

    def test_keys_alone(self) -> None:
        self.set("example", "two_liars")
        self.page.ask("part('text').focus()")
        for kind in ("keyDown", "keyUp"):
            self.page.call("Input.dispatchKeyEvent", type=kind, key="Enter", modifiers=2)
        self.assertTrue(self.end_of_run().startswith("done: "))
        self.assertIn("premises broken: edge 5 reader relay", self.text("verdict"))
        self.push("to-verdict")
        self.assertTrue(self.text("line").startswith("5 relay - unlocked jump"))

    def test_a_pasted_scenario(self) -> None:
        self.paste("text", plant({"do": "seconds", "n": 3603}))
        self.assertEqual((self.value("example"), self.text("size")), ("", "2 lines"))
        self.push("run")
        self.assertTrue(self.end_of_run().startswith("done: 3,604 lines of log in "))
        self.assertIn("premises kept", self.text("verdict"))
        self.assertIn("3600 relay 2016-12-31T23:59:60Z locked voted", self.log())
        self.paste("text", plant({"do": "seconds", "n": 3}))
        self.assertFalse(self.page.ask("part('stale').hidden"))

    def test_a_refused_line(self) -> None:
        state = self.run_text(plant({"do": "seconds", "n": 5}, {"do": "tick", "r": "rely"}))
        self.assertTrue(state.startswith("a line is refused: 6 lines"), state)
        self.assertIn("refused: line 3: 19 NoSuchReader", self.text("verdict"))
        told = self.text("explanation")
        self.assertTrue(
            told.startswith('Line 3 is refused, 19 NoSuchReader: "r" is "rely"; "relay" may stand here\n'), told
        )
        self.assertEqual(self.page.ask("part('text').getAttribute('aria-invalid')"), "true")
        self.assertFalse(self.page.ask("part('band').hidden"))
        self.push("to-verdict")
        chosen = "(({ value, selectionStart, selectionEnd }) => value.slice(selectionStart, selectionEnd))"
        self.assertEqual(self.page.ask(f"{chosen}(part('text'))"), '{"do":"tick","r":"rely"}')
        self.paste("text", plant({"do": "seconds", "n": 5}))
        self.assertEqual((self.text("explanation"), self.page.ask("part('band').hidden")), ("", True))

    # ---- recordings

    def open_recordings(self, *paths: Path) -> str:
        self.page.ask("show_tab('judge')")
        root = self.page.call("DOM.getDocument")["root"]["nodeId"]
        node = self.page.call("DOM.querySelector", nodeId=root, selector="#recording")["nodeId"]
        self.page.ask("(() => { part('recording-state').textContent = ''; })()")
        self.page.call("DOM.setFileInputFiles", nodeId=node, files=[str(path) for path in paths])
        self.wait("part('recording-state').textContent && part('recording-stop').disabled")
        return self.text("recording-state")

    def test_a_recording(self) -> None:
        state = self.open_recordings(ROOT / "examples/one_clock_ahead.vcd")
        self.assertRegex(state, r"^judged, in \d+\.\d\d s$")
        self.assertEqual(self.text("judged"), (ROOT / "cases/judge_one_clock_ahead/stdout").read_text())
        self.paste("channels", "G0,G9,G2")
        self.push("recording-judge")
        self.wait("part('recording-state').textContent.startsWith('refused')")
        self.assertIn("it has no wire G9; it has G0, G1, G2", self.text("judged"))

    def test_samples_alone(self) -> None:
        self.assertIn("open the .cfg of the record together", self.open_recordings(ROOT / "examples/late_stamp.dat"))

    def test_each_case_of_a_recording(self) -> None:
        """As the program says it."""
        judged = [(case, files) for case in cases() if case.words[:1] == [b"judge"] and (files := files_of(case))]
        self.assertGreater(len(judged), 20)
        for case, files in judged:
            with self.subTest(case.name):
                coded = f"Object.entries({json.dumps(files)}).map(([name, it]) => [name, new Blob([bytes_in(it)])])"
                words = json.dumps(["irig", *case.texts()])
                said = self.page.ask(f"recording_tab.ended({words}, new Map({coded}))")
                assert isinstance(said, dict)
                self.assertEqual((said["status"], said["output"]), (case.status, case.stdout.decode()))
                self.assertTrue(case.tells(said["told"].encode()), said["told"])

    def test_the_first_example_is_run_on_opening(self) -> None:
        self.open()
        self.assertEqual(self.value("example"), "leap_inserted")
        self.assertTrue(self.page.ask("part('ports').checked"))
        self.assertTrue(self.text("state").startswith("done: "))
        self.assertIn("premises kept", self.text("verdict"))
        self.assertIn("\n 10 relay ok ok ok\n", self.log())

    def test_the_plant_line_by_its_keys(self) -> None:
        self.paste("text", plant(generators=[{"local": 0}, {"local": 11}, {"local": -10}]))
        told = self.page.ask("[...part('plant').children].map((cell) => cell.textContent)")
        by_key = dict(zip(told[::2], told[1::2]))
        self.assertEqual(by_key["generators"], "local 0local 11local -10")
        self.assertEqual(by_key["leaps"], "day 2016-12-31, kind insert")
        self.assertEqual(by_key["readers"], "name relay, lock_after 2, holdover 3600")
        self.paste("text", "no plant")
        self.assertTrue(self.page.ask("part('plant').hidden"))

    def test_what_ports_told(self) -> None:
        self.push("ports")
        state = self.run_text((ROOT / "examples/one_liar.jsonl").read_text())
        self.assertTrue(state.startswith("done: "), state)
        lines = [line for line in self.log().splitlines() if line.startswith(" ")]
        self.assertTrue(any(line.count(" ok") == 2 and line.count("Z") == 1 for line in lines), lines[:3])

    def test_utc_and_offsets(self) -> None:
        """Edge 11 is the second after 23:59:60, which one clock told as the next one."""
        self.push("ports")
        self.run_example("ignored_leap")
        self.page.click(*self.on_edge(11, 0))
        self.assertIn("ports told: ok 2017-01-01T00:00:00Z (1 s ahead) ok", self.text("line"))
        self.assertIn("2016-12-31T23:59:51Z to 2017-01-01T00:00:04Z", self.text("range"))
        self.run_example("misled_by_table")
        self.press("canvas", "End")
        self.assertIn("60 relay 2000-02-01T00:00:00Z (1 s ahead) holdover:59 held", self.text("line"))
        self.assertIn("edge 60 is 2000-01-31T23:59:60Z", self.text("line"))

    def test_a_refused_plant_after_a_run(self) -> None:
        right = plant({"do": "seconds", "n": 10})
        self.run_text(right)
        told = "edges 1 to 10 of 1 to 10, 2016-12-31T23:00:01Z to 2016-12-31T23:00:10Z"
        self.assertEqual(self.text("range"), told)
        self.run_text(plant(readers=[{"name": "relay", "lock_after": 0, "holdover": 9}]))
        self.assertIn("refused: line 1: 26 Value", self.text("verdict"))
        self.assertFalse(self.page.ask("part('range').checkVisibility()"))
        self.run_text(right)
        self.assertTrue(self.page.ask("part('range').checkVisibility()"))

    def test_no_scenario(self) -> None:
        self.assertTrue(self.run_text("").startswith("a line is refused"))
        self.assertIn("29 NoPlant", self.text("verdict"))
        self.assertTrue(self.run_text("no scenario\n").startswith("a line is refused"))
        self.assertIn("24 Json", self.text("explanation"))
        self.assertTrue(self.page.ask("part('drawing').hidden"))

    def test_a_long_run_is_stopped(self) -> None:
        self.set("text", plant(*[{"do": "seconds", "n": 100_000}] * 2, readers=SIXTEEN))
        self.push("run")
        self.wait("tab.progress !== null && part('progress').hasAttribute('value')")
        self.wait("part('pace').textContent.includes(' ticks')")
        self.push("stop")
        self.assertTrue(self.text("state").startswith("stopped after "), self.text("state"))
        self.assertEqual(self.page.ask("[part('stop').disabled, tab.runner.worker]"), [True, None])
        self.assertTrue(self.run_text(plant({"do": "seconds", "n": 3})).startswith("done: 4 lines"))

    def test_memory_runs_out(self) -> None:
        self.set("most", "64")
        state = self.run_text(plant({"do": "seconds", "n": 100_000}, readers=SIXTEEN))
        self.assertTrue(state.startswith("no memory for the run: "), state)
        self.assertIn("memory ran out", self.text("verdict"))
        self.assertTrue(self.run_text(plant({"do": "seconds", "n": 3})).startswith("done: 4 lines"))

    def test_a_trap(self) -> None:
        module = base64.b64encode(trap_module()).decode()
        self.page.ask(f"(() => {{ tab.runner.module = WebAssembly.compile(bytes_in('{module}')); }})()")
        state = self.run_text(plant({"do": "seconds", "n": 3}))
        self.assertTrue(state.startswith("the module stopped itself: unreachable"), state)
        self.page.ask("(() => { tab.runner.module = modules.runner; })()")
        self.assertTrue(self.run_text(plant({"do": "seconds", "n": 3})).startswith("done: 4 lines"))

    def test_the_heap(self) -> None:
        script = (WEB / "test_heap.js").read_text()
        size = self.page.ask(f"modules.runner.then((module) => {{ {script} return test_heap(module); }})")
        self.assertGreater(size, 1 << 20)

    def test_a_worker_that_ends(self) -> None:
        self.page.ask(
            "(() => { tab.runner.right = tab.runner.source;"
            " tab.runner.source = URL.createObjectURL(new Blob(['throw new Error(\"worn\")'])); })()"
        )
        state = self.run_text(plant({"do": "seconds", "n": 3}))
        self.assertTrue(state.startswith("the run could not end: ") and "worn" in state, state)
        self.page.errors.clear()
        self.page.ask("(() => { tab.runner.source = tab.runner.right; })()")
        self.assertTrue(self.run_text(plant({"do": "seconds", "n": 3})).startswith("done: 4 lines"))

    # ---- what a run shows

    def test_the_timeline(self) -> None:
        self.run_example("dark_hour")
        self.press("canvas", "End")
        self.assertTrue(self.text("line").startswith("3616 relay 2016-06-15T13:00:16Z locked voted"))
        self.assertIn('scenario line 10: {"do":"seconds","n":8}', self.text("line"))
        self.press("canvas", "Home", "+", "+")
        told = "edges 1 to 904 of 1 to 3616, 2016-06-15T12:00:01Z to 2016-06-15T12:15:04Z"
        self.assertEqual(self.text("range"), told)
        self.press("canvas", "0")
        self.set("cause", "expired")
        self.push("next")
        self.assertTrue(self.text("line").startswith("19 relay - unlocked expired\nthere was no vote for more than"))
        chosen = "document.querySelector('#log [aria-selected=true]').dataset.number"
        self.assertEqual(self.page.ask(chosen), "18")
        self.page.mouse("mouseMoved", *self.on_edge(2000, 0))
        self.assertTrue(self.text("hover").startswith("2000 relay - unlocked no-vote\nthere was no vote"))
        self.page.mouse("mouseWheel", *self.on_edge(3616, 0), deltaX=0, deltaY=-900)
        self.page.settle()
        self.assertIn("to 3616 of", self.text("range"))

    def test_silences_without_lines(self) -> None:
        """They are drawn, and found, as the reader stood."""
        self.push("all")
        self.run_example("dark_hour")
        self.page.click(*self.on_edge(2000, 0))
        self.assertTrue(self.text("line").startswith("2000 relay: not announced, no line in this log\n"))
        self.assertIn(STATES["unlocked"].colour[1:].lower(), self.colours_on_edge(2000, 0))
        self.set("cause", "expired")
        self.push("next")
        self.assertTrue(self.text("line").startswith("19 relay: not announced, no line in this log\n"))

    def test_marks_and_colours(self) -> None:
        self.run_example("leap_inserted")
        self.assertEqual(
            self.page.ask("tab.timeline.lanes.map((lane) => lane.marks)"),
            [[[10, "leap second"], [10.5, "month end"]]] * 2,
        )
        self.assertIn("23:59:60 inserted", self.text("legend"))
        self.page.click(*self.on_edge(10, 0))
        self.assertTrue(self.text("line").startswith("10 relay 2016-12-31T23:59:60Z locked voted"))
        for edge, state in ((5, "locked"), (1, "acquiring")):
            self.assertIn(STATES[state].colour[1:].lower(), self.colours_on_edge(edge, 1))

    def test_a_scenario_that_is_too_long_to_edit(self) -> None:
        text = plant(*[{"do": "seconds", "n": 1}] * 20_000, {"do": "tick", "r": "rely"})
        self.page.ask(
            f"(() => {{ const held = new DataTransfer(); held.setData('text/plain', {json.dumps(text)});"
            " part('text').select(); part('text').dispatchEvent(new ClipboardEvent('paste',"
            " { clipboardData: held, bubbles: true, cancelable: true })); })()"
        )
        self.assertEqual(self.text("size"), "20,002 lines, not to be edited here")
        self.assertEqual(self.page.ask("tab.editor.text"), text)
        self.push("run")
        self.assertTrue(self.end_of_run().startswith("a line is refused: 20,001 lines"))
        self.push("to-verdict")
        marked = "document.querySelector('#held .found').textContent"
        self.assertEqual(self.page.ask(marked), '{"do":"tick","r":"rely"}')
        self.set("example", "restart")
        self.assertEqual(self.value("text"), (ROOT / "examples/restart.jsonl").read_text())
        self.assertEqual(self.page.ask("part('held').hidden"), True)

    def drop(self, content: bytes) -> None:
        """Drops a file on the page, and waits until it was read."""
        octets = list(content)
        self.page.ask(
            f"(() => {{ const dataTransfer = new DataTransfer(), bytes = new Uint8Array({octets});"
            " dataTransfer.items.add(new File([bytes], 'plant.jsonl'));"
            " part('editor').dispatchEvent(new DragEvent('drop', { dataTransfer, bubbles: true })); })()"
        )
        self.page.ask("new Promise((done) => setTimeout(done, 100))")

    def test_files(self) -> None:
        text = plant({"do": "seconds", "n": 2})
        for content, size in (
            (text.encode(), "2 lines"),
            (text.replace("\n", "\r\n").encode(), "2 lines"),
            (text.replace("\n", "\r", 1).encode(), "1 line, not to be edited here"),
            ("\ufeff".encode() + text.encode(), "2 lines"),
        ):
            with self.subTest(content):
                self.drop(content)
                self.assertEqual(self.text("size"), size)
                self.push("run")
                is_right = content[0] == ord("{") and b"\r{" not in content
                self.assertTrue(self.end_of_run().startswith("done: " if is_right else "a line is refused"))
        self.drop(b'{"version":1}\n\xff\n')
        self.assertIn("plant.jsonl can't be read as text in UTF-8", self.text("state"))

    def test_search(self) -> None:
        self.run_example("leap_inserted")
        self.paste("search", "23:59:60")
        self.assertEqual(self.text("searched"), "2 lines")
        self.press("search", "Enter")
        self.assertTrue(self.text("line").startswith("10 relay 2016-12-31T23:59:60Z"))
        self.push("search-next")
        self.assertTrue(self.text("line").startswith("10 recorder 2016-12-31T23:59:60Z"))
        self.assertEqual(self.text("searched"), "2 of 2")
        self.press("log", "End")
        self.press("log", "ArrowUp")
        self.assertTrue(self.text("line").startswith("14 recorder"))

    def test_long_logs(self) -> None:
        """A reader that is silent at each other edge, and sixteen that are locked."""
        flickers = [
            {"do": "seconds", "n": 1}, {"do": "tick", "r": "relay"},
            *({"do": "step", "g": g} for g in range(3)),
        ]
        one = [{"name": "relay", "lock_after": 1, "holdover": 0}]
        for text, lines in (
            (plant(*flickers * 50_000, readers=one), 100_001),
            (plant({"do": "seconds", "n": 17_300}, readers=SIXTEEN), 276_801),
        ):
            self.page.ask(f"tab.set_text({json.dumps(text)})")
            self.push("run")
            state = self.end_of_run()
            with self.subTest(state):
                self.assertTrue(state.startswith(f"done: {lines:,} lines"), state)
                self.check_smoothness(lines)
                self.press("log", "End")
                self.assertEqual(self.page.ask("tab.log.chosen"), lines - 1)
                self.assertTrue(self.page.ask("document.querySelector('#log [aria-selected=true]') !== null"))

    def check_smoothness(self, lines: int) -> None:
        options = "document.querySelectorAll('#log [role=option]').length"
        self.assertLess(self.page.ask(options), 200)
        for name, most, what in (
            ("drawing the timeline", 50, "tab.timeline.draw()"),
            ("showing a line", 50, "tab.log.show(tab.log.lines.length >> 1)"),
            ("choosing an edge", 50, "tab.timeline.choose(tab.timeline.lanes[0], 9); tab.timeline.draw()"),
            ("a search", 250, "tab.log.lines.lines_with('00:59:59')"),
        ):
            spent = min(self.time_of(what) for _ in range(5))
            print(f"{lines:,} lines: {name} takes {spent:.1f} ms")
            self.assertLess(spent, most, f"milliseconds for {name}")

    def time_of(self, what: str) -> float:
        timed = f"(() => {{ const t = performance.now(); {what}; return performance.now() - t; }})()"
        return float(str(self.page.ask(timed)))

    # ---- frames

    def test_a_frame(self) -> None:
        self.push("tab-frame")
        self.paste("time", "2016-12-31T23:59:60Z")
        self.set("pending", "")
        self.set("zone", "2")
        self.assertEqual(
            self.value("frame-text"),
            "P00000011P 100101010P 000000000P 100000000P 000000000P"
            " 111001000P 000011000P 000001000P 000010000P 111000000P",
        )
        fields = self.text("frame-fields")
        for told in ("second1 to 4, 6 to 860", "offset64 to 68, 70-2 half hours", "parity75even"):
            self.assertIn(told, fields)
        titles = "[...document.querySelectorAll('#frame-elements td')].map((it) => it.title)"
        elements = self.page.ask(titles)
        self.assertEqual(len(elements), 100)
        self.assertEqual(elements[7], "element 7: second, weight 20; a one")
        self.assertEqual(elements[0], "element 0: the marker PR; a marker")
        self.paste("time", "2016-12-30T23:59:60Z")
        self.assertIn("is no UTC second", self.text("frame-state"))
        self.assertEqual(self.page.ask("part('time').getAttribute('aria-invalid')"), "true")

    def test_reading(self) -> None:
        self.push("tab-frame")
        self.push("to-read")
        self.assertEqual(
            self.text("reading"),
            "coded 2016-366 23:59:59 control 16385 sbs 86399\nclaim 2016-12-31T23:59:59Z insert",
        )
        self.assertEqual(self.text("faults"), "")
        text = self.value("read-text").replace(" ", "")
        self.paste("read-text", text[:3] + "?" + text[4:49] + "0" + text[50:99] + "1")
        self.assertEqual(self.text("reading"), "fault 3 Pulse 3")
        wrong = "[...document.querySelectorAll('#read-elements .wrong')].map((it) => it.title)"
        self.assertEqual(
            self.page.ask(wrong),
            [
                "element 3: second, weight 4; a bad pulse; fault 3 Pulse 3",
                "element 49: the marker P5; a zero; fault 4 Marker 49",
                "element 99: the marker P0; a one; fault 4 Marker 99",
            ],
        )
        self.assertIn("measure the pulses of that element", self.text("faults"))
        self.paste("read-text", "P 01x")
        self.assertIn("letter 5, x, stands for no symbol", self.text("reading"))
        self.paste("read-text", "")
        self.assertEqual(self.text("reading"), "silence")

    def test_faults_of_fields(self) -> None:
        self.push("tab-read")
        text = self.value("read-text").replace(" ", "")
        self.paste("read-text", text[:10] + "1111" + text[14:20] + "0011" + text[24:])
        self.assertEqual(self.text("reading"), "fault 5 Digit minute")
        self.assertIn("fault 5 Digit hour", self.text("faults"))
        self.paste("read-text", text[:75] + ("0" if text[75] == "1" else "1") + text[76:])
        self.assertIn("fault 17 Parity", self.text("faults"))

    # ---- links, looks and the policy

    def test_a_link(self) -> None:
        text = plant({"do": "seconds", "n": 7}) + '{"x":"\u00e9 </script>"}\n'
        self.set("text", text)
        self.push("link")
        self.wait("part('link-text').value.includes('#scenario=')")
        link = self.value("link-text")
        for url in ("about:blank", link):
            self.page.call("Page.navigate", url=url)
        self.wait("typeof ready !== 'undefined' && ready.then(() => 1)")
        self.assertEqual(self.value("text"), text)
        self.assertEqual(self.text("state"), "")
        self.page.ask(f"(() => {{ location.hash = {json.dumps(link.split('#')[1][:-9])}; }})()")
        self.wait("part('state').textContent !== ''")
        self.assertIn("the link is damaged", self.text("state"))

    def test_tabs_by_keys(self) -> None:
        self.press("tab-run", "ArrowRight")
        hidden = self.page.ask("[part('panel-run').hidden, part('panel-judge').hidden]")
        self.assertEqual(hidden, [True, False])
        self.assertEqual(self.page.ask("document.activeElement.id"), "tab-judge")
        self.page.press("End")
        self.assertRegex(self.text("panel-about"), r"an extra, and outside the\s+theorem")
        self.assertRegex(self.text("notices"), r"(?s)serde_json \d.*Permission is hereby granted")

    def test_each_control_has_a_name(self) -> None:
        roles = {"button", "textbox", "searchbox", "combobox", "checkbox", "tab", "listbox", "application"}
        self.run_example("leap_inserted")
        for tab in ("run", "judge", "frame", "read", "about"):
            self.push(f"tab-{tab}")
            nodes = self.page.call("Accessibility.getFullAXTree")["nodes"]
            seen = [node for node in nodes if not node["ignored"]]
            found = [node for node in seen if node.get("role", {}).get("value") in roles]
            nameless = [node for node in found if not node.get("name", {}).get("value")]
            self.assertGreater(len(found), 3)
            self.assertEqual(nameless, [])

    def test_contrast_in_dark_and_light(self) -> None:
        grounds = []
        for scheme in ("light", "dark"):
            self.page.scheme(scheme)
            colours = self.page.ask(
                "['paper', 'panel', 'text', 'faint', 'chosen', 'wrong-ground', 'time', 'control', 'binary']"
                ".map((name) => getComputedStyle(document.documentElement).getPropertyValue(`--${name}`))"
                ".map((colour) => colour.trim())"
            )
            paper, panel, text, faint, *tinted = [luminance(colour) for colour in colours]
            for ground in (paper, panel, *tinted):
                self.assertGreater(contrast(text, ground), 7)
            for ground in (paper, panel):
                self.assertGreater(contrast(faint, ground), 4.5)
            grounds.append(self.page.ask("getComputedStyle(document.body).backgroundColor"))
            self.run_example("one_liar")
        self.assertEqual(grounds, ["rgb(255, 255, 255)", "rgb(22, 22, 22)"])

    def test_the_policy(self) -> None:
        text = PAGE.read_text()
        self.assertIn("connect-src 'none'", self.check_policy(text))
        self.assertNotRegex(text, r"(src|href)=")

    def test_no_network(self) -> None:
        with browser.listening() as (url, asked):
            fetched = f"fetch('{url}/page', {{ mode: 'no-cors' }}).then(() => 1, () => 0)"
            self.assertEqual(self.page.ask(fetched), 0)
            self.page.ask(f"(() => {{ new Image().src = '{url}/image'; }})()")
            code = fetched.replace("/page", "/worker") + ".then(postMessage)"
            in_worker = (
                f"new Promise((told) => {{ const code = URL.createObjectURL(new Blob([{json.dumps(code)}]));"
                " new Worker(code).onmessage = (event) => told(event.data); })"
            )
            self.assertEqual(self.page.ask(in_worker), 0)
            self.page.settle()
            self.assertEqual(asked, [])
            self.page.errors.clear()


def luminance(colour: str) -> float:
    parts = [int(colour[place:place + 2], 16) / 255 for place in (1, 3, 5)]
    linear = [part / 12.92 if part <= 0.04045 else ((part + 0.055) / 1.055) ** 2.4 for part in parts]
    return 0.2126 * linear[0] + 0.7152 * linear[1] + 0.0722 * linear[2]


def contrast(one: float, other: float) -> float:
    return (max(one, other) + 0.05) / (min(one, other) + 0.05)


if __name__ == "__main__":
    PAGE = Path(sys.argv.pop(1)).resolve()
    unittest.main()
