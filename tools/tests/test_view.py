#!/usr/bin/env python3
"""Tests of view: what its page has in it, which line of a scenario made which edge, what it says of wrong
words; and, if there is a Chromium, what the page does when keys are pressed and the mouse is moved."""
import io
import json
import re
import subprocess
import sys
import tempfile
import unittest
from contextlib import redirect_stderr
from pathlib import Path
from unittest import mock

import browser
from loading import ROOT, InAFolder, loaded
from parts.log_lanes import PORT_STATES, STATES, drawn, run_of

from irig.scenarios import Leap, Lost, Reader, Replay, Scenario

VIEW = ROOT / "tools/view"
START = "2016-12-31T23:59:50Z"  # edge 10 is the leap second
LEAPS = [Leap("2016-12-31")]


def scenario() -> str:
    """Two readers over twelve edges, of which one is locked after two votes: a jump, two edges without a majority."""
    plant = Scenario(START, [Reader("relay"), Reader("meter", 60)], leaps=LEAPS)
    plant.seconds(2)
    plant.fault(0, "skew", by=3600)
    plant.fault(1, "skew", by=3600)
    plant.seconds(1)
    plant.repair(0)
    plant.repair(1)
    plant.seconds(3)
    plant.dark(2, [0, 1])
    return plant.text() + '\n{"do":"seconds","n":4}\n'


SCENARIO = scenario()
REFUSED = SCENARIO + '{"do":"tick","r":"</script><b>&amp;"}\n'


def run(folder: Path, scenario: str, *options: object):
    """Makes a page in a folder; what the tool says, and the page."""
    (folder / "plant.jsonl").write_text(scenario)
    page = folder / "page.html"
    words = [VIEW, f"{folder}/plant.jsonl", "-o", page, *options]
    return subprocess.run(words, capture_output=True, text=True, timeout=120), page


def data_in(page: Path) -> dict:
    text = page.read_text()
    return json.loads(re.search(r'<script type="application/json" id="data">(.*?)</script>', text)[1])


class Page(InAFolder):
    """What stands in a page, without a browser."""

    def made(self, scenario: str) -> Path:
        ran, page = run(self.folder, scenario)
        self.assertEqual((ran.returncode, ran.stdout, ran.stderr), (0, "", ""))
        return page

    def test_data(self) -> None:
        """Twelve edges of two readers, two lines each: as the lines ask for them, 2, 1, 3, 2 and 4."""
        data = data_in(self.made(SCENARIO))
        self.assertEqual("\n".join(data["scenario"]) + "\n", SCENARIO)
        made = {lane["reader"]: (lane["ends"], lane["makers"]) for lane in data["drawn"]["lanes"]}
        self.assertEqual(made, dict.fromkeys(("relay", "meter"), ([2, 3, 6, 8, 12], [1, 4, 7, 10, 14])))
        relay, meter = data["drawn"]["lanes"]
        self.assertEqual((relay["lines"], relay["told_lines"]), ([*range(0, 48, 4)], [*range(1, 48, 4)]))
        self.assertEqual((meter["lines"], meter["edges"]), ([*range(2, 48, 4)], [*range(1, 13)]))
        self.assertEqual(data["log"][46], "12 meter - acquiring:4 acquiring")
        self.assertEqual(data["log"][48:], ["premises broken: edge 3 reader relay"])

    def test_numbers(self) -> None:
        """From 23:59:50 on, day 6209, the first of three clocks is an hour ahead at edge 3."""
        found = data_in(self.made(SCENARIO))["drawn"]
        relay, first = found["lanes"][0], {"edges": [3, 3], "ports": [0, 1], "days": [6210] * 2, "sods": [3591] * 2}
        self.assertEqual((relay["lies"], relay["days"][:4]), (first, [0, 6209, 0, 0]))
        self.assertEqual(relay["sods"][8:], [86_399, 86_400, 0, 1])
        self.assertEqual(found["dues"], [[0, 6209, 86_390], [10, 6209, 86_400], [11, 6210, 0]])
        self.assertEqual((found["broken"], found["refused"]), ({"edge": 3, "reader": "relay"}, None))
        refused = drawn(REFUSED.encode())
        self.assertEqual((refused["refused"], refused["broken"], refused["lanes"][1]), (16, None, found["lanes"][1]))
        empty = drawn(b"")
        self.assertEqual([empty[name] for name in ("lanes", "dues", "first", "last")], [[], [], 1, 1])

    def test_devices(self) -> None:
        """Which lines of the log are of which edges, as examples/leap_stamped.log has them below those of edge 1."""
        found = drawn((ROOT / "examples/leap_stamped.jsonl").read_bytes())
        relay, recorder = found["lanes"]
        self.assertEqual((relay["reader"], recorder["reader"], found["last"]), ("relay", "recorder", 7))
        self.assertEqual((relay["edges"], recorder["edges"]), ([*range(1, 8)],) * 2)
        self.assertEqual((relay["lines"], recorder["lines"]), ([0, 2, 4, 6, 8, 10, 14], [1, 3, 5, 7, 9, 11, 17]))
        self.assertEqual((relay["firsts"], relay["lasts"]), ([1, 2], [1, 7]))
        self.assertEqual([(port["firsts"], port["lasts"]) for port in relay["ports"]], [([1], [7])] * 3)
        self.assertEqual(relay["marks"], [[6, "leap second"], [6.5, "month end"]])
        self.assertIsNone(found["broken"])
        healed = drawn((ROOT / "examples/majority_healed.jsonl").read_bytes())
        self.assertEqual(healed["broken"], {"edge": 5, "reader": "relay"})

    def test_nothing_ends_the_data(self) -> None:
        ran, page = run(self.folder, REFUSED + '{"x":"<!--<script></script>"}\n')
        self.assertEqual((ran.returncode, ran.stderr.count("\n")), (0, 1))
        text = page.read_text()
        self.assertEqual(text.count("</script>"), 2)
        self.assertEqual(text.count("<!--"), 0)

    def test_the_title_is_no_markup(self) -> None:
        view = loaded(VIEW)
        data = view.data_of(run_of(SCENARIO.encode()))
        self.assertIn("<title>a&lt;b&gt;&amp;</title>", view.page_of("a<b>&", data))

    def test_a_name_that_is_no_utf_8(self) -> None:
        name, page = self.folder / "\udcff.jsonl", self.folder / "page.html"
        name.write_text(SCENARIO)
        subprocess.run([VIEW, name, "-o", page], check=True, timeout=120)
        self.assertIn("<title>\\udcff.jsonl</title>", page.read_text())

    def test_braces_in_data_are_no_places(self) -> None:
        view = loaded(VIEW)
        data = {"x": "{{script}} }} {{"}
        self.assertIn(json.dumps(data, separators=(",", ":")), view.page_of("a", data))

    def test_an_example(self) -> None:
        scenario = (ROOT / "examples/month_end_guard.jsonl").read_text()
        log = (ROOT / "examples/month_end_guard.log").read_text()
        shown = data_in(self.made(scenario))["log"]
        self.assertEqual([line for line in shown if not line.startswith(" ")], log.splitlines())
        with self.subTest("with what each port told"):
            self.assertIn(" 1 relay ok ok ok", shown)
        with self.subTest("a refused line"):
            ran, page = run(self.folder, scenario + "[]\n")
            self.assertEqual((ran.returncode, ran.stderr.count("\n")), (0, 1))
            refused = f"line {scenario.count(chr(10)) + 1}: 25 Shape"
            self.assertTrue(ran.stderr.startswith(f"view: {refused}: "), ran.stderr)
            self.assertEqual(data_in(page)["log"], [*shown[:-1], f"refused: {refused}"])

    def test_words_that_will_go(self) -> None:
        """One line of warning for each, and the same page."""
        text = self.made(SCENARIO).read_text()
        for words in (["--log", "/no/such"], ["--program", "/no/such"]):
            ran, page = run(self.folder, SCENARIO, *words)
            self.assertEqual((ran.returncode, ran.stderr.count("\n"), page.read_text()), (0, 1, text))
            self.assertIn(f"view: {words[0]} is not needed any more", ran.stderr)

    def test_no_memory(self) -> None:
        """For the run, for what is drawn of it, for its log, and for the page: status 6 is that of c/irig_scene.h."""
        view, page, source = loaded(VIEW), self.folder / "page.html", self.folder / "plant.jsonl"
        source.write_text(SCENARIO)
        words = [str(VIEW), str(source), "-o", str(page)]

        def no_memory(*words: object) -> int:
            return 6

        for place, patch in (
            *((source, mock.patch(f"irig._library.{name}", no_memory, create=True))
              for name in ("run_entries", "run_lanes", "run_shown")),
            (page, mock.patch.object(view, "page_of", side_effect=MemoryError)),
        ):
            told = io.StringIO()
            with mock.patch.object(sys, "argv", words), patch, redirect_stderr(told):
                self.assertRaisesRegex(SystemExit, "2", view.main)
            self.assertEqual((told.getvalue(), page.exists()), (f"view: {place}: out of memory\n", False))

    def test_mistakes(self) -> None:
        log = (ROOT / "examples/one_liar.log").read_text()
        for options, text, says in (
            ((), log, "it does not begin with a plant line; a picture is made of a scenario, not of its log"),
            ((), "", "plant.jsonl: it does not begin with a plant line"),
            (("-o", "/no/such/page.html"), SCENARIO, "/no/such/page.html: No such file or directory"),
            (("--wide",), SCENARIO, "unrecognized arguments: --wide"),
        ):
            with self.subTest(says):
                ran, page = run(self.folder, text, *options)
                self.assertEqual((ran.returncode, ran.stdout, page.exists()), (2, "", False))
                self.assertIn(says, ran.stderr)
                self.assertEqual(ran.stderr.count("\n"), 1)


class InBrowser(browser.Driven):
    """What a page does."""

    @classmethod
    def setUpClass(cls) -> None:
        why = browser.missing()
        if why:
            print(f"skipped: pages are not opened: {why}")
            raise unittest.SkipTest(why)
        super().setUpClass()
        folder = tempfile.TemporaryDirectory()
        cls.addClassCleanup(folder.cleanup)
        cls.folder = Path(folder.name)

    def setUp(self) -> None:
        self.page.scheme("light")
        self.open(SCENARIO)

    def open(self, scenario: str) -> None:
        ran, page = run(self.folder, scenario)
        self.assertEqual(ran.returncode, 0, ran.stderr)
        self.page.open(page)

    def edges(self) -> str:
        """Which edges it says are seen, without their seconds."""
        return self.text("range").partition(",")[0]

    def test_what_it_shows(self) -> None:
        self.assertIn("premises broken: edge 3 reader relay", self.text("verdict"))
        self.assertEqual(self.edges(), "edges 1 to 12 of 1 to 12")
        self.assertEqual(self.page.ask("document.title"), "plant.jsonl")
        self.open(REFUSED)
        self.assertIn('{"do":"tick","r":"</script><b>&amp;"}', self.text("scenario"))
        self.assertEqual(self.page.ask("document.querySelectorAll('b').length"), 0)

    def test_keys(self) -> None:
        self.press("canvas", "End")
        self.assertTrue(self.text("line").startswith("12 relay 2017-01-01T00:00:01Z locked voted"))
        self.press("canvas", "ArrowLeft", "ArrowLeft")
        self.assertTrue(self.text("line").startswith("10 relay 2016-12-31T23:59:60Z"))
        self.press("canvas", "ArrowDown")
        self.assertTrue(self.text("line").startswith("10 meter - acquiring:2 acquiring"))
        self.press("canvas", "Home", "ArrowUp", "ArrowLeft")
        self.assertTrue(self.text("line").startswith("1 relay - acquiring:1"))

    def test_the_lists_follow(self) -> None:
        self.press("canvas", "End")
        for name, number in (("log", "44"), ("scenario", "14")):
            chosen = f"document.querySelector('#{name} [aria-selected=true]').dataset.number"
            self.assertEqual(self.page.ask(chosen), number)

    def test_a_short_silence_is_a_gap(self) -> None:
        plant = Scenario("2016-06-15T12:00:00Z", [Reader("relay", 1, 0)])
        plant.seconds(9_999)
        plant.dark(1)
        plant.seconds(10_000)
        self.open(plant.text())
        self.press("canvas", "Home")
        found = []
        for edge in (5_000, 10_000):
            at = f"Math.floor(timeline.x_of({edge})), timeline.top_of(timeline.lanes[0]) + 3, 1, 1"
            found += self.colours(at)
        self.assertEqual(found, ["0072b2", "f4f4f4"], "the second is the ground of the chosen reader")

    def test_zoom_by_keys(self) -> None:
        self.press("canvas", "Home", "+")
        self.assertEqual(self.edges(), "edges 1 to 6 of 1 to 12")
        self.press("canvas", "+", "+", "+")
        self.assertEqual(self.edges(), "edges 1 to 4 of 1 to 12")
        self.press("canvas", "End")
        self.assertIn("to 12 of", self.edges())
        self.press("canvas", "0")
        self.assertEqual(self.edges(), "edges 1 to 12 of 1 to 12")

    def test_zoom_by_the_wheel(self) -> None:
        x, y = self.on_edge(12, 0)
        self.page.mouse("mouseWheel", x, y, deltaX=0, deltaY=-400)
        self.page.settle()
        first = int(re.match(r"edges (\d+) to 12 of", self.text("range"))[1])
        self.assertGreater(first, 4)
        self.page.mouse("mouseWheel", x, y, deltaX=0, deltaY=4000)
        self.page.settle()
        self.assertEqual(self.edges(), "edges 1 to 12 of 1 to 12")

    def test_drag(self) -> None:
        self.press("canvas", "Home", "+")
        x, y = self.on_edge(5, 0)
        left, _ = self.on_edge(2, 0)
        self.page.mouse("mousePressed", x, y, button="left", clickCount=1)
        self.page.mouse("mouseMoved", left, y, button="left", buttons=1)
        self.page.mouse("mouseReleased", left, y, button="left", clickCount=1)
        self.page.settle()
        self.assertEqual(self.edges(), "edges 4 to 9 of 1 to 12")
        self.assertTrue(self.text("line").startswith("1 relay"))

    def test_hover_and_click(self) -> None:
        self.page.mouse("mouseMoved", *self.on_edge(8, 0))
        self.assertEqual(
            self.text("hover"),
            '8 relay 2016-12-31T23:59:58Z holdover:2 held\nports: silence silence ok\n'
            'scenario line 11: {"do":"seconds","n":2}',
        )
        self.page.click(*self.on_edge(11, 1))
        self.assertTrue(self.text("line").startswith("11 meter - acquiring:3 acquiring"))
        self.assertIn('scenario line 15: {"do":"seconds","n":4}', self.text("line"))

    def test_utc_and_offsets(self) -> None:
        """The plant starts at 23:59:50: edge 10 is the leap second, and a clock that has none is 17 s ahead of
        23:59:59, and 18 s of 23:59:60. At edge 11, whose second is 00:00:00, another is a second behind. From
        edge 13 on two of three are an hour and a half ahead, and the reader follows them at edge 14."""
        plant = Scenario(START, [Reader("relay", 1)], leaps=LEAPS)
        plant.fault(1, "skew", by=18)
        plant.seconds(10)
        plant.fault(0, "skew", by=-1)
        plant.seconds(1)
        plant.fault(1, "skew", by=86_400)
        plant.seconds(1)
        plant.fault(0, "skew", by=5_400)
        plant.fault(1, "skew", by=5_400)
        plant.seconds(2)
        self.open(plant.text())
        self.assertEqual(
            self.text("range"), "edges 1 to 14 of 1 to 14, 2016-12-31T23:59:51Z to 2017-01-01T00:00:03Z"
        )
        for edge, says in (
            (10, "10 relay 2016-12-31T23:59:60Z locked voted\nports: ok 2017-01-01T00:00:16Z (17 s ahead) ok"),
            (11, "ports: 2016-12-31T23:59:59Z (1 s behind) 2017-01-01T00:00:17Z (18 s ahead) ok"),
            (12, "ports: 2016-12-31T23:59:60Z (1 s behind) 2017-01-02T00:00:00Z (1 d ahead) ok"),
            (13, "13 relay - unlocked jump\n"),
            (13, "\nedge 13 is 2017-01-01T00:00:02Z"),
            (14, "14 relay 2017-01-01T01:30:03Z (1 h 30 min ahead) locked voted\n"),
            (14, "\nedge 14 is 2017-01-01T00:00:03Z"),
        ):
            self.set("edge", str(edge))
            self.assertIn(says, self.text("line"))
        written = self.page.ask(
            "(() => { const { ruler } = timeline, written = []; ruler.fillText = (text) => written.push(text);"
            " timeline.draw(); delete ruler.fillText; return written; })()"
        )
        self.assertLessEqual({"UTC", "10", "23:59:60", "2016-12-31", "00:00:01", "2017-01-01"}, set(written))

    def test_utc_across_leap_seconds(self) -> None:
        """From July to the end of 2016 are 184 days; day 6025 is 2016-06-30, and 10773 is 2029-06-30."""
        half_year = 184 * 86_400
        inserted = [[0, 6025, 86_399], [1, 6025, 86_400], [2, 6026, 0], [half_year + 2, 6209, 86_400],
                    [half_year + 3, 6210, 0]]
        deleted = [[0, 10_773, 86_397], [2, 10_774, 0]]
        for dues, edge, wanted in (
            (inserted, 1, "2016-06-30T23:59:60Z"),
            (inserted, half_year + 1, "2016-12-31T23:59:59Z"),
            (inserted, half_year + 2, "2016-12-31T23:59:60Z"),
            (inserted, half_year + 3, "2017-01-01T00:00:00Z"),
            ([[0, 6209, 86_400], [1, 6210, 0]], 1, "2017-01-01T00:00:00Z"),
            ([[0, 6210, 0]], 0, "2017-01-01T00:00:00Z"),
            (deleted, 1, "2029-06-30T23:59:58Z"),
            (deleted, 2, "2029-07-01T00:00:00Z"),
            ([], 0, ""),
        ):
            self.assertEqual(self.page.ask(f"clock_of({dues})({edge})"), wanted)

    def test_search_by_cause(self) -> None:
        self.set("cause", "jump")
        self.assertEqual(self.text("found"), "jump: 1")
        self.push("next")
        self.assertTrue(self.text("line").startswith("3 relay - unlocked jump"))
        self.set("reader", "relay")
        self.set("cause", "acquiring")
        self.press("canvas", "Home", "n")
        self.assertTrue(self.text("line").startswith("4 relay - acquiring:1"))
        self.press("canvas", "n")
        self.assertTrue(self.text("line").startswith("1 relay - acquiring:1"), "and round")
        self.set("reader", "meter")
        self.set("cause", "jump")
        self.assertEqual(self.text("found"), "no jump")

    def test_an_edge_and_a_text(self) -> None:
        self.set("edge", "7")
        self.assertTrue(self.text("line").startswith("7 relay"))
        self.set("reader", "meter")
        self.set("edge", "6")
        self.assertTrue(self.text("line").startswith("6 meter"))
        self.set("reader", "")
        self.set("text", "23:59:60")
        self.press("text", "Enter")
        self.assertTrue(self.text("line").startswith("10 relay 2016-12-31T23:59:60Z"))
        self.press("text", "Enter")
        self.assertTrue(self.text("line").startswith("10 relay 2016-12-31T23:59:60Z"), "and round")

    def test_lists(self) -> None:
        for keys in (("Home",), ("ArrowUp",), ("PageUp",), ("PageDown", "PageUp", "PageUp")):
            self.press("log", *keys)
            self.assertTrue(self.text("line").startswith("1 relay"), keys)
        for keys in (("End",), ("ArrowDown",), ("PageDown",), ("PageUp", "PageDown", "PageDown")):
            self.press("log", *keys)
            self.assertEqual(self.text("line"), "premises broken: edge 3 reader relay", keys)
        self.press("log", "ArrowUp")
        self.assertTrue(self.text("line").startswith("12 meter"))
        self.press("scenario", "End")
        self.assertTrue(self.text("line").startswith("9 relay"), "its first edge")
        selected = "document.querySelector('#scenario [aria-selected=true]').dataset.number"
        self.assertEqual(self.page.ask(selected), "14")

    def test_the_last_line_leads_to_its_edge(self) -> None:
        self.press("canvas", "End")
        self.push("to-verdict")
        self.assertTrue(self.text("line").startswith("3 relay - unlocked jump"))
        for text, line in ((REFUSED, 16), ('{"version":9}', 1)):
            self.open(text)
            self.assertEqual(self.text("to-verdict"), f"go to line {line}")
            self.push("to-verdict")
            self.assertEqual(self.text("line"), f"scenario line {line} gives no reader an edge")

    def test_colours_are_those_of_plot(self) -> None:
        for edge, state in ((5, "locked"), (7, "holdover"), (4, "acquiring"), (3, "unlocked")):
            with self.subTest(state):
                self.assertIn(STATES[state].colour[1:].lower(), self.colours_on_edge(edge, 0))

    def test_the_policy_knows_script_and_style(self) -> None:
        self.assertNotIn("unsafe", self.check_policy((self.folder / "page.html").read_text()))

    def test_dark_and_light(self) -> None:
        ground = "getComputedStyle(document.body).backgroundColor"
        light = self.page.ask(ground)
        self.page.scheme("dark")
        self.assertEqual((light, self.page.ask(ground)), ("rgb(255, 255, 255)", "rgb(22, 22, 22)"))

    def test_no_network(self) -> None:
        with browser.listening() as (url, asked):
            fetched = f"fetch('{url}/fetched', {{ mode: 'no-cors' }}).then(() => 1, () => 0)"
            self.assertEqual(self.page.ask(fetched), 0)
            self.page.ask(f"(() => {{ new Image().src = '{url}/image'; }})()")
            self.page.ask(
                "(() => { const it = document.createElement('script'); it.textContent = 'window.ran = 1';"
                " document.body.append(it); })()"
            )
            self.page.settle()
            self.assertEqual((self.page.ask("window.ran || 0"), asked), (0, []))
            for refused in (f"{url}/fetched", f"{url}/image", "inline script"):
                self.assertTrue(any(refused in error for error in self.page.errors), refused)
            self.page.errors.clear()

    def test_a_hundred_thousand_lines(self) -> None:
        """And as many of what ports told: a reader that is started anew behind each second edge."""
        plant = Scenario("2016-06-15T12:00:00Z", [Reader("relay")])
        for _ in range(50_000):
            plant.seconds(2)
            plant.restart("relay")
        self.open(plant.text())
        self.assertIn("premises kept", self.text("verdict"))
        options = "document.querySelectorAll('[role=option]').length"
        self.assertLess(self.page.ask(options), 200)
        self.press("log", "End", "ArrowUp")
        self.assertTrue(self.text("line").startswith("100000 relay 2016-06-16T15:46:40Z locked voted"))
        self.assertLess(self.page.ask(options), 200)
        drawn = "(() => { const t = performance.now(); timeline.draw(); return performance.now() - t; })()"
        self.assertLess(min(float(str(self.page.ask(drawn))) for _ in range(5)), 50, "milliseconds")

    def test_more_lines_than_an_element_is_high(self) -> None:
        self.open(SCENARIO + "\n" * 599_985)
        self.press("scenario", "End")
        self.assertEqual(self.text("line"), "scenario line 600000 gives no reader an edge")
        seen = (
            "(() => { const list = document.getElementById('scenario').getBoundingClientRect();"
            " const line = document.getElementById('scenario-599999').getBoundingClientRect();"
            " return line.top >= list.top && line.bottom <= list.bottom + 1; })()"
        )
        self.assertTrue(self.page.ask(seen))

    def test_ports(self) -> None:
        plant = Scenario(START, [Reader("relay")], leaps=LEAPS)
        plant.fault(1, "silent")
        plant.fault(2, "quality", q=12)
        plant.seconds(1)
        self.open(plant.text())
        told = self.text("line").splitlines()
        self.assertEqual(told[:2], ["1 relay - unlocked no-vote", "ports: ok silence poor:12"])

    # Port 1 of the relay lies at edges 3 and 4, port 2 at 9 of a leap second, both ports of the meter at 9.
    def with_lies(self) -> str:
        plant = Scenario(START, [Reader("relay"), Reader("meter")], leaps=LEAPS)
        plant.seconds(2)
        plant.second({(1, "relay"): Replay(0), (2, "relay"): Lost()})
        plant.second({(1, "relay"): Replay(1), (2, "relay"): Lost()})
        plant.seconds(4)
        plant.fault(2, "no_pending")
        plant.second({(0, "meter"): Replay(0), (1, "meter"): Replay(1), (2, "meter"): Lost()})
        plant.repair(2)
        plant.seconds(3)
        return plant.text()

    def test_lies(self) -> None:
        self.open(self.with_lies())
        self.assertFalse(self.page.ask("document.getElementById('lie').hidden"))
        self.push("lie")
        self.assertEqual(self.text("found"), "lie: 1 of 4, port 1 of relay")
        told = self.text("line").splitlines()
        self.assertEqual(told[1], "ports: ok 2016-12-31T23:59:50Z (2 s behind) silence")
        self.press("canvas", "l")
        self.assertEqual(self.text("found"), "lie: 2 of 4, port 2 of relay")
        self.assertTrue(self.text("line").startswith("9 relay"))
        self.press("canvas", "l")
        self.assertEqual(self.text("found"), "lie: 3 of 4, ports 0 and 1 of meter")
        self.press("canvas", "l")
        self.assertTrue(self.text("line").startswith("3 relay"), "and round")
        self.press("canvas", "L")
        self.assertTrue(self.text("line").startswith("9 meter"))
        self.set("reader", "relay")
        self.press("canvas", "L", "L")
        self.assertEqual(self.text("found"), "lie: 1 of 2, port 1 of relay")

    def test_lies_are_seen(self) -> None:
        """Their lanes are below the reader's, in the colours of tools/plot."""
        self.open(self.with_lies())
        for edge, port, kind in ((3, 1, "another second"), (9, 2, "another mark"), (5, 0, "agreed")):
            at = (
                f"Math.floor(timeline.x_of({edge})),"
                f" timeline.foot_of(timeline.lanes[0], {port}) - 3, 8, 3"
            )
            with self.subTest(kind):
                self.assertIn(PORT_STATES[kind].colour[1:].lower(), self.colours(at))
        self.assertIn("port: told another mark", self.text("legend"))
        self.page.click(*self.on_edge(3, 0))
        self.assertTrue(self.text("line").startswith("3 relay"))
        box = self.place("canvas")
        top = float(str(self.page.ask("timeline.top_of(timeline.lanes[1])")))
        self.page.click(self.on_edge(4, 0)[0], box["y"] + top + 12)
        self.assertTrue(self.text("line").startswith("4 meter"))

    def test_a_short_lie_is_seen(self) -> None:
        plant = Scenario("2016-06-15T12:00:00Z", [Reader("relay")])
        plant.seconds(9_999)
        plant.second({(1, "relay"): Replay(0)})
        plant.seconds(10_000)
        self.open(plant.text())
        at = "Math.floor(timeline.x_of(9999.5)), timeline.foot_of(timeline.lanes[0], 1) - 8, 1, 1"
        self.assertEqual(self.colours(at), [PORT_STATES["another second"].colour[1:].lower()])

    def test_no_lies(self) -> None:
        self.open((ROOT / "examples/plain_minute.jsonl").read_text())
        self.press("canvas", "l")
        self.assertTrue(self.text("line").startswith("1 relay"))

    def test_keys_work_on_opening(self) -> None:
        self.page.press("n")
        self.assertTrue(self.text("line").startswith("1 meter - acquiring:1 acquiring"))


if __name__ == "__main__":
    unittest.main()
