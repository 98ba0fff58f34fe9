"""Drives Chromium without a window, for tests of pages: by its driver, and through that by its protocol for
debuggers; and what such tests have in common."""
from __future__ import annotations

import base64
import hashlib
import http.server
import json
import os
import re
import shutil
import subprocess
import threading
import unittest
import urllib.request
from collections.abc import Iterator
from contextlib import contextmanager
from pathlib import Path
from typing import Any

NAMES = ("chromium", "chromium-browser", "google-chrome")
PATIENCE = 180.0  # seconds for one answer


def program() -> str | None:
    """Where a browser is, if there is one."""
    return next((found for name in NAMES if (found := shutil.which(name))), None)


def missing() -> str | None:
    """Why no page can be opened, if none can."""
    if not program() or not shutil.which("chromedriver"):
        return "chromium is missing, of Debian's packages chromium and chromium-driver"
    try:
        Browser().close()
    except (OSError, StopIteration) as error:
        return f"{program()} does not start: {error}"
    return None


@contextmanager
def listening() -> Iterator[tuple[str, list[str]]]:
    """The address of a server on this machine, and what it is asked for, which a page must not do."""
    asked: list[str] = []

    class Server(http.server.BaseHTTPRequestHandler):
        def do_GET(self) -> None:
            asked.append(self.path)
            self.send_response(200)
            self.end_headers()

    with http.server.ThreadingHTTPServer(("127.0.0.1", 0), Server) as server:
        threading.Thread(target=server.serve_forever, daemon=True).start()
        yield f"http://127.0.0.1:{server.server_port}", asked
        server.shutdown()


class Browser:
    """One page in a browser of its own."""

    def __init__(self) -> None:
        self._driver = subprocess.Popen(["chromedriver", "--port=0"], stdout=subprocess.PIPE, text=True)
        assert self._driver.stdout
        found = (re.search(r"started successfully on port (\d+)", line) for line in self._driver.stdout)
        self._url = f"http://127.0.0.1:{next(filter(None, found))[1]}/session"
        words = ["--headless", "--disable-gpu", "--disable-dev-shm-usage", "--no-first-run"]
        if os.geteuid() == 0:
            words.append("--no-sandbox")  # Chromium asks for that of root
        wanted = {
            "goog:chromeOptions": {"binary": program(), "args": words},
            "goog:loggingPrefs": {"browser": "SEVERE"},
        }
        made = self._post("", {"capabilities": {"alwaysMatch": wanted}})
        self._url += f"/{made['sessionId']}"
        self._errors: list[str] = []

    def _post(self, path: str, body: object) -> Any:
        """What the driver answers."""
        head = {"Content-Type": "application/json"}
        request = urllib.request.Request(self._url + path, json.dumps(body).encode(), head)
        with urllib.request.urlopen(request, timeout=PATIENCE) as answer:
            return json.load(answer)["value"]

    def close(self) -> None:
        urllib.request.urlopen(urllib.request.Request(self._url, method="DELETE"), timeout=PATIENCE)
        self._driver.terminate()
        self._driver.communicate(timeout=30)

    def call(self, method: str, **params: object) -> dict:
        """What the browser answers to a word of its protocol for debuggers."""
        return self._post("/goog/cdp/execute", {"cmd": method, "params": params})

    @property
    def errors(self) -> list[str]:
        """What the console says is wrong since the page was opened."""
        self._errors += [entry["message"] for entry in self._post("/se/log", {"type": "browser"})]
        return self._errors

    def open(self, path: Path) -> None:
        """Opens a file, and waits until it has been loaded and drawn."""
        self.errors.clear()
        self._post("/url", {"url": path.as_uri()})
        self.settle()

    def settle(self) -> None:
        """Waits until what was asked for is drawn."""
        self.ask("new Promise(d => requestAnimationFrame(() => requestAnimationFrame(() => d(0))))")

    def ask(self, expression: str) -> object:
        """The value of an expression in the page."""
        told = self.call(
            "Runtime.evaluate", expression=expression, returnByValue=True, awaitPromise=True
        )
        if "exceptionDetails" in told:
            raise RuntimeError(f"{expression}: {told['exceptionDetails']}")
        return told["result"].get("value")

    def press(self, *keys: str) -> None:
        """Keys, each down and up."""
        for key in keys:
            text = {"text": key} if len(key) == 1 else {}
            self.call("Input.dispatchKeyEvent", type="keyDown", key=key, **text)
            self.call("Input.dispatchKeyEvent", type="keyUp", key=key)
        self.settle()

    def mouse(self, kind: str, x: float, y: float, **more: object) -> None:
        self.call("Input.dispatchMouseEvent", type=kind, x=x, y=y, **more)

    def click(self, x: float, y: float) -> None:
        for kind in ("mousePressed", "mouseReleased"):
            self.mouse(kind, x, y, button="left", clickCount=1)
        self.settle()

    def size(self, width: int, height: int) -> None:
        self.call("Emulation.setDeviceMetricsOverride", width=width, height=height,
                  deviceScaleFactor=1, mobile=False)
        self.settle()

    def scheme(self, name: str) -> None:
        """`light` or `dark`."""
        feature = {"name": "prefers-color-scheme", "value": name}
        self.call("Emulation.setEmulatedMedia", features=[feature])
        self.settle()

class Driven(unittest.TestCase):
    """Drives a page as a person would."""

    page: Browser
    height = 800
    timeline = "timeline"  # how the page names its own

    @classmethod
    def setUpClass(cls) -> None:
        cls.page = Browser()
        cls.addClassCleanup(cls.page.close)
        cls.page.size(1200, cls.height)

    def tearDown(self) -> None:
        self.assertEqual(self.page.errors, [])

    def part(self, name: str, what: str) -> object:
        return self.page.ask(f"document.getElementById('{name}').{what}")

    def text(self, name: str) -> str:
        return str(self.part(name, "textContent"))

    def set(self, name: str, value: str) -> None:
        """What a hand would choose or write."""
        self.page.ask(
            f"(() => {{ const it = document.getElementById('{name}'); it.value = {json.dumps(value)};"
            " for (const kind of ['input', 'change'])"
            " it.dispatchEvent(new Event(kind, { bubbles: true })); })()"
        )
        self.page.settle()

    def place(self, name: str) -> dict:
        found = self.part(name, "getBoundingClientRect().toJSON()")
        assert isinstance(found, dict)
        return found

    def press(self, name: str, *keys: str) -> None:
        self.part(name, "focus()")
        self.page.press(*keys)

    def push(self, name: str) -> None:
        self.part(name, "scrollIntoView({ block: 'nearest' })")
        box = self.place(name)
        self.page.click(box["x"] + box["width"] / 2, box["y"] + box["height"] / 2)

    def on_edge(self, edge: float, lane: int) -> tuple[float, float]:
        """Where an edge of a lane is on the screen."""
        box = self.place("canvas")
        x = float(str(self.page.ask(f"{self.timeline}.x_of({edge})")))
        top = float(str(self.page.ask(f"{self.timeline}.top_of({self.timeline}.lanes[{lane}])")))
        return box["x"] + x, box["y"] + top + 18

    def colours(self, at: str) -> list[str]:
        """Those of the points of a part of the timeline: its left, top, width and height."""
        points = self.page.ask(f"Array.from({self.timeline}.brush.getImageData({at}).data)")
        assert isinstance(points, list)
        return [bytes(points[place:place + 3]).hex() for place in range(0, len(points), 4)]

    def colours_on_edge(self, edge: float, lane: int) -> list[str]:
        box, (x, y) = self.place("canvas"), self.on_edge(edge, lane)
        return self.colours(f"{x - box['x']}, {y - box['y']}, 8, 6")

    def check_policy(self, text: str) -> str:
        """The policy of a page, which takes no script and no style but its own."""
        policy = re.search(r'Content-Security-Policy" content="(.*?)"', text)[1]
        self.assertTrue(policy.startswith("default-src 'none';"))
        for kind, tag in (("script-src", "<script>"), ("style-src", "<style>")):
            inside = text.split(tag)[1].split(f"</{tag[1:]}")[0]
            digest = base64.b64encode(hashlib.sha256(inside.encode()).digest()).decode()
            self.assertIn(f"{kind} 'sha256-{digest}'", policy)
        self.assertNotIn("'unsafe-", policy)
        self.assertEqual(policy.count("sha256-"), 2)
        return policy
