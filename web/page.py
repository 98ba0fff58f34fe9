#!/usr/bin/env python3
"""Makes the page that runs irig of its parts here, the modules beside it and the pages of docs/:
`page.py FOLDER`, where FOLDER has the modules as NAME.wasm, and gets irig.html."""
from __future__ import annotations

import base64
import re
import subprocess
import sys
from html import escape
from pathlib import Path

WEB = Path(__file__).resolve().parent
ROOT = WEB.parent
PARTS = ROOT / "tools/parts"
sys.path.insert(0, str(ROOT / "tools"))

from parts.log_lanes import KINDS, PORT_STATES, STATES  # noqa: E402
from parts.html_page import constants, embedded, filled, hashed, joined, script_of  # noqa: E402
from irig._library import LINES, NUMBERS  # noqa: E402
from irig.faults import FIELDS, MEANINGS  # noqa: E402
from irig.words import CAUSES, LOCKS  # noqa: E402

SCRIPTS = (PARTS / "list.js", PARTS / "utc.js", WEB / "log.js", PARTS / "timeline.js",
           WEB / "c.js", WEB / "codec.js", WEB / "frame.js", WEB / "editor.js", WEB / "scenario.js", WEB / "recording.js",
           WEB / "page.js")
WORKER = PARTS / "utc.js", WEB / "c.js", WEB / "worker.js"
RECORDER = WEB / "system.js", WEB / "recorder.js"
MODULES = ("c_scenario", "c_reader", "irig_main")
READS = {"uint8_t": "getUint8", "int8_t": "getInt8", "uint16_t": "getUint16", "uint32_t": "getUint32",
         "int32_t": "getInt32", "uint64_t": "getBigUint64", "size_t": "getBigUint64"}
LETTERS = {**dict(zip("smhdy", FIELDS)), "o": "offset", "q": "time quality", "b": "straight binary seconds"}
FLAGS = {".": "none", "par": "parity", "LP": "leap pending", "LD": "leap is deleted",
         "DP": "daylight saving pending", "DS": "daylight saving"}


# ---- what the pages of docs/ say, so that no text stands twice


def rows(page: Path, heads: str) -> list[list[str]]:
    """The cells of the tables of a page that have these heads."""
    found: list[list[str]] = []
    is_inside = False
    for line in page.read_text().splitlines():
        cells = [cell.strip() for cell in line.strip("|").split(" | ")]
        if not line.startswith("|"):
            is_inside = False
        elif is_inside and not line.startswith("|--"):
            found.append(cells)
        elif line == heads:
            is_inside = True
    if not found:
        raise ValueError(f"{page} has no table {heads}")
    return found


def plain(text: str) -> str:
    """A cell without marks of code."""
    return text.replace("`", "")


def causes() -> dict[str, list[str]]:
    """What each cause of the log means, and where to look."""
    heads = "| CAUSE | With | Meaning | Where to look |"
    return {
        plain(cause): [plain(meaning), plain(look)]
        for cause, _, meaning, look in rows(ROOT / "docs/OUTPUT.md", heads)
    }


# The last lines of a log by the numbers of their verdicts; 0 is that of a line that is refused.
VERDICTS = "refused: ", "premises kept", "premises broken: edge ", "premises broken: table ", "premises broken: drift "


def verdicts(head: str) -> list[str]:
    """What the last line of a log means, by the number of its verdict, of the table with this head."""
    found = [(plain(line), plain(meaning)) for line, meaning in rows(ROOT / "docs/OUTPUT.md", head)]
    return [meaning for begin in VERDICTS for line, meaning in found if line.startswith(begin)]


def examples() -> list[dict[str, object]]:
    """Each example with what happens in it and what to look at."""
    return [
        {"name": name, "happens": plain(happens), "look": plain(look),
         "text": (ROOT / f"examples/{name}.jsonl").read_text()}
        for of in ("Scenario", "Scenario with devices")
        for names, happens, look in rows(ROOT / "examples/README.md", f"| {of} | What happens | Look at |")
        for name in re.findall(r"`(\w+)`", names)
    ]


def field_of(label: str) -> tuple[str, float]:
    """The field of an element by its label in docs/FRAME.md, and its weight there."""
    if label in FLAGS:
        return FLAGS[label], 1
    if label[0] == "P":
        return "marker", 0
    letter, weight = label[0], label[1:]
    number = {"-": 0, "½": 0.5}[weight] if weight in "-½" else int(weight)
    return LETTERS[letter], 2 ** int(number) if letter == "b" else number


def elements() -> list[dict[str, object]]:
    """The hundred elements by the drawing of docs/FRAME.md."""
    found = re.findall(r"^ +\d+((?: +\S+){10})(?:    .*)?$", (ROOT / "docs/FRAME.md").read_text(), re.M)
    labels = [label for labels in found for label in labels.split()]
    if len(labels) != 100:
        raise ValueError(f"docs/FRAME.md draws {len(labels)} elements")
    fields = [field_of(label) for label in labels]
    return [
        {"element": element, "label": label, "field": field, "weight": weight}
        for element, (label, (field, weight)) in enumerate(zip(labels, fields))
    ]


# ---- what the scripts have of C


def structures() -> dict[str, object]:
    """Of each structure its size, and of its fields where they begin and, of numbers, what reads them."""
    found: dict[str, object] = {}
    for name, size, fields in re.findall(r"^irig_(\w+) (\d+): (.+)", "\n".join(LINES), re.M):
        words = map(str.split, fields.split(","))
        found[name] = {"size": int(size)} | {
            field: {"at": int(at), "reads": READS.get(kind)} for kind, field, at, _ in words
        }
    return found


def of_c() -> str:
    """The constants that web/c.js speaks of, and the kinds of what is drawn."""
    names = {number: meaning.name for number, meaning in MEANINGS.items()}
    words = {"LOCKS": LOCKS, "CAUSES": CAUSES, "FIELDS": FIELDS, "FAULT_NAMES": names}
    return constants({"LAYOUT": structures(), "NUMBERS": NUMBERS, **words, **KINDS})


# ---- the page


def coded(module: bytes) -> str:
    return base64.b64encode(module).decode()


def data_of(folder: Path) -> dict[str, object]:
    return {
        "states": {name: vars(state) for name, state in STATES.items()},
        "port_states": {name: vars(state) for name, state in PORT_STATES.items()},
        "numbers": {number: meaning._asdict() for number, meaning in MEANINGS.items()},
        "causes": causes(),
        "verdicts": verdicts("| Last line | Meaning |"),
        "verdicts_of_devices": verdicts("| Last line of devices | Meaning |"),
        "examples": examples(),
        "elements": elements(),
        "modules": {name: coded((folder / f"{name}.wasm").read_bytes()) for name in MODULES},
    }


def page_of(data: dict[str, object]) -> str:
    """The page: its policy lets run these scripts, this style and these modules, and nothing be fetched
    or sent."""
    script = script_of(SCRIPTS, of_c())
    style = joined((PARTS / "timeline.css", WEB / "page.css"))
    return filled(WEB / "page.html", {
        "policy": f"default-src 'none'; script-src {hashed(script)} 'wasm-unsafe-eval'; worker-src blob:;"
        f" style-src {hashed(style)}; connect-src 'none'; base-uri 'none'; form-action 'none'",
        "style": style,
        "timeline": (PARTS / "timeline.html").read_text(),
        "notices": escape(subprocess.check_output([ROOT / "packaging/notices", "texts"], text=True)),
        "data": embedded(data),
        "worker": script_of(WORKER, of_c()),
        "recorder": script_of(RECORDER, ""),
        "script": script,
    })


def main() -> None:
    folder = Path(sys.argv[1])
    (folder / "irig.html").write_text(page_of(data_of(folder)), encoding="utf-8")


if __name__ == "__main__":
    main()
