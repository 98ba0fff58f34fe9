"""What tools/view and web/page.py make a page of: a template, scripts, styles and data, in one file."""
from __future__ import annotations

import base64
import hashlib
import json
from collections.abc import Iterable, Mapping
from pathlib import Path


def embedded(data: object) -> str:
    """Data as JSON in which no letter can end the element that it stands in."""
    text = json.dumps(data, separators=(",", ":"), sort_keys=True)
    return text.replace("<", "\\u003c").replace(">", "\\u003e").replace("&", "\\u0026")


def hashed(text: str) -> str:
    """A script or a style as a page's policy names it."""
    digest = hashlib.sha256(text.encode()).digest()
    return f"'sha256-{base64.b64encode(digest).decode()}'"


def joined(files: Iterable[Path]) -> str:
    return "\n".join(file.read_text() for file in files)


def constants(values: Mapping[str, object]) -> str:
    """What a script has by these names."""
    return "".join(f"const {name} = {embedded(value)};\n" for name, value in values.items())


def script_of(files: Iterable[Path], made: str = "") -> str:
    """A script of these files, and before them what was made for it."""
    return f'"use strict";\n\n{made}\n{joined(files)}'


def filled(template: Path, parts: dict[str, str]) -> str:
    """The template with a part in each of its places, {{NAME}}; what braces a part has are no places."""
    pieces = template.read_text().split("{{")
    ends = (piece.split("}}", 1) for piece in pieces[1:])
    return pieces[0] + "".join(parts[name] + rest for name, rest in ends)
