"""Builds the package by the hooks of PEP 517 and PEP 660, out of a checkout of the repository:
`make -C c` makes shared libraries of the proved static ones, and the wheel takes them along."""
from __future__ import annotations

import hashlib
import re
import subprocess
import sys
import sysconfig
import zipfile
from base64 import urlsafe_b64encode
from pathlib import Path
from typing import Dict, List

HERE = Path(__file__).resolve().parent
ROOT = HERE.parent
LIBRARIES = ("irig", "irig_scene")
NOTICES = ROOT / "c/out/THIRD_PARTY"  # licences of what is linked in
LISTS = ROOT / "c/layout.txt", ROOT / "docs/FAULTS.md"  # which the package reads


def stated(path: Path, pattern: str) -> str:
    """What a file says of itself."""
    if not (ROOT / "docs/irig.1").exists():
        sys.exit(
            f"{HERE} is not in a checkout of irig. Before its version 21.3 `pip` copies the folder"
            " away first: `pip install --upgrade pip`, then install this package again."
        )
    found = re.search(pattern, path.read_text(), re.M)
    if not found:
        sys.exit(f"{path} has no line {pattern}")
    return found[1]


def version() -> str:
    return stated(HERE / "irig/__init__.py", r'^__version__ = "([0-9.]+)"')


def shared_libraries() -> List[Path]:
    """The shared libraries, of what is proved."""
    layout = stated(ROOT / "c/layout.txt", r"^layout (\d+)")
    made = [ROOT / f"c/out/lib{name}.so.{layout}" for name in LIBRARIES]
    # No proof is begun here: it would take longer than anyone expects of an installation.
    words = ["make", "-s", "-C", str(ROOT / "c"), "build=false", *(f"out/{file.name}" for file in [*made, NOTICES])]
    try:
        subprocess.run(words, check=True, stdout=sys.stderr)
    except (OSError, subprocess.CalledProcessError) as error:
        sys.exit(
            f"{error}\nThe proved libraries are missing, or older than a source: at the top of the"
            " repository `make -C c` proves and builds them, by make and cc; then install again."
        )
    return made


def metadata() -> Dict[str, bytes]:
    """The files that say what the package is."""
    platform = re.sub(r"[-.]", "_", sysconfig.get_platform())
    fields = (HERE / "METADATA.in").read_text().replace("@VERSION@", version())
    wheel = (
        "Wheel-Version: 1.0\n"
        "Generator: irig\n"
        "Root-Is-Purelib: false\n"
        f"Tag: py3-none-{platform}\n"
    )
    files = {
        "METADATA": (fields + (ROOT / "docs/PYTHON.md").read_text()).encode(),
        "WHEEL": wheel.encode(),
    }
    for licence in (*sorted(ROOT.glob("LICENSE-*")), NOTICES):
        files[licence.name] = licence.read_bytes()
    return {f"irig-{version()}.dist-info/{name}": data for name, data in files.items()}


def package() -> Dict[str, bytes]:
    """The package's files, with the libraries and what it reads of the repository."""
    sources = [path for path in sorted((HERE / "irig").iterdir()) if path.is_file()]
    files = [*sources, *LISTS, *shared_libraries()]
    return {f"irig/{path.name}": path.read_bytes() for path in files}


def record(files: Dict[str, bytes]) -> bytes:
    """The list of a wheel's files with their hashes."""
    lines = []
    for name, data in files.items():
        digest = urlsafe_b64encode(hashlib.sha256(data).digest()).rstrip(b"=").decode()
        lines.append(f"{name},sha256={digest},{len(data)}\n")
    return "".join([*lines, f"irig-{version()}.dist-info/RECORD,,\n"]).encode()


def write_wheel(folder: str, files: Dict[str, bytes]) -> str:
    """Writes a wheel of these files, the same bytes each time, and gives its name."""
    files = {**files, **metadata()}
    files[f"irig-{version()}.dist-info/RECORD"] = record(files)
    platform = re.sub(r"[-.]", "_", sysconfig.get_platform())
    name = f"irig-{version()}-py3-none-{platform}.whl"
    with zipfile.ZipFile(Path(folder) / name, "w", zipfile.ZIP_DEFLATED) as wheel:
        for path, data in files.items():
            entry = zipfile.ZipInfo(path)
            entry.external_attr = 0o644 << 16
            entry.compress_type = zipfile.ZIP_DEFLATED
            wheel.writestr(entry, data)
    return name


# ---- the hooks


class UnsupportedOperation(Exception):
    """What a builder of packages is told of a hook that does nothing."""


def get_requires_for_build_wheel(config_settings: object = None) -> List[str]:
    return []


def build_wheel(
    wheel_directory: str, config_settings: object = None, metadata_directory: object = None
) -> str:
    return write_wheel(wheel_directory, package())


def build_editable(
    wheel_directory: str, config_settings: object = None, metadata_directory: object = None
) -> str:
    """A wheel that names this folder; the libraries are then found in c/out."""
    shared_libraries()
    return write_wheel(wheel_directory, {"irig.pth": f"{HERE}\n".encode()})


def build_sdist(sdist_directory: str, config_settings: object = None) -> str:
    raise UnsupportedOperation("it is built out of a checkout: `pip wheel ./python` makes a wheel")
