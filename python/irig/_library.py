"""The shared libraries, with their structures and calls by the list of c/layout.txt, which is made of the headers.
A library is loaded at the first of its calls, so that what needs none works where none is."""
from __future__ import annotations

import ctypes
import re
import subprocess
from ctypes import POINTER, Structure, c_char, c_int16, c_uint8, sizeof
from functools import lru_cache
from pathlib import Path
from struct import Struct
from typing import Any, Dict, Iterator, List, Tuple

HERE = Path(__file__).resolve().parent


def lines_of(name: str) -> List[str]:
    """The lines of a file of the repository, which an installed package has beside this one."""
    beside = HERE / Path(name).name
    path = beside if beside.exists() else HERE.parent.parent / name
    return path.read_text(encoding="utf-8").splitlines()


LINES = lines_of("c/layout.txt")
LAYOUT = int(LINES[0].split()[1])  # the number of all that follows
IRIG, SCENE = f"libirig.so.{LAYOUT}", f"libirig_scene.so.{LAYOUT}"
LIBRARIES = {"irig.h": IRIG, "irig_scene.h": SCENE}
# A call of the first library holds Python's lock: it is short, and no other thread comes between. A
# run of the second may be long: other threads go on meanwhile.
KINDS = {IRIG: ctypes.PyDLL, SCENE: ctypes.CDLL}

UNSIGNED = {1: "B", 2: "H", 4: "I", 8: "Q"}  # by their bytes, for `struct`
Symbols, Text, Delays = c_uint8 * 100, c_char * 20, c_int16 * 5
STRUCTURES: Dict[str, Any] = {}  # by their names in C. Here irig_line_said is LineSaid
CALLS: Dict[str, Tuple[Any, ...]] = {}  # the library of a call, what it answers, and what it takes
NUMBERS: Dict[str, int] = {}  # by their names in C. Here IRIG_TOLD_POOR is TOLD_POOR


def _type(name: str) -> Any:
    """A type by its name in C, as `irig_utc` or `uint8_t`."""
    if name == "irig_count":
        return ctypes.c_size_t
    return STRUCTURES.get(name) or getattr(ctypes, "c_" + re.sub(r"(?<=\d)_t", "", name))


def _structure(name: str, fields: str) -> Any:
    """A structure of fields like `irig_tally ports 552 120`: a type, a name, a place and a size."""
    found = []
    for kind, field, _, size in map(str.split, fields.split(",")):
        count = int(size) // sizeof(_type(kind))
        found.append((field, _type(kind) * count if count > 1 else _type(kind)))
    words = name.split("_")[1:]
    return type("".join(map(str.title, words)), (Structure,), {"_fields_": found})


def _passed(declared: str) -> Any:
    """The type of what a call takes or answers, declared like `const irig_utc *second`."""
    found = re.fullmatch(r"(const )?(\w+) ?(\*?)\w*(?:\[(\d+)\])?", declared)
    assert found
    is_const, name, is_pointer, count = found.groups()
    if name == "void":
        return None
    if count:
        return _type(name) * int(count)
    if is_pointer:
        return ctypes.c_char_p if is_const and sizeof(_type(name)) == 1 else POINTER(_type(name))
    return _type(name)


def _take(lines: List[str]) -> None:
    """Takes up the structures, numbers and calls of the list."""
    library = ""
    for line in lines:
        structure = re.fullmatch(r"(irig_\w+) \d+: (.*)", line)
        number = re.fullmatch(r"IRIG_(\w+) = (\d+)", line)
        call = re.fullmatch(r"(.*?) ?irig_(\w+)\((?!void)(.*)\);", line)
        library = LIBRARIES.get(line, library)
        if structure:
            made = STRUCTURES[structure[1]] = _structure(*structure.groups())
            globals()[made.__name__] = made
        elif number:
            NUMBERS[number[1]] = int(number[2])
        elif call:
            CALLS[call[2]] = library, *map(_passed, (call[1], *call[3].split(", ")))


_take(LINES)


def same(one: Any, other: Any) -> bool:
    """Whether two structures, or arrays of them, have the same numbers; what lies between them in
    memory says nothing."""
    if isinstance(one, Structure):
        names = [name for name, *_ in one._fields_]
        return all(same(getattr(one, name), getattr(other, name)) for name in names)
    if isinstance(one, ctypes.Array):
        return len(one) == len(other) and all(map(same, one, other))
    return bool(one == other)


def unpacked(structure: Any, memory: Any, *names: str) -> Iterator[Tuple[Any, ...]]:
    """These fields of structures that lie one after another in memory, in the order in which they lie: much
    quicker than one by one. Of a field that is no unsigned number it has the bytes."""
    form, end = "=", 0
    for field in (getattr(structure, name) for name in names):
        kind = UNSIGNED.get(field.size, f"{field.size}s")
        form, end = f"{form}{field.offset - end}x{kind}", field.offset + field.size
    return Struct(f"{form}{sizeof(structure) - end}x").iter_unpack(memory)


def symbol(name: str) -> str:
    """The name of a call in its library, which a library of another layout does not have."""
    return f"irig_{name}_layout_{LAYOUT}"


@lru_cache(maxsize=None)
def _loaded(name: str) -> ctypes.CDLL:
    """A library beside this file, as in an installed package; else that of the repository, which is made
    at its first use, without a proof, until `make -C c` has proved it."""
    path = HERE / name
    if path.exists():
        return KINDS[name](str(path))
    words = [str(HERE.parent.parent / "toolchain/library"), name]
    try:
        made = subprocess.run(words, stdout=subprocess.PIPE, check=True, text=True).stdout.strip()
    except (OSError, subprocess.CalledProcessError):
        wrong = f"there is no {name}: in a folder of irig's sources that one may write, `make -C c` makes it"
        raise ImportError(wrong) from None
    return KINDS[name](made)


def __getattr__(name: str) -> Any:
    """A call, which is in this module from its first use on."""
    if name not in CALLS:
        raise AttributeError(f"module {__name__!r} has no attribute {name!r}")
    library, answer, *parameters = CALLS[name]
    try:
        function = getattr(_loaded(library), symbol(name))
    except AttributeError:
        wrong = f"{library} has no {symbol(name)}: take it and this package of one version of irig"
        raise ImportError(wrong) from None
    function.restype, function.argtypes = answer, parameters
    globals()[name] = function
    return function
