"""Takes the table out of a WebAssembly module that calls nothing through it: `untable.py IN OUT`."""
import sys
from pathlib import Path

TABLE, ELEMENTS = 4, 9  # the numbers of their sections


def number_at(module: bytes, at: int) -> tuple[int, int]:
    """A number as LEB128, and where it ends."""
    number = shift = 0
    while True:
        byte = module[at]
        at += 1
        number |= (byte & 127) << shift
        shift += 7
        if byte < 128:
            return number, at


def without_table(module: bytes) -> bytes:
    kept, at = module[:8], 8
    while at < len(module):
        kind, start = module[at], at
        size, body = number_at(module, at + 1)
        at = body + size
        if kind == ELEMENTS:
            raise ValueError("the table has elements")
        if kind != TABLE:
            kept += module[start:at]
    return kept


Path(sys.argv[2]).write_bytes(without_table(Path(sys.argv[1]).read_bytes()))
