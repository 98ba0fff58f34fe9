"""IRIG-B time code (code B004 of IRIG Standard 200-16, control bits of IEEE 1344): the proved
codec, the proved reader, and the proved runner of scenarios.

    frame, read                 the frame of a second; what a port tells of one
    encode, decode, coded       frames and what they code: Coded, with Control
    claim, Claim, Second        coded time to UTC, leap seconds included
    has_parity, with_parity     the parity bit
    widths, symbols, classify   pulses and symbols
    Reader                      a reader with three ports, five, or one
    Sync                        which element of a frame a pulse on a line is
    Timekeeper                  a device that keeps time by lines and a counter of its own
    quality_of                  the time quality that it may send on
    run, Log                    scenarios to logs; `Log.blame`: who lied, and what it cost;
                                `Log.lanes`: what a picture of the run shows
    irig.scenarios              builds scenarios
    irig.logs                   reads logs
    Fault, Refused              what they raise

A shared library is loaded at the first call that needs it: scenarios are built, logs are read, and
seconds are reckoned with, without one. docs/PYTHON.md begins with an example.
"""
from . import logs, scenarios
from .faults import Fault
from .frames import (
    Coded, Control, claim, classify, coded, decode, encode, frame, has_parity, symbols, widths,
    with_parity,
)
from .lanes import Lane
from .lines import Sync
from .logs import (
    Announced, DeviceBroken, DeviceTableBroken, DriftBroken, Entry, Log, Ports, PortWord, PremiseBroken,
    PremisesKept, Refused, Silent, Stamped, TableBroken, ToldSecond, Verdict, read_log,
)
from .readers import Faulty, Poor, Reader, Report, Silence, Told, Zone, read
from .scenes import run
from .seconds import Claim, Leap, Second
from .stretches import Stretch
from .timekeepers import Beat, Line, Pace, Rate, Stamp, Timekeeper, quality_of

__version__ = "3.0.0"

__all__ = [
    "Announced", "Beat", "Claim", "Coded", "Control", "DeviceBroken", "DeviceTableBroken", "DriftBroken", "Entry",
    "Fault", "Faulty", "Lane", "Leap", "Line", "Log", "Pace", "Poor", "PortWord", "Ports", "PremiseBroken",
    "PremisesKept", "Rate", "Reader", "Refused", "Report", "Second", "Silence", "Silent", "Stamp", "Stamped",
    "Stretch", "Sync", "TableBroken", "Timekeeper", "Told", "ToldSecond", "Verdict", "Zone", "claim", "classify",
    "coded", "decode", "encode", "frame", "has_parity", "logs", "quality_of", "read", "read_log", "run",
    "scenarios", "symbols", "widths", "with_parity",
]
