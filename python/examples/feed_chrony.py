"""Feeds a chronyd with what a timekeeper says of IRIG-B lines, by chrony's reference clock SOCK:

    refclock SOCK /run/chrony.irig.sock refid IRIG poll 2 delay 0.0022

in chrony.conf, and then `capture | python3 feed_chrony.py /run/chrony.irig.sock`. What captures three
lines writes a row `line,rise_us,width_us` when a pulse has ended, by CLOCK_MONOTONIC, which does not
wrap. Rows that are none, or of pulses that have not ended, are dropped, and so are seconds while there
is no chronyd; the standard error says which. The delay is twice the most bound of a voted edge, 1,099 us. Of three clocks 123.456 ms ahead of the
system's (tests/chrony) `chronyc tracking` of chrony 4.3 then says

    Reference ID    : 49524947 (IRIG)
    Stratum         : 1
    System time     : 0.123452038 seconds slow of NTP time
    Root delay      : 0.002200000 seconds
    Leap status     : Normal

**An example, of which nothing is promised**: how well a pulse is captured, when its row is read, and
what chronyd makes of it are matters of the machine. It says nothing of leap seconds that will come, for
which chronyd has `leapsectz`, and nothing in a 23:59:60."""
from __future__ import annotations

import os
import select
import socket
import struct
import sys
import time
from typing import Callable, Iterable, Iterator, List, Tuple

from irig import Second, Timekeeper

LINES = 3
LATE_US = 200_000  # so long behind a pulse's end its row may come
EARLY_US = 1_000  # and so long before it, as what captures may round
WORD = 1 << 32
MAGIC = 0x534F434B
SAMPLE = struct.Struct("@lldiiii")  # sock_sample of chrony: a timeval, an offset, pulse, leap, -, magic

Pulse = Tuple[int, int, int]
Send = Callable[[Second, int], None]


def now_us() -> int:
    return time.monotonic_ns() // 1000


def sample(second: Second, edge_us: int) -> bytes:
    """When the second began by the system's clock, and by how much that is behind it."""
    behind_ns = (now_us() - edge_us) % WORD * 1000
    began_ns = time.time_ns() - behind_ns
    offset = (int(second.to_datetime().timestamp()) * 10**9 - began_ns) / 1e9
    return SAMPLE.pack(began_ns // 10**9, began_ns % 10**9 // 1000, offset, 0, 0, 0, MAGIC)


def pulses_in(rows: Iterable[bytes]) -> Iterator[Pulse]:
    """The pulses of rows. One that has not ended would have the timekeeper ticked ahead of its time."""
    for row in rows:
        try:
            line, rise, width = map(int, row.split(b","))
            if not (0 <= line < LINES and 0 <= width < WORD and rise + width <= now_us() + EARLY_US):
                raise ValueError
            yield line, rise, width
        except ValueError:
            print(f"dropped: {row!r}", file=sys.stderr)


def batches(file: int, keep_time: Callable[[], float]) -> Iterator[List[Pulse]]:
    """The pulses that have come, and none where nothing came for as long as `keep_time` says."""
    rest = b""
    while True:
        if not select.select([file], [], [], keep_time())[0]:
            yield []
            continue
        data = os.read(file, 65536)
        if not data:
            return
        *rows, rest = (rest + data).split(b"\n")
        pulses = list(pulses_in(rows))
        if pulses:
            yield pulses


class Feeder:
    """A timekeeper that is ticked for the times up to which pulses were told."""

    def __init__(self, send: Send) -> None:
        self.timekeeper = Timekeeper(lock_after=3, drift_us=100)
        self.send = send
        self.told_us = now_us()

    def due_us(self) -> int:
        return self.told_us + self.timekeeper.wait(self.told_us)

    def come_to(self, time_us: int) -> None:
        while self.due_us() <= time_us:
            self.told_us = self.due_us()
            beat = self.timekeeper.tick(self.told_us)
            if beat and beat.report.second and beat.report.cause == "voted" and not beat.report.second.is_leap:
                self.send(beat.report.second, beat.edge_us)
        self.told_us = max(self.told_us, time_us)

    def feed(self, file: int) -> None:
        for pulses in batches(file, lambda: max(0, self.due_us() + LATE_US - now_us()) / 1e6):
            for line, rise_us, width_us in pulses:
                self.come_to(rise_us + width_us)
                self.timekeeper.hear(line, rise_us, width_us)
            if not pulses:
                self.come_to(self.due_us())


def sender(path: str) -> Send:
    """What sends to the socket that is there then: a chronyd that starts makes it anew."""

    def send(second: Second, edge_us: int) -> None:
        try:
            with socket.socket(socket.AF_UNIX, socket.SOCK_DGRAM) as chrony:
                chrony.sendto(sample(second, edge_us), path)
        except OSError as error:
            print(f"dropped: {second}: {path}: {error}", file=sys.stderr)
        else:
            print(second, flush=True)

    return send


def main() -> None:
    Feeder(sender(sys.argv[1])).feed(sys.stdin.fileno())


if __name__ == "__main__":
    main()
