"""The example that feeds chrony: of rows that are none, and of a chronyd that starts anew."""
from __future__ import annotations

import io
import os
import socket
import sys
import tempfile
import unittest
from contextlib import redirect_stderr, redirect_stdout
from pathlib import Path
from unittest import mock

import irig
from irig import Second
from program import ROOT

sys.path.insert(0, str(ROOT / "python/examples"))
import feed_chrony  # noqa: E402

NOON = Second.read("2016-06-15T12:00:00Z")
WRONG = b"\n0,12\n3,1,2000\n0,1,-1\n0,%d,2000\n" % 10**17


def rows_of(second: int) -> bytes:
    """What three lines send in a second after noon, when it began at as many seconds by the counter."""
    frame = irig.frame(Second(NOON.day, NOON.sod + second))
    pulses = enumerate(irig.widths(frame))
    return b"".join(
        b"%d,%d,%d\n" % (line, second * 1_000_000 + element * 10_000, width)
        for element, width in pulses for line in range(3)
    )


class Feeding(unittest.TestCase):
    def test_rows_that_are_none(self) -> None:
        sent, said = [], io.StringIO()
        with mock.patch.object(feed_chrony, "now_us", return_value=0) as now, redirect_stderr(said):
            feeder = feed_chrony.Feeder(lambda second, edge_us: sent.append((second.sod - NOON.sod, edge_us)))
            now.return_value = 9_000_000
            source, sink = os.pipe()
            os.write(sink, WRONG.join(map(rows_of, range(6))))
            os.close(sink)
            feeder.feed(source)
            os.close(source)
        self.assertEqual(sent, [(second, second * 1_000_000) for second in (3, 4, 5)])
        self.assertEqual(said.getvalue(), "".join(f"dropped: {row!r}\n" for row in WRONG.splitlines()) * 5)

    def test_a_chronyd_that_starts_anew(self) -> None:
        said = io.StringIO()
        with tempfile.TemporaryDirectory() as folder, redirect_stdout(said), redirect_stderr(said):
            path = Path(folder, "irig.sock")
            send = feed_chrony.sender(str(path))
            for _ in range(2):
                with socket.socket(socket.AF_UNIX, socket.SOCK_DGRAM) as chronyd:
                    chronyd.bind(str(path))
                    chronyd.settimeout(9)
                    send(NOON, 0)
                    self.assertEqual(len(chronyd.recv(99)), feed_chrony.SAMPLE.size)
                send(NOON, 0)
                path.unlink()
        self.assertEqual(said.getvalue().count("dropped: 2016-06-15T12:00:00Z: "), 2)


if __name__ == "__main__":
    unittest.main()
