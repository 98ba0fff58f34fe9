"""Faults as texts."""
from __future__ import annotations

import pickle
import unittest

import irig
from irig.faults import MEANINGS


class Faults(unittest.TestCase):
    def test_texts(self) -> None:
        self.assertEqual(str(irig.Fault(1, 50)), "1 Short 50: fewer than 100 symbols, 50 of them")
        self.assertEqual(str(irig.Fault(17)), "17 Parity: " + MEANINGS[17].cause)
        self.assertEqual(str(irig.Fault(26, reason="no")), "26 Value: no")
        again = pickle.loads(pickle.dumps(irig.Fault(6, "hour")))
        self.assertEqual((again.number, again.name, again.detail), (6, "Range", "hour"))


if __name__ == "__main__":
    unittest.main()
