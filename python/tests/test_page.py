"""The examples of docs/PYTHON.md."""
from __future__ import annotations

import doctest
import os
import unittest

from program import ROOT


class Page(unittest.TestCase):
    def test_page(self) -> None:
        self.addCleanup(os.chdir, os.getcwd())
        os.chdir(ROOT)
        failed, tried = doctest.testfile(str(ROOT / "docs/PYTHON.md"), module_relative=False)
        self.assertEqual(failed, 0)
        self.assertGreater(tried, 15)


if __name__ == "__main__":
    unittest.main()
