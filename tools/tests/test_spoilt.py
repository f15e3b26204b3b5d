"""Some spoilt files for each tool; spoilt.py runs as many as one likes."""
from __future__ import annotations

import unittest

from spoilt import CASES, run_cases


class Spoilt(unittest.TestCase):
    def test_a_line_and_a_status(self) -> None:
        for tool, make in CASES.items():
            with self.subTest(tool):
                self.assertEqual(sum(run_cases(make, 60, seed=7).values()), 60)
