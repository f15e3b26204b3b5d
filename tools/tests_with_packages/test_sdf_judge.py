"""OpenSTA judges the small files of sdf_cases.py: it has the same delays, and refuses or warns of what is refused."""
from __future__ import annotations

from typing import Tuple

from packages import ToolTest
from opensta import answers, told
from sdf_cases import CASES, DESIGN, GRAMMAR, UNTOLD, file


class Judged(ToolTest):
    def test_the_same_delays(self) -> None:
        judged = {name: case for name, case in CASES.items() if case.judged}
        found = answers(self.folder, {name: file(case.text, case.header) for name, case in judged.items()})
        for name, case in judged.items():
            with self.subTest(name):
                self.assertTrue(found[name].taken and "Warning" not in found[name].said and "Error" not in found[name].said, found[name].said)
                delays = told(found[name], case.corner)
                for pin, values in {**UNTOLD, **case.told}.items():
                    self.assertEqual(agreed(delays[pin], values), values, pin)

    def test_the_same_refusals(self) -> None:
        judged = {f"{name}, {at}": case for at, cases in enumerate((GRAMMAR, DESIGN)) for name, case in cases.items() if case.judged}
        found = answers(self.folder, {name: file(case.text, case.header) for name, case in judged.items()})
        for name in judged:
            with self.subTest(name):
                self.assertTrue(not found[name].taken or "Warning" in found[name].said or "Error" in found[name].said, found[name].said)


def agreed(delays: Tuple[object, object], values: Tuple[object, object]) -> Tuple[object, object]:
    """OpenSTA's delays, but where the file tells none: OpenSTA then has that of the library."""
    return (None if values[0] is None else delays[0], None if values[1] is None else delays[1])
