"""The judge of bench/brute_force on trees that split at any line, by netlists worked out by hand."""
from __future__ import annotations

import sys
import types
import unittest
from typing import List, Tuple

from support import REPORT_HEADER, ROOT, lines

sys.path.insert(0, str(ROOT / "bench" / "brute_force"))
import judge  # type: ignore[import]

# p and q are never 1 together, so neither is g, and y:0 has no test. Where u (line 5) is known at its end, p at 1 asks one value of w and q the
# other; where it isn't, w may have either, and so may all lines at sources.
INPUTS = ("INPUT(a)", "INPUT(b)", "INPUT(c)", "INPUT(d)", "INPUT(e)", "OUTPUT(y)")
PARITIES = ("w = XOR(d, e)", "p = XOR(u, w)", "q = XNOR(u, w)", "g = AND(p, q)")
NET = lines(*INPUTS, "u = XOR(b, c)", *PARITIES, "y = AND(a, g)")
# f takes over g, so what was so of last values is so of first ones. Lines 0 to 5 are a b c d e f, and u is line 6.
LINKED_NET = lines(*INPUTS, "f = DFF(g)", "u = XOR(b, c)", *PARITIES, "y = AND(a, f)")
DELAYS = "gate,pin,delay\ny,0,100\n"
UNTESTABLE = lines(REPORT_HEADER, "1,rise,100,a,y:0,untestable,-,-,1", "1,fall,100,a,y:0,untestable,-,-,2")
ABORTED = lines(REPORT_HEADER, "1,rise,100,a,y:0,aborted,-,1,2", "1,fall,100,a,y:0,aborted,-,3,4")
GOOD = "good"


def said(version: int, proofs: List[str], report: str, net: str, mode: str, budget: int) -> str:
    """What the judge says of a run of one path without a test."""
    case = types.SimpleNamespace(net=net.encode(), delays=DELAYS.encode(), scan=b"", mode=mode, paths=1, budget=budget)
    setting = judge.Setting(case)
    tests = lines("pdfgen tests 1", " ".join(["sources", *setting.net.names[:setting.net.s]]),
                  " ".join(["observed", *(setting.net.names[line] for line in setting.net.observed)]))
    text = lines(f"pdfgen proofs {version}", *(f"{number} {proof}" for number, proof in enumerate(proofs, 1)))
    return str(judge.check(setting, tests.encode(), report.encode(), text.encode()))


def refutes(version: int, tree: str, net: str = NET, mode: str = "enhanced", budget: int = 1) -> str:
    """What it says where this tree is to refute y:0, nonrobust, in both directions."""
    return said(version, [f"refutes nonrobust {direction} 1 1 {tree}" for direction in ("rise", "fall")], UNTESTABLE, net, mode, budget)


def spends(version: int, tree: str, net: str = NET, mode: str = "enhanced") -> str:
    """What it says where it is to have spent a budget of one split, in both directions and for both kinds."""
    proofs = [f"spent {kind} {direction} 1 1 {tree}" for direction in ("rise", "fall") for kind in ("robust", "nonrobust")]
    return said(version, proofs, ABORTED, net, mode, 1)


def malformed(line: int) -> str:
    return f"check: PROOFS line {line} malformed"


BAD_REFUTATION, BAD_SPENT = "check: proof 1 BadRefutation", "check: proof 1 BadSpent"


class AnyLine(unittest.TestCase):
    def test_a_split_at_the_line_of_a_gate(self) -> None:
        for tree, due in (("V5 X X", GOOD), ("V6 X X", GOOD), ("X", BAD_REFUTATION), ("V5 X O", BAD_REFUTATION), ("V5 O X", BAD_REFUTATION),
                          ("V1 X X", BAD_REFUTATION), ("V0 X X", BAD_REFUTATION), ("H5 X X", BAD_REFUTATION), ("V5 X", malformed(2)),
                          ("V10 X X", BAD_REFUTATION), ("V11 X X", malformed(2)), ("V05 X X", malformed(2)), ("F5 X X", malformed(2))):
            self.assertEqual(refutes(4, tree), due, tree)

    def test_over_sources_one_split_is_not_enough(self) -> None:
        for source in range(5):
            for letter in "VH":
                self.assertEqual(refutes(2, f"{letter}{source} X X"), BAD_REFUTATION)
        self.assertEqual(refutes(2, "V1 V2 X X V2 X X", budget=3), GOOD)
        self.assertEqual(refutes(4, "V1 V2 X X V2 X X", budget=3), GOOD)
        self.assertEqual(refutes(4, "V1 V2 X X V2 X X", budget=2), BAD_REFUTATION)

    def test_halves_are_in_order(self) -> None:
        # g has to end at 1
        self.assertEqual(refutes(4, "V9 X V5 X X", budget=2), GOOD)
        self.assertEqual(refutes(4, "V9 V5 X X X", budget=2), BAD_REFUTATION)
        # without a change of b to e u is steady
        self.assertEqual(refutes(4, "H5 V5 X X X", budget=2), GOOD)
        self.assertEqual(refutes(4, "H5 X V5 X X", budget=2), BAD_REFUTATION)

    def test_a_line_outside_the_cone_of_the_end(self) -> None:
        net = NET + lines("OUTPUT(z)", "OUTPUT(v)", "z = NOT(u)", "v = NOT(a)")
        self.assertEqual(refutes(4, "V11 X X", net), GOOD)
        self.assertEqual(refutes(4, "V12 X X", net), BAD_REFUTATION)
        self.assertEqual(refutes(4, "V13 X X", net), malformed(2))

    def test_versions_of_sources_have_no_other_line(self) -> None:
        for version in (1, 2, 3):
            self.assertEqual(refutes(version, "V5 X X"), malformed(2))
            self.assertEqual(refutes(version, "F0 X X"), malformed(2))
        first, second = (f"refutes nonrobust {direction} 1 1" for direction in ("rise", "fall"))
        self.assertEqual(said(2, [f"{first} V1 V2 X X V2 X X", f"{second} V5 X X"], UNTESTABLE, NET, "enhanced", 3), malformed(3))

    def test_a_spent_tree_is_one_of_sources(self) -> None:
        # t is b once more, so a split there leaves open what one at b does
        net = lines(*INPUTS, "u = XOR(t, c)", *PARITIES, "y = AND(a, g)", "t = BUFF(b)")
        for version, due in ((2, malformed(2)), (4, BAD_SPENT)):
            self.assertEqual(spends(version, "V1 O O", net), GOOD)
            self.assertEqual(spends(version, "V11 O O", net), due)
        self.assertEqual(spends(4, "V5 O X"), BAD_SPENT)
        self.assertEqual(spends(4, "V5 O O"), BAD_SPENT)

    def test_versions_of_a_mode(self) -> None:
        for mode, of_mode in (("enhanced", (1, 2, 4)), ("broadside", (3, 5))):
            for version in (1, 2, 3, 4, 5, 6):
                self.assertEqual(refutes(version, "X", mode=mode), BAD_REFUTATION if version in of_mode else malformed(1))

    def test_which_version_is_written(self) -> None:
        net = judge.r.read_bench(NET.encode())
        closed, at_source, at_gate, by_first_value = (judge.read_tree(net, 5, tree.split(" ")) for tree in ("X", "H1 X X", "V5 X X", "F1 X X"))
        cases: List[Tuple[str, List[object], int]] = [
            ("enhanced", [], 2), ("enhanced", [closed, at_source], 2), ("enhanced", [at_source, at_gate], 4), ("broadside", [], 3),
            ("skewed", [at_source], 3), ("skewed", [at_gate, closed], 5), ("broadside", [by_first_value], 5)]
        for mode, trees, version in cases:
            self.assertEqual(judge.version_written(net, mode, trees), version)


class FirstValues(unittest.TestCase):
    def test_a_split_by_first_values(self) -> None:
        # f has to end at 1, so g begins at 1, and so do p and q; u begins at 0, or at 1, and each leaves w no first value
        for tree, due in (("F6 X X", GOOD), ("F7 X X", GOOD), ("X", BAD_REFUTATION), ("V6 X X", BAD_REFUTATION), ("H6 X X", BAD_REFUTATION),
                          ("F1 X X", BAD_REFUTATION), ("F6 X O", BAD_REFUTATION), ("F12 X X", malformed(2))):
            self.assertEqual(refutes(5, tree, LINKED_NET, "broadside"), due, tree)

    def test_halves_are_in_order(self) -> None:
        # g has to begin at 1
        self.assertEqual(refutes(5, "F10 X F6 X X", LINKED_NET, "broadside", 2), GOOD)
        self.assertEqual(refutes(5, "F10 F6 X X X", LINKED_NET, "broadside", 2), BAD_REFUTATION)

    def test_other_versions_have_none(self) -> None:
        for version, tree, line in ((3, "F6 X X", 2), (3, "F1 X X", 2), (3, "V6 X X", 2), (4, "F6 X X", 2), (4, "V6 X X", 1)):
            self.assertEqual(refutes(version, tree, LINKED_NET, "broadside"), malformed(line))
        self.assertEqual(refutes(5, "F6 X X", LINKED_NET), malformed(1))

    def test_a_spent_tree_has_none(self) -> None:
        for version, due in ((3, malformed(2)), (5, BAD_SPENT)):
            self.assertEqual(spends(version, "V1 O O", LINKED_NET, "broadside"), GOOD)
            self.assertEqual(spends(version, "F1 O O", LINKED_NET, "broadside"), due)
