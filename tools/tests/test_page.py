"""pdfgen-page: what the page is told; tests_with_packages has it opened in Chromium."""
from __future__ import annotations

import json
import random
import re
from typing import Any, Dict, Sequence

from support import REPORT_HEADER, ToolTest, gate_split_files, hazard_files, lines
from pdfgen_tools.bench import circuit_of
from pdfgen_tools.cli.page import main
from pdfgen_tools.page.data import hexadecimal
from pdfgen_tools.proofs import is_tree, proofs_of
from spoilt import PROOFS


class Page(ToolTest):
    def words(self) -> "list[str]":
        """A run of y = AND(a, m) with m = NOT(a), and where its page is to stand."""
        net, tests, report = hazard_files(self)
        return [net, tests, report, self.write("proofs", PROOFS), self.path("page")]

    def told(self) -> Dict[str, Any]:
        """What the written page is told."""
        found = re.findall(r'<script type="application/json" id="data">(.*?)</script>', self.read("page"), re.DOTALL)
        self.assertEqual(len(found), 1)
        return json.loads(found[0])  # type: ignore[no-any-return]

    def test_what_the_page_is_told(self) -> None:
        self.assertEqual(self.call(main, *self.words(), "--title", "</script>"), "paths 2 tests 2 proofs 4\n")
        told = self.told()
        self.assertEqual((told["title"], told["version"], told["names"]), ("</script>", 1, ["a", "y", "m"]))
        self.assertEqual((told["gates"], told["paths"]), ([["AND", 1, 0, 2], ["NOT", 2, 0]], [[5, 0, 0, 0], [2, 0, 1, 0, 0, 1]]))
        self.assertEqual(told["faults"], [[1, 0, 2, 0, 0, 1], [1, 1, 1, 1, 2, 0], [2, 0, 1, 2, 3, 0], [2, 1, 2, 0, 0, 4]])
        # test 1: a falls, m rises, y stays 0 and may pulse; test 2, by m: pins of m, then of y, then y
        self.assertEqual(told["values"], ["fra", "rrfa"])
        self.assertEqual(told["vectors"], ["8 0", "0 8"])
        self.assertEqual(told["proofs"][0], ["refutes", "nonrobust", 1, 1, "V0 X H0 X V0 X X"])

    def test_the_page_asks_no_network(self) -> None:
        self.call(main, *self.words())
        text = self.read("page")
        self.assertIn("default-src 'none'", text)
        self.assertEqual(re.findall(r"(?:https?:|//)[^\s\"']+\.[^\s\"']+", text.replace("http://www.w3.org/2000/svg", "")), [])
        self.assertEqual(self.told()["title"], "report")

    def test_steady_values(self) -> None:
        net = self.write("net", lines("INPUT(a)", "INPUT(b)", "INPUT(c)", "OUTPUT(y)", "y = AND(a, b, m)", "m = NOT(c)"))
        circuit = circuit_of(self.read("net"))
        self.assertEqual(circuit.names[3:], ["y", "m"])
        report = self.write("report", lines(REPORT_HEADER, "1,rise,1,a,y:0,robust,1,-,-", "1,fall,1,a,y:0,robust,2,-,-"))
        tests = self.write("tests", lines("pdfgen tests 1", "sources a b c", "observed y", "1 1 rise robust 010 110 1", "2 1 fall robust 110 010 0"))
        proofs = self.write("proofs", lines("pdfgen proofs 2"))
        self.call(main, net, tests, report, proofs, self.path("page"))
        self.assertEqual(self.told()["values"], ["r11r", "f11f"])
        self.assertEqual(self.told()["vectors"], ["4 c", "c 4"])

    def test_files_of_other_runs_are_refused(self) -> None:
        words = self.words()
        good = {name: self.read(name) for name in ("tests", "report", "proofs")}
        for reason, name, old, new in (
                ("count 2 WrongCount", "tests", "2 2 rise nonrobust 0 1 0\n", ""), ("fault 2 BadTest", "tests", "1 1 fall", "1 2 fall"),
                ("fault 4 names proof 4, which is none of it", "proofs", "4 refutes nonrobust fall 2 0 X\n", ""),
                ("fault 1 names proof 1, which is none of it", "proofs", "1 refutes nonrobust rise 1", "1 refutes nonrobust fall 1"),
                ("fault 3 names proof 3, which is none of it", "proofs", "rise 2 2", "rise 1 1"),
                ("PROOFS line 1 malformed", "proofs", "proofs 1", "proofs 6"), ("PROOFS line 2 malformed", "proofs", "V0 X H0", "V1 X H0"),
                ("PROOFS line 2 malformed", "proofs", "X X\n2", "X X X\n2"), ("PROOFS line 3 malformed", "proofs", "2 refutes", "3 refutes"),
                ("PROOFS line 5 malformed", "proofs", "fall 2 0", "fall 2 4097"), ("PROOFS line 6 malformed", "proofs", "0 X\n", "0 X\n\n"),
                ("REPORT line 2 malformed", "report", "5,a", "5,b")):
            with self.subTest(new):
                for other, text in good.items():
                    self.write(other, text)
                self.write(name, good[name].replace(old, new))
                self.refuse(main, reason, *words)

    def test_splits_at_lines_of_gates(self) -> None:
        net, tests, report, proofs = gate_split_files(self)
        self.call(main, net, tests, report, proofs, self.path("page"))
        told = self.told()
        self.assertEqual((told["version"], told["names"]), (5, ["a", "b", "c", "y", "g", "u", "v"]))
        self.assertEqual([proof[4] for proof in told["proofs"]], ["F5 X V6 X H0 X X", "V4 X X"])

    def test_trees(self) -> None:
        net = lines("INPUT(a)", "INPUT(b)", "q = DFF(y)", "y = AND(a, q)", "z = NOT(b)")
        circuit = circuit_of(net)
        every = (1, 2, 3, 4, 5)
        versions_of: Dict[str, Sequence[int]] = {"X": every, "O": every, "V2 X H0 O X": every, "V3 X X": (4, 5), "H0 H4 X O X": (4, 5), "F0 X X": (5,),
                                                 "V1 X F4 X X": (5,)}
        no_trees = ("V5 X X", "F5 X X", "V0 X", "X X", "V0 X X X", "", "Q", "V X X", "F X X", "V00 X X", "V1000003 X X")
        for tree in (*versions_of, *no_trees):
            wanted = versions_of.get(tree, ())
            for version in every:
                self.assertEqual(is_tree(tree.split(" "), circuit, version), version in wanted, (tree, version))
                if version in wanted:
                    read = proofs_of(lines(f"pdfgen proofs {version}", f"1 refutes robust rise 1 0 {tree}"), circuit)
                    self.assertEqual((read.version, read.proofs[0].tree), (version, tree))
        for version in every:
            self.assertEqual(proofs_of(f"pdfgen proofs {version}\n", circuit).version, version)

    def test_bits_as_hexadecimal_digits(self) -> None:
        chance = random.Random(1)
        for count in (1, 3, 4, 5, 8, 67):
            bits = "".join(chance.choice("01") for _ in range(count))
            digits = hexadecimal(bits)
            self.assertEqual("".join(f"{int(digit, 16):04b}" for digit in digits)[:count], bits)
        self.assertEqual(hexadecimal(""), "")
