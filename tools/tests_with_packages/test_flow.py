"""The whole way of examples/chip, from Verilog to STIL, and what it wrote played on a good chip."""
from __future__ import annotations

import re
from typing import List

from packages import EXAMPLES, PROGRAM, printed
from stil_support import StilTest, chip
from pdfgen_tools.bench import circuit_of
from pdfgen_tools.names import map_of
from pdfgen_tools.run_files import tests_of


class Flow(StilTest):
    def flows(self, mode: str) -> None:
        """Goes the whole way in a mode, and plays what it wrote."""
        told = printed([str(EXAMPLES / "chip" / "flow"), str(self.folder), mode, PROGRAM])
        self.assertIn(" forgotten 0 ", told)
        self.assertEqual(told.count("\ngood\n"), 2)
        circuit, found = circuit_of(self.read("chip.bench")), map_of(self.read("chip.map"))
        tests = tests_of(self.read("chip.kept"), circuit)
        self.write("stil", self.read("chip.stil"))
        chains: List[str] = [" ".join(chain.split("\n")) for chain in self.read("chip.scan").strip("\n").split("\n\n")]
        good = chip(circuit, chains, clock="clk", resets={held.name: 1 - held.value for held in found.held})
        player = self.played(good, self.strobed())
        launches = self.launches(player)
        self.assertEqual([(launch.before, launch.after) for launch in launches], [(test.first, test.second) for test in tests])
        self.assertEqual({launch.time for launch in launches}, {700})

    def strobed(self) -> int:
        """How many bits STIL compares, counted in its vectors."""
        vectors = re.findall(r"= *([LHX]+);", self.read("chip.stil"))
        return sum(letter in "LH" for bits in vectors for letter in bits)

    def test_from_verilog_to_stil(self) -> None:
        self.flows("broadside")

    def test_launched_by_the_last_shift(self) -> None:
        self.flows("skewed")
