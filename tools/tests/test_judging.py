"""Which pairs are tests of which paths: many pairs at once beside docs/model.md, 'When a pair is a test', read for one pair."""
from __future__ import annotations

import itertools
import random
import unittest
from typing import List, Sequence, Tuple

import support
from pdfgen_tools.bench import CONTROLLING, Circuit
from pdfgen_tools.judging import JudgedPairs, Link, columns, links_of, numbers_of
from pdfgen_tools.run_files import Fault, Step
from test_bench import LineValues, by_words, random_circuit

assert support


def paths(circuit: Circuit) -> List[Tuple[int, Tuple[Step, ...]]]:
    """All paths of a circuit: their sources and steps."""
    found: List[Tuple[int, Tuple[Step, ...]]] = []

    def extend(line: int, steps: Tuple[Step, ...], source: int) -> None:
        if line in circuit.observed_set:
            found.append((source, steps))
        for number, gate in enumerate(circuit.gates):
            for pin, read in enumerate(gate.pins):
                if read == line:
                    extend(circuit.source_count + number, (*steps, Step(number, pin)), source)

    for source in range(circuit.source_count):
        extend(source, (), source)
    return found


def is_test(circuit: Circuit, first: str, second: str, source: int, steps: Sequence[Step], direction: str, kind: str) -> bool:
    """Whether a pair meets the conditions of this kind, one side pin after the other."""
    bits = [[int(bit) for bit in vector] for vector in (first, second)]
    after = by_words(circuit, bits[1])
    steady = LineValues().gate_by_gate(circuit, [a if a == b else None for a, b in zip(*bits)])
    if (bits[0][source], bits[1][source]) != ((0, 1) if direction == "rise" else (1, 0)):
        return False
    for gate, on_path in steps:
        gate_kind, pins = circuit.gates[gate]
        for side in (line for pin, line in enumerate(pins) if pin != on_path):
            if gate_kind in ("XOR", "XNOR"):
                good = kind == "nonrobust" or steady[side] is not None
            elif kind == "robust" and after[pins[on_path]] == CONTROLLING[gate_kind]:
                good = steady[side] == 1 - CONTROLLING[gate_kind]
            else:
                good = after[side] == 1 - CONTROLLING[gate_kind]
            if not good:
                return False
    return True


class Judging(unittest.TestCase):
    def test_conditions_of_all_pairs_and_paths(self) -> None:
        chance = random.Random(3)
        seen = {(kind, found): 0 for kind in ("robust", "nonrobust") for found in (False, True)}
        for _ in range(8):
            circuit = random_circuit(chance, 7)
            pairs = [tuple("".join(chance.choice("01") for _ in range(6)) for _ in range(2)) for _ in range(30)]
            judged = JudgedPairs(circuit, [(first, second) for first, second in pairs])
            for (source, steps), direction, kind in itertools.product(paths(circuit)[:40], ("rise", "fall"), ("robust", "nonrobust")):
                meets = judged.meets(Fault(1, direction, 0, source, steps, kind, 1, None, None), kind)
                for number, (first, second) in enumerate(pairs):
                    wanted = is_test(circuit, first, second, source, steps, direction, kind)
                    self.assertEqual(bool(meets >> number & 1), wanted)
                    seen[kind, wanted] += 1
                self.assertEqual(meets & ~judged.every, 0)
        self.assertGreater(min(seen.values()), 100)

    def test_serving_is_robust_or_as_report_says(self) -> None:
        circuit = random_circuit(random.Random(4), 1)
        judged = JudgedPairs(circuit, [("000000", "100000"), ("100000", "000000"), ("000000", "000000")])
        for verdict in ("robust", "nonrobust", "untestable", "aborted"):
            self.assertEqual(judged.serves(Fault(1, "rise", 0, 0, (), verdict, None, None, None)), 0b001)
            self.assertEqual(judged.serves(Fault(1, "fall", 0, 0, (), verdict, None, None, None)), 0b010)

    def test_links_of_modes(self) -> None:
        circuit = random_circuit(random.Random(5), 3)  # sources a b c d p q
        p, q = (circuit.line_of[name] for name in "pq")
        self.assertEqual(links_of("enhanced", circuit, [[p, q]]), [])
        self.assertEqual(links_of("broadside", circuit, []), [Link(p, circuit.flip_flops[0].data), Link(q, circuit.flip_flops[1].data)])
        self.assertEqual(links_of("skewed", circuit, [[p, q]]), [Link(q, p)])
        judged = JudgedPairs(circuit, [("000010", "000001"), ("000010", "000010"), ("000000", "000010"), ("000000", "000001")])
        self.assertEqual(judged.broken_links(links_of("skewed", circuit, [[p, q]])), [None, q, None, q])
        self.assertEqual(judged.broken_links(links_of("skewed", circuit, [[q, p]])), [None, p, p, None])

    def test_values_by_pair(self) -> None:
        circuit = random_circuit(random.Random(6), 3)
        judged = JudgedPairs(circuit, [("100000", "010000"), ("001000", "000110")])
        self.assertEqual((judged.values_before([0, 2, 5]), judged.values_after([1, 3, 4])), (["100", "010"], ["100", "011"]))
        self.assertEqual((columns([], 3), columns([0b10], 2)), (["", "", ""], ["0", "1"]))
        self.assertEqual(list(numbers_of(0b10110)), [1, 2, 4])
