"""Circuits: what a netlist says, and the values of its lines, beside the words of docs/model.md."""
from __future__ import annotations

import itertools
import random
import unittest
from typing import Dict, List, Optional, Sequence

from support import lines
from pdfgen_tools.bench import Circuit, Known, circuit_of
from pdfgen_tools.errors import Refused

KINDS = ("AND", "NAND", "OR", "NOR", "XOR", "XNOR")
Values = Sequence[Optional[int]]


def value_by_words(kind: str, pins: Values) -> Optional[int]:
    """A gate's value where some pins are unknown (None): that which it has with whatever values they take, if it is one alone."""
    found = set()
    for choice in itertools.product(*([value] if value is not None else [0, 1] for value in pins)):
        ones = sum(choice)
        plain = {"AND": ones == len(choice), "OR": ones > 0, "XOR": ones % 2 == 1, "BUFF": ones == 1}
        inverted = {"NAND": "AND", "NOR": "OR", "XNOR": "XOR", "NOT": "BUFF"}
        found.add(int(plain[kind] if kind in plain else not plain[inverted[kind]]))
    return found.pop() if len(found) == 1 else None


def random_circuit(chance: random.Random, gates: int) -> Circuit:
    """A circuit of four inputs, two flip-flops and so many gates of one to three pins."""
    names = ["a", "b", "c", "d", "p", "q"]
    rows = []
    for number in range(gates):
        kind = chance.choice((*KINDS, "NOT", "BUFF"))
        pins = [chance.choice(names) for _ in range(1 if kind in ("NOT", "BUFF") else chance.randint(1, 3))]
        rows.append(f"g{number} = {kind}({', '.join(pins)})")
        names.append(f"g{number}")
    chance.shuffle(rows)
    head = [f"INPUT({name})" for name in "abcd"] + [f"OUTPUT({names[-1]})", f"p = DFF({names[-2]})", f"q = DFF({names[6]})"]
    return circuit_of(lines(*head, *rows))


def by_words(circuit: Circuit, sources: Values) -> List[Optional[int]]:
    """The values of all lines of a circuit, one gate after the other."""
    values: Dict[int, Optional[int]] = dict(enumerate(sources))

    def value(line: int) -> Optional[int]:
        if line not in values:
            kind, pins = circuit.gates[line - circuit.source_count]
            values[line] = value_by_words(kind, [value(pin) for pin in pins])
        return values[line]

    return [value(line) for line in range(len(circuit.names))]


class LineValues(unittest.TestCase):
    def test_many_vectors_at_once(self) -> None:
        chance = random.Random(1)
        for _ in range(30):
            circuit = random_circuit(chance, 12)
            vectors = [[chance.randint(0, 1) for _ in range(6)] for _ in range(20)]
            every = (1 << len(vectors)) - 1
            values = circuit.values([sum(vector[source] << at for at, vector in enumerate(vectors)) for source in range(6)], every)
            for at, vector in enumerate(vectors):
                self.assertEqual([value >> at & 1 for value in values], by_words(circuit, vector))
            self.assertTrue(all(0 <= value <= every for value in values))

    def test_unknown_values(self) -> None:
        # by docs/model.md a line of unknown pins is known only where one gate's known pins settle it, gate by gate
        chance = random.Random(2)
        for _ in range(30):
            circuit = random_circuit(chance, 12)
            vectors = [[chance.choice((0, 1, None)) for _ in range(6)] for _ in range(20)]
            every = (1 << len(vectors)) - 1
            sources = [Known(*(sum((vector[source] == value) << at for at, vector in enumerate(vectors)) for value in (0, 1))) for source in range(6)]
            values = circuit.known_values(sources, every)
            for at, vector in enumerate(vectors):
                told = [0 if known.zeros >> at & 1 else 1 if known.ones >> at & 1 else None for known in values]
                self.assertEqual(told, self.gate_by_gate(circuit, vector))
            self.assertTrue(all(known.zeros & known.ones == 0 for known in values))

    def gate_by_gate(self, circuit: Circuit, sources: Values) -> List[Optional[int]]:
        values = [*sources, *[None] * len(circuit.gates)]
        for number in circuit.order:
            kind, pins = circuit.gates[number]
            inputs = [values[pin] for pin in pins]
            if kind in ("XOR", "XNOR") and None in inputs:
                values[circuit.source_count + number] = None
            else:
                values[circuit.source_count + number] = value_by_words(kind, inputs)
        return values


class Netlists(unittest.TestCase):
    def test_what_a_netlist_says(self) -> None:
        circuit = circuit_of(" input ( a )#x\nOutput(y)\nOUTPUT(y)\n\n\tq=dff(y) # \xff\nOUTPUT(q)\ny = buf ( n )\r\nn=INV(a)")
        self.assertEqual(circuit.names, ["a", "q", "y", "n"])
        self.assertEqual((circuit.inputs, circuit.outputs, circuit.observed, circuit.flip_flops), ([0], [2, 1], [2, 1], [(1, 2)]))
        self.assertEqual((circuit.gates, circuit.order), ([("BUFF", (3,)), ("NOT", (0,))], [1, 0]))

    def test_what_is_no_netlist_is_refused(self) -> None:
        for reason, text in (
                ("NET line 1: no statement", "INPUT(a"), ("NET line 1: no statement", "INPUT(a) b"), ("NET line 1: no statement", "y = AND()"),
                ("NET line 2: no statement", "INPUT(a)\nINPUT(\xe9)"), ("NET line 2: undefined b", "INPUT(a)\ny = NOT(b)\n"),
                ("NET line 2: twice a", "INPUT(a)\na = NOT(a)\n"), ("NET: loop at x", "x = NOT(z)\nz = NOT(x)\n"),
                ("NET line 2: unknown kind MUX", "INPUT(a)\ny = MUX(a)\n"), ("NET line 2: too many pins", "INPUT(a)\ny = NOT(a, a)\n"),
                ("NET line 1: no statement", f"INPUT({'a' * 256})"), ("NET line 2: too many pins", "INPUT(a)\ny = AND(" + "a," * 1024 + "a)")):
            with self.subTest(text[:40]), self.assertRaises(Refused) as raised:
                circuit_of(text)
            self.assertEqual(str(raised.exception), reason)
