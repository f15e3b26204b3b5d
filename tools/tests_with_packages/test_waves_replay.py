"""pdfgen-waves prints what `pdfgen replay` and `pdfgen rfreplay` print, on 200 tests of random circuits, and its VCD has the same bits."""
from __future__ import annotations

import random
import re
from typing import List

from packages import PROGRAM, ToolTest, lines, printed
from pdfgen_tools.bench import Circuit, circuit_of
from pdfgen_tools.cli.waves import main
from test_waves import read_vcd

TESTS_WANTED = 200


def random_net(chance: random.Random) -> str:
    """A netlist of four inputs, two flip-flops and 14 gates."""
    names, gates = ["a", "b", "c", "d", "p", "q"], []
    for number in range(14):
        kind = chance.choice(("AND", "NAND", "OR", "NOR", "XOR", "XNOR", "NOT", "BUFF"))
        pins = chance.sample(names[-7:], 1 if kind in ("NOT", "BUFF") else chance.randint(2, 3))
        gates.append(f"g{number} = {kind}({', '.join(pins)})")
        names.append(f"g{number}")
    return lines(*(f"INPUT({name})" for name in "abcd"), "OUTPUT(g13)", "OUTPUT(g9)", "p = DFF(g12)", "q = DFF(g11)", *gates)


def random_rows(circuit: Circuit, chance: random.Random, count: int) -> str:
    """A delay file with so many delays for each pin."""
    rows = ["gate,pin,delay" if count == 1 else "gate,pin,rise,fall"]
    for number, gate in enumerate(circuit.gates):
        for pin in range(len(gate.pins)):
            told = [circuit.names[circuit.source_count + number], pin, *(chance.randint(0, 9) for _ in range(count))]
            rows.append(",".join(map(str, told)))
    return lines(*rows)


class Replays(ToolTest):
    def replayed(self, count: int) -> int:
        """Compares all tests of one random circuit at one time, with one delay or two for each pin. Answers how many these are."""
        net = self.write("net", random_net(self.chance))
        circuit = circuit_of(self.read("net"))
        delays = self.write("delays", random_rows(circuit, self.chance, count))
        one, tests, report, proofs = self.write("one", "gate,pin,delay\n"), self.path("tests"), self.path("report"), self.path("proofs")
        printed([PROGRAM, "gen", net, one, tests, report, proofs, "--paths", "30"])
        time = str(self.chance.randint(0, 25))
        told = printed([PROGRAM, "replay", net, delays, tests, time] if count == 1 else [PROGRAM, "rfreplay", net, delays, tests, report, time])
        for number, line in enumerate(told.splitlines(), 1):
            words = [net, delays, tests, report, self.path("vcd"), "--test", str(number), "--time", time, "--all"]
            self.assertEqual(self.call(main, *words), line + "\n")
            self.assertEqual(self.bits_of_vcd(circuit, int(time)), line.split(" ")[1])
        return told.count("\n")

    def bits_of_vcd(self, circuit: Circuit, time: int) -> str:
        """What the observed lines have at the sample, by the file."""
        names, values = read_vcd(self.read("vcd"))
        code_of = {re.sub("^[a-z_]+[.]", "", name): code for name, code in names.items()}
        sample = values[code_of["sample"]][-1][0]
        bits: List[int] = [[value for at, value in values[code_of[circuit.names[line]]] if at <= sample][-1] for line in circuit.observed]
        return "".join(map(str, bits))

    def test_200_tests(self) -> None:
        for count in (1, 2):
            self.chance, compared = random.Random(count), 0
            while compared < TESTS_WANTED:
                compared += self.replayed(count)
