"""Runs of modes broadside and skewed for any netlist, made up by chance: tests of paths that were traced back from what their pairs do."""
from __future__ import annotations

import random
from typing import List, NamedTuple, Optional, Sequence, Tuple

from packages import REPORT_HEADER
from pdfgen_tools.bench import CONTROLLING, Circuit
from pdfgen_tools.judging import JudgedPairs, links_of
from pdfgen_tools.run_files import Fault, Step


class Run(NamedTuple):
    """The texts of TESTS and REPORT."""
    tests: str
    report: str


def run_of(circuit: Circuit, mode: str, chains: Sequence[Sequence[int]], count: int, seed: int = 1) -> Run:
    """So many tests, each of a path of its own."""
    chance = random.Random(seed)
    tests: List[str] = []
    faults: List[str] = []
    while len(tests) < count:
        first, second = pair_of(circuit, mode, chains, chance)
        pairs = JudgedPairs(circuit, [(first, second)])
        after = pairs.values_after(range(len(circuit.names)))[0]
        steps = traced(circuit, chance.choice(circuit.observed), after, chance)
        source = circuit.gates[steps[0].gate].pins[steps[0].pin] if steps else None
        if steps is None or source is None or first[source] == second[source]:
            continue
        number, direction = len(tests) + 1, "rise" if second[source] == "1" else "fall"
        fault = Fault(number, direction, len(steps), source, steps, "", number, None, None)
        kind = next((kind for kind in ("robust", "nonrobust") if pairs.meets(fault, kind)), None)
        if kind is None:
            continue
        expected = "".join(after[line] for line in circuit.observed)
        tests.append(f"{number} {number} {direction} {kind} {first} {second} {expected}")
        spelled = " ".join(f"{circuit.names[circuit.source_count + gate]}:{pin}" for gate, pin in steps)
        for way in ("rise", "fall"):
            verdict = f"{kind},{number},{'-' if kind == 'robust' else 1},-" if way == direction else "untestable,-,-,1"
            faults.append(f"{number},{way},{len(steps)},{circuit.names[source]},{spelled},{verdict}")
    heads = ["pdfgen tests 1", " ".join(["sources", *circuit.names[:circuit.source_count]]),
             " ".join(["observed", *(circuit.names[line] for line in circuit.observed)])]
    return Run("\n".join(heads + tests) + "\n", "\n".join([REPORT_HEADER, *faults]) + "\n")


def pair_of(circuit: Circuit, mode: str, chains: Sequence[Sequence[int]], chance: random.Random) -> Tuple[str, str]:
    """A pair of a mode."""
    first = [chance.choice("01") for _ in range(circuit.source_count)]
    second = [chance.choice("01") for _ in range(circuit.source_count)]
    before = JudgedPairs(circuit, [("".join(first), "".join(first))]).values_before(range(len(circuit.names)))[0]
    for flip_flop, line in links_of(mode, circuit, chains):
        second[flip_flop] = before[line]
    return "".join(first), "".join(second)


def traced(circuit: Circuit, end: int, after: str, chance: random.Random) -> Optional[Tuple[Step, ...]]:
    """A path to this end whose side pins all end noncontrolling; None where none was met."""
    steps: List[Step] = []
    line = end
    while line >= circuit.source_count:
        kind, pins = circuit.gates[line - circuit.source_count]
        controlling = [pin for pin, read in enumerate(pins) if int(after[read]) == CONTROLLING.get(kind)]
        if len(controlling) > 1:
            return None
        pin = controlling[0] if controlling else chance.randrange(len(pins))
        steps.append(Step(line - circuit.source_count, pin))
        line = pins[pin]
    return tuple(steps[::-1]) or None
