"""What a page is told of a run, as JSON that page.html reads. Names, gates and values are told once and called by numbers."""
from __future__ import annotations

import json
from typing import Dict, Iterator, List, NamedTuple, Optional, Sequence, Tuple

from pdfgen_tools.bench import Circuit
from pdfgen_tools.errors import Refused
from pdfgen_tools.judging import JudgedPairs, batches
from pdfgen_tools.proofs import Proof, Proofs
from pdfgen_tools.run_files import DIRECTIONS, Fault, Test, end_of

VERDICTS = ("robust", "nonrobust", "untestable", "aborted")
VECTOR_BITS_AT_MOST = 40_000_000  # of all tests; more aren't told, TESTS has them


class Run(NamedTuple):
    circuit: Circuit
    tests: List[Test]
    faults: List[Fault]
    proofs: Proofs


def refuse_other_runs(run: Run) -> None:
    """Refuses a verdict whose test or proof isn't one of it: TESTS, REPORT and PROOFS have to be of one run."""
    paths = {fault.path: fault for fault in run.faults}
    if sum(fault.test is not None for fault in run.faults) != len(run.tests):
        raise Refused("count 2 WrongCount")
    for number, fault in enumerate(run.faults, 1):
        if fault.test is not None:
            test = run.tests[fault.test - 1]
            if (test.path, test.direction, test.kind) != (fault.path, fault.direction, fault.verdict):
                raise Refused(f"fault {number} BadTest")
        for proof in (fault.robust_proof, fault.nonrobust_proof):
            if proof is not None and not applies(proof, fault, run.proofs.proofs, paths):
                raise Refused(f"fault {number} names proof {proof}, which is none of it")


def applies(number: int, fault: Fault, proofs: Sequence[Proof], paths: Dict[int, Fault]) -> bool:
    """Whether a proof speaks of a fault: of its path, or of the first steps of its path."""
    if number > len(proofs):
        return False
    proof = proofs[number - 1]
    told = paths.get(proof.path)
    return (told is not None and proof.direction == fault.direction and told.source == fault.source
            and proof.steps <= min(len(told.steps), len(fault.steps)) and told.steps[:proof.steps] == fault.steps[:proof.steps])


class Numbers:
    """Numbers from 0 for what is told once, in the order in which it comes."""

    def __init__(self) -> None:
        self.of: Dict[int, int] = {}

    def number(self, thing: int) -> int:
        return self.of.setdefault(thing, len(self.of))


def value_letter(pairs: JudgedPairs, line: int, number: int) -> str:
    """What a line does under a pair: 0 and 1 steady, r and f a change, a and b the same 0 or 1 at both ends, but not steady."""
    before, after = pairs.before[line] >> number & 1, pairs.after[line] >> number & 1
    if before != after:
        return "r" if after else "f"
    steady = (pairs.steady[line].ones if after else pairs.steady[line].zeros) >> number & 1
    return "01"[after] if steady else "ab"[after]


def values_of_tests(run: Run) -> Iterator[str]:
    """For each test the letters of all pins of each step's gate, those on the path among them, and of the end."""
    by_test = {fault.test: fault for fault in run.faults if fault.test is not None}
    for some, pairs in batches(run.circuit, run.tests):
        for number, test in enumerate(some):
            fault = by_test[test.number]
            lines = [line for gate, _ in fault.steps for line in run.circuit.gates[gate].pins] + [end_of(fault, run.circuit)]
            yield "".join(value_letter(pairs, line, number) for line in lines)


def hexadecimal(bits: str) -> str:
    """Bits as hexadecimal digits, four a digit from the left, the last one filled up with 0."""
    digits = -(-len(bits) // 4)
    return f"{int(bits.ljust(4 * digits, '0'), 2):0{digits}x}" if bits else ""


def vectors_of_tests(run: Run) -> Optional[List[str]]:
    """Both vectors of each test, where they aren't too much to be told."""
    if 2 * len(run.tests) * run.circuit.source_count > VECTOR_BITS_AT_MOST:
        return None
    return [f"{hexadecimal(test.first)} {hexadecimal(test.second)}" for test in run.tests]


def told_paths(run: Run, gates: Numbers) -> Iterator[List[int]]:
    """Each path once: its length, its source, and then gate and pin of each step."""
    for fault in run.faults[::2]:
        yield [fault.length, fault.source, *(number for gate, pin in fault.steps for number in (gates.number(gate), pin))]


def told_fault(fault: Fault) -> Tuple[int, int, int, int, int, int]:
    """Path, direction, verdict, test and proofs, 0 where there is none."""
    return (fault.path, DIRECTIONS.index(fault.direction), VERDICTS.index(fault.verdict), fault.test or 0, fault.robust_proof or 0,
            fault.nonrobust_proof or 0)


def told_tree(tree: str, lines: Numbers) -> str:
    """A tree with the numbers by which lines are told in those of its splits."""
    return " ".join(node if node in ("X", "O") else f"{node[0]}{lines.number(int(node[1:]))}" for node in tree.split(" "))


def data_of(run: Run, title: str) -> str:
    """The JSON of a run. Lines that are told get numbers: sources their own, those of gates on paths and of their pins behind these, and then
    those of gates at which trees split."""
    circuit, gates = run.circuit, Numbers()
    paths = list(told_paths(run, gates))
    lines = Numbers()
    for source in range(circuit.source_count):
        lines.number(source)
    told_gates = [[circuit.gates[gate].kind, lines.number(circuit.source_count + gate), *map(lines.number, circuit.gates[gate].pins)] for gate in gates.of]
    proofs = [[proof.word, proof.kind, proof.path, proof.steps, told_tree(proof.tree, lines)] for proof in run.proofs.proofs]
    told = {
        "title": title, "version": run.proofs.version, "sources": circuit.source_count, "names": [circuit.names[line] for line in lines.of],
        "gates": told_gates, "paths": paths, "faults": [told_fault(fault) for fault in run.faults], "values": list(values_of_tests(run)),
        "vectors": vectors_of_tests(run), "proofs": proofs}
    return json.dumps(told, separators=(",", ":"))
