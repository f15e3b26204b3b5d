"""The files of a run, read by docs/formats.md: TESTS, REPORT and SCAN. A file has one spelling; the first line without it is refused.

Written from the documents alone: it shares no code with the program."""
from __future__ import annotations

import re
from typing import Callable, Collection, List, NamedTuple, Optional, Sequence, Tuple, TypeVar

from pdfgen_tools.bench import Circuit
from pdfgen_tools.errors import Refused

DIRECTIONS = ("rise", "fall")
HEADER = "path,direction,length,source,steps,verdict,test,robust_proof,nonrobust_proof"
NAMES_OF_VERDICT = {  # which it names: a test, a robust proof, a nonrobust proof
    "robust": (True, False, False), "nonrobust": (True, True, False), "untestable": (False, False, True), "aborted": (False, True, True)}
NUMBER = re.compile("0|[1-9][0-9]*")
TEST = re.compile(f"({NUMBER.pattern}) ({NUMBER.pattern}) (rise|fall) (robust|nonrobust) ([01]+) ([01]+) ([01]+)")
Line = TypeVar("Line")


class Test(NamedTuple):
    """first, second: the two vectors, a letter 0 or 1 for each source. expected: one for each observed line."""
    number: int
    path: int
    direction: str
    kind: str
    first: str
    second: str
    expected: str


class Step(NamedTuple):
    """A gate of a path, by its number, and the pin at which the path enters it."""
    gate: int
    pin: int


class Fault(NamedTuple):
    """A line of REPORT. source: its line. What the verdict doesn't name is None."""
    path: int
    direction: str
    length: int
    source: int
    steps: Tuple[Step, ...]
    verdict: str
    test: Optional[int]
    robust_proof: Optional[int]
    nonrobust_proof: Optional[int]


def forms(role: str, text: str, least: Callable[[int], int], read_line: Callable[[int, str], Optional[Line]]) -> List[Line]:
    """What read_line makes of the lines of a file, in order; it answers None where a line lacks its form. least: of how many lines read,
    how many there have to be."""
    *lines, rest = text.split("\n")
    read: List[Line] = []
    for number, line in enumerate(lines, 1):
        found = read_line(number, line)
        if found is None:
            raise Refused(f"{role} line {number} malformed")
        read.append(found)
    if rest or len(lines) < least(len(lines)):
        raise Refused(f"{role} line {len(lines) + 1} malformed")
    return read


def heading(word: str, circuit: Circuit, lines: Sequence[int]) -> str:
    """A heading of TESTS: the word, then the names of these lines."""
    return " ".join([word, *(circuit.names[line] for line in lines)])


def tests_of(text: str, circuit: Circuit) -> List[Test]:
    """The tests of TESTS' text, numbered from 1 in their order."""
    headings = ["pdfgen tests 1", heading("sources", circuit, range(circuit.source_count)), heading("observed", circuit, circuit.observed)]
    tests: List[Test] = []

    def read_line(number: int, line: str) -> Optional[str]:
        if number <= len(headings):
            return line if line == headings[number - 1] else None
        test = test_of(line, number - len(headings), circuit)
        if test is None:
            return None
        tests.append(test)
        return line

    forms("TESTS", text, lambda count: len(headings), read_line)
    return tests


def test_of(line: str, number: int, circuit: Circuit) -> Optional[Test]:
    """The test of a line, or None."""
    found = TEST.fullmatch(line)
    if not found or found[1] != str(number) or len(found[2]) > 5 or not 1 <= int(found[2]) <= 10000:
        return None
    if [len(found[at]) for at in (5, 6, 7)] != [circuit.source_count, circuit.source_count, len(circuit.observed)]:
        return None
    return Test(number, int(found[2]), found[3], found[4], found[5], found[6], found[7])


def faults_of(text: str, circuit: Circuit) -> List[Fault]:
    """The faults of REPORT's text, in its order: of each path the rising one, then the falling one."""
    counts = {"tests": 0, "proofs": 0}
    faults: List[Fault] = []

    def read_line(number: int, line: str) -> Optional[str]:
        if number == 1:
            return line if line == HEADER else None
        fault = fault_of(line, circuit)
        if fault is None or not follows(fault, faults, counts):
            return None
        faults.append(fault)
        return line

    forms("REPORT", text, lambda count: count + 1 - count % 2, read_line)
    return faults


def fault_of(line: str, circuit: Circuit) -> Optional[Fault]:
    """The fault of a line by itself, or None."""
    fields = line.split(",")
    if len(fields) != 9 or fields[1] not in DIRECTIONS or fields[5] not in NAMES_OF_VERDICT:
        return None
    path, length, *named = (int(fields[at]) if NUMBER.fullmatch(fields[at]) and len(fields[at]) <= 20 else None for at in (0, 2, 6, 7, 8))
    spelled = all(number is not None or field == "-" for number, field in zip(named, fields[6:]))
    source = circuit.line_of.get(fields[3], circuit.source_count)
    steps = steps_of(fields[4], circuit)
    if tuple(number is not None for number in named) != NAMES_OF_VERDICT[fields[5]] or not spelled:
        return None
    if path is None or length is None or length >= 2**64 or source >= circuit.source_count or steps is None:
        return None
    return Fault(path, fields[1], length, source, steps, fields[5], *named)


def steps_of(text: str, circuit: Circuit) -> Optional[Tuple[Step, ...]]:
    """The steps of a path, or None. Names may have colons: the last one parts gate and pin."""
    steps: List[Step] = []
    for word in text.split(" ") if text != "-" else ():
        name, _, pin = word.rpartition(":")
        line = circuit.line_of.get(name, 0)
        gate = circuit.gate_of(line) if circuit.gates else None
        if gate is None or not NUMBER.fullmatch(pin) or len(pin) > 4 or int(pin) >= len(circuit.gates[gate].pins):
            return None
        steps.append(Step(gate, int(pin)))
    return tuple(steps)


def follows(fault: Fault, faults: Sequence[Fault], counts: "dict[str, int]") -> bool:
    """Whether a fault may stand behind these, by path, direction and the numbers that it names."""
    path, direction = len(faults) // 2 + 1, DIRECTIONS[len(faults) % 2]
    if (fault.path, fault.direction) != (path, direction):
        return False
    if direction == "fall" and fault[2:5] != faults[-1][2:5]:
        return False
    if fault.test is not None:
        counts["tests"] += 1
        if fault.test != counts["tests"]:
            return False
    for proof in (fault.robust_proof, fault.nonrobust_proof):
        if proof is not None:
            if not 1 <= proof <= counts["proofs"] + 1:
                return False
            counts["proofs"] = max(counts["proofs"], proof)
    return True


def end_of(fault: Fault, circuit: Circuit) -> int:
    """The line at which a fault's path ends."""
    return circuit.source_count + fault.steps[-1].gate if fault.steps else fault.source


def chains_of(text: str, circuit: Circuit, unscanned: Collection[str] = ()) -> List[List[int]]:
    """The scan chains of SCAN's text: lists of flip-flops' lines, each from its scan-in side. Only those called unscanned may be missing."""
    flip_flops = {circuit.names[line]: line for line, _ in circuit.flip_flops}
    *lines, rest = text.split("\n")
    count = len(lines) + (rest != "")
    chains: List[List[int]] = []
    seen = set()
    for number, name in enumerate(lines, 1):
        parts_chains = name == "" and 1 < number < count and lines[number - 2] != ""
        if not parts_chains and name not in flip_flops:
            raise Refused(f"SCAN line {number}: unknown {name}")
        if name in seen:
            raise Refused(f"SCAN line {number}: twice {name}")
        if number == 1 or parts_chains:
            chains.append([])
        if not parts_chains:
            seen.add(name)
            chains[-1].append(flip_flops[name])
    if rest:
        raise Refused(f"SCAN line {count}: no LF at its end")
    for name in flip_flops:
        if name not in seen and name not in unscanned:
            raise Refused(f"SCAN: missing {name}")
    return chains
