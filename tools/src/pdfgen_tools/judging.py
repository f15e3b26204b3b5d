"""When a pair of vectors is a test of a path (docs/model.md, 'When a pair is a test'), and of a mode ('Modes'), of many pairs at once.

Written from the documents alone: it shares no code with the program."""
from __future__ import annotations

from typing import Iterator, List, NamedTuple, Optional, Sequence, Tuple

from pdfgen_tools.bench import CONTROLLING, Circuit, Known
from pdfgen_tools.errors import Refused
from pdfgen_tools.run_files import Fault, Step, Test

MODES = ("enhanced", "broadside", "skewed")
PAIRS_AT_ONCE = 1024


class Link(NamedTuple):
    """A flip-flop whose second bit the mode makes from the first value of this line."""
    flip_flop: int
    line: int


class JudgedPairs:
    """The values of all lines under pairs of vectors: before, after and where steady. Bit n of each integer is of pair n; every has a 1
    for each pair."""

    def __init__(self, circuit: Circuit, pairs: Sequence[Tuple[str, str]]) -> None:
        self.circuit = circuit
        self.every = (1 << len(pairs)) - 1
        first = sources_of([first for first, _ in pairs], circuit.source_count)
        second = sources_of([second for _, second in pairs], circuit.source_count)
        self.before = circuit.values(first, self.every)
        self.after = circuit.values(second, self.every)
        known = [Known(self.every & ~(one | two), one & two) for one, two in zip(first, second)]
        self.steady = circuit.known_values(known, self.every)

    def launches(self, source: int, direction: str) -> int:
        """The pairs under which a source changes in this direction."""
        rising = ~self.before[source] & self.after[source]
        falling = self.before[source] & ~self.after[source]
        return self.every & (rising if direction == "rise" else falling)

    def meets(self, fault: Fault, kind: str) -> int:
        """The pairs that meet the conditions of this kind for the fault."""
        left = self.launches(fault.source, fault.direction)
        for step in fault.steps:
            if not left:
                break
            left = self.meets_at(step, kind, left)
        return left

    def serves(self, fault: Fault) -> int:
        """The pairs that are a robust test of the fault, or a nonrobust one where REPORT says nonrobust."""
        return self.meets(fault, "nonrobust" if fault.verdict == "nonrobust" else "robust")

    def meets_at(self, step: Step, kind: str, left: int) -> int:
        """Those of the pairs left under which all side pins of a step meet its condition."""
        gate_kind, pins = self.circuit.gates[step.gate]
        sides = [line for pin, line in enumerate(pins) if pin != step.pin]
        if gate_kind not in CONTROLLING:
            for line in sides if kind == "robust" else ():
                left &= self.steady[line].zeros | self.steady[line].ones
            return left
        controlling = CONTROLLING[gate_kind]
        on_path = self.after[pins[step.pin]]
        ends_controlling = on_path if controlling else self.every & ~on_path
        for line in sides:
            left &= ~self.after[line] if controlling else self.after[line]
            if kind == "robust":
                left &= ~ends_controlling | self.steady[line][1 - controlling]
        return left

    def values_after(self, lines: Sequence[int]) -> List[str]:
        """What these lines have under the second vector, a letter each, of each pair in turn."""
        return columns([self.after[line] for line in lines], self.every.bit_length())

    def values_before(self, lines: Sequence[int]) -> List[str]:
        """The same under the first vector."""
        return columns([self.before[line] for line in lines], self.every.bit_length())

    def broken_links(self, links: Sequence[Link]) -> List[Optional[int]]:
        """For each pair the first flip-flop whose second bit isn't what the mode makes it, or None."""
        broken: List[Optional[int]] = [None] * self.every.bit_length()
        left = self.every
        for flip_flop, line in links:
            wrong = left & (self.after[flip_flop] ^ self.before[line])
            left &= ~wrong
            for number in numbers_of(wrong):
                broken[number] = flip_flop
        return broken


def links_of(mode: str, circuit: Circuit, chains: Sequence[Sequence[int]]) -> List[Link]:
    """Which flip-flops a mode sets, and from which lines."""
    if mode == "broadside":
        return [Link(line, data) for line, data in circuit.flip_flops]
    if mode == "skewed":
        return [Link(flip_flop, before) for chain in chains for flip_flop, before in zip(chain[1:], chain)]
    return []


def sources_of(vectors: Sequence[str], count: int) -> List[int]:
    """The values of each source under vectors, bit n that of vector n."""
    if not vectors:
        return [0] * count
    return [int("".join(column)[::-1], 2) for column in zip(*vectors)]


def columns(values: Sequence[int], count: int) -> List[str]:
    """The other way round: for each of so many vectors the values of lines, a letter each."""
    if not values:
        return [""] * count
    rows = [format(value, f"0{count}b")[::-1] if count else "" for value in values]
    return ["".join(column) for column in zip(*rows)]


def numbers_of(bits: int) -> Iterator[int]:
    """The places of the ones of an integer, from the lowest."""
    while bits:
        lowest = bits & -bits
        yield lowest.bit_length() - 1
        bits ^= lowest


def batches(circuit: Circuit, tests: Sequence[Test]) -> Iterator[Tuple[Sequence[Test], JudgedPairs]]:
    """The tests in their order, as many at once as memory likes, with the values under their pairs."""
    for begin in range(0, len(tests), PAIRS_AT_ONCE):
        some = tests[begin:begin + PAIRS_AT_ONCE]
        yield some, JudgedPairs(circuit, [(test.first, test.second) for test in some])


def is_path(fault: Fault, circuit: Circuit) -> bool:
    """Whether the steps of a listed path connect, from its source to an observed line."""
    line = fault.source
    for gate, pin in fault.steps:
        if circuit.gates[gate].pins[pin] != line:
            return False
        line = circuit.source_count + gate
    return line in circuit.observed_set


def refuse_other_than_paths(faults: Sequence[Fault], circuit: Circuit) -> None:
    """Refuses the first listed path that is none of the circuit."""
    for fault in faults:
        if not is_path(fault, circuit):
            raise Refused(f"path {fault.path} WrongPath")
