"""What a chip is really given by tests: pairs in which held pins keep their values, flip-flops on no chain begin with unknown ones, and
the second vector is what the chip makes of the first. And which of its bits a tester compares."""
from __future__ import annotations

from typing import Dict, FrozenSet, Iterator, List, Mapping, NamedTuple, Sequence, Set

from pdfgen_tools.bench import CONTROLLING, Circuit, Known
from pdfgen_tools.errors import Refused
from pdfgen_tools.judging import PAIRS_AT_ONCE, links_of, numbers_of, sources_of
from pdfgen_tools.run_files import Fault, Step, Test, end_of
from pdfgen_tools.stil.chip import Chip, ScanChain

UNKNOWN = Known(0, 0)
CHIP_LIMITS = "no tests of their paths with this chip's held pins, inversions and flip-flops on no chain"
SHARED = "a scan input, shared with an input, has to have another value at the launch than under the first vector"
UNSEEN = "their paths end where nothing is compared"


class Given(NamedTuple):
    """What of a chip makes pairs other than TESTS has them. forced: values that inputs of NET keep. unscanned: flip-flops on no chain."""
    forced: Mapping[int, int]
    unscanned: FrozenSet[int]
    chains: Sequence[ScanChain]


class AppliedPairs:
    """The values of all lines under what tests give a chip: before, after, and where steady. Bit n of each integer is of pair n; every has
    a 1 for each pair."""

    def __init__(self, circuit: Circuit, given: Given, mode: str, tests: Sequence[Test]) -> None:
        self.circuit = circuit
        self.count = len(tests)
        self.every = (1 << len(tests)) - 1
        self.tests = tests
        first = self.applied(sources_of([test.first for test in tests], circuit.source_count), given)
        for line in given.unscanned:
            first[line] = UNKNOWN
        self.before = circuit.known_values(first, self.every)
        second = self.applied(sources_of([test.second for test in tests], circuit.source_count), given)
        for line, value in self.launched(given, mode).items():
            second[line] = value
        self.after = circuit.known_values(second, self.every)
        self.steady = circuit.known_values([Known(one.zeros & two.zeros, one.ones & two.ones) for one, two in zip(first, second)], self.every)

    def applied(self, values: Sequence[int], given: Given) -> List[Known]:
        """The sources' values in a vector, those of forced inputs among them."""
        known = [Known(self.every & ~value, value) for value in values]
        for line, value in given.forced.items():
            known[line] = Known(0, self.every) if value else Known(self.every, 0)
        return known

    def launched(self, given: Given, mode: str) -> Dict[int, Known]:
        """What the launch makes of the flip-flops: their data lines, or in mode skewed the cells before them, but for the first of chains."""
        launched = {flip_flop.line: self.before[flip_flop.data] for flip_flop in self.circuit.flip_flops}
        if mode == "skewed":
            for chain in given.chains:
                launched.pop(chain.cells[0].line)
                for cell, ahead in zip(chain.cells[1:], chain.cells):
                    zeros, ones = self.before[ahead.line]
                    launched[cell.line] = Known(ones, zeros) if cell.inverted else Known(zeros, ones)
        return launched

    def launches(self, source: int, direction: str) -> int:
        """The pairs under which a source changes in this direction."""
        rises = direction == "rise"
        return self.before[source][not rises] & self.after[source][rises]

    def serves(self, fault: Fault) -> int:
        """The pairs that are a robust test of the fault, or a nonrobust one where REPORT says nonrobust, whatever unknown values are."""
        robust = fault.verdict != "nonrobust"
        left = self.launches(fault.source, fault.direction)
        for step in fault.steps:
            if not left:
                break
            left = self.meets_at(step, robust, left)
        return left

    def meets_at(self, step: Step, robust: bool, left: int) -> int:
        """Those of the pairs left under which all side pins of a step meet its condition."""
        kind, pins = self.circuit.gates[step.gate]
        sides = [line for pin, line in enumerate(pins) if pin != step.pin]
        if kind not in CONTROLLING:
            for line in sides if robust else ():
                left &= self.steady[line].zeros | self.steady[line].ones
            return left
        controlling = CONTROLLING[kind]
        ends_noncontrolling = self.after[pins[step.pin]][1 - controlling]
        for line in sides:
            left &= self.after[line][1 - controlling]
            if robust:
                left &= ends_noncontrolling | self.steady[line][1 - controlling]
        return left


class AppliedTests(NamedTuple):
    """Tests that a chip is given at once, with their values. compared: of each line, under which of them its value is compared, and
    at_outputs: the same where it is an output. kept: the numbers of those that aren't left out, from 0."""
    pairs: AppliedPairs
    compared: Dict[int, int]
    at_outputs: Dict[int, int]
    kept: List[int]


class Judge:
    """Judges tests against a run's REPORT, and says which bits are compared. refused: the tests that the chip can't be given, or that show
    nothing there, by reason."""

    def __init__(self, circuit: Circuit, chip: Chip, mode: str, faults: Sequence[Fault], unmasked: bool, mask_outputs: bool) -> None:
        self.circuit, self.chip, self.mode, self.faults = circuit, chip, mode, faults
        self.unmasked, self.mask_outputs = unmasked, mask_outputs
        self.seen = lines_seen(circuit, chip, mask_outputs)
        self.place_of = {(fault.path, fault.direction): place for place, fault in enumerate(faults)}
        self.refused: Dict[str, List[int]] = {}
        inverted = any(cell.inverted for chain in chip.chains for cell in chain.cells[1:])
        self.is_limited = bool(chip.forced or chip.unscanned or (mode == "skewed" and inverted))
        chains = [[cell.line for cell in chain.cells] for chain in chip.chains]
        self.links = links_of(mode, circuit, chains)

    def batches(self, tests: Sequence[Test]) -> Iterator[AppliedTests]:
        """The tests in their order, as many at once as memory likes."""
        for begin in range(0, len(tests), PAIRS_AT_ONCE):
            yield self.judged(tests[begin:begin + PAIRS_AT_ONCE])

    def judged(self, tests: Sequence[Test]) -> AppliedTests:
        """These tests with their values. Refused where one isn't of the mode, expects wrong bits or is of another run."""
        pairs = AppliedPairs(self.circuit, Given(self.chip.forced, self.chip.unscanned, self.chip.chains), self.mode, tests)
        self.refuse_wrong(pairs)
        served = [pairs.serves(fault) for fault in self.faults]
        self.refuse_other_runs(pairs, served)
        compared: Dict[int, int] = {}
        for fault, serving in zip(self.faults, served):
            end = end_of(fault, self.circuit)
            compared[end] = compared.get(end, 0) | serving
        if self.unmasked:
            compared = {line: pairs.every for line in self.circuit.observed}
        compared = {line: bits & (pairs.after[line].zeros | pairs.after[line].ones) for line, bits in compared.items() if line in self.seen}
        return AppliedTests(pairs, compared, {} if self.mask_outputs else compared, self.kept(pairs, served, compared))

    def refuse_wrong(self, pairs: AppliedPairs) -> None:
        """Refuses a test whose own pair isn't of the mode, or which expects wrong bits."""
        first, second = (sources_of(vectors, self.circuit.source_count) for vectors in zip(*((test.first, test.second) for test in pairs.tests)))
        before, after = self.circuit.values(first, pairs.every), self.circuit.values(second, pairs.every)
        wrong: Dict[int, str] = {}
        for link in self.links:
            for number in numbers_of(after[link.flip_flop] ^ before[link.line]):
                wrong.setdefault(number, f"no pair of mode {self.mode}, at flip-flop {self.circuit.names[link.flip_flop]} (of enhanced scan?)")
        expected = sources_of([test.expected for test in pairs.tests], len(self.circuit.observed))
        for line, bits in zip(self.circuit.observed, expected):
            for number in numbers_of(after[line] ^ bits):
                wrong.setdefault(number, "expects wrong bits")
        if wrong:
            raise Refused(f"test {pairs.tests[min(wrong)].number}: {wrong[min(wrong)]}")

    def refuse_other_runs(self, pairs: AppliedPairs, served: Sequence[int]) -> None:
        """Refuses a test whose path REPORT doesn't list, or, where nothing of the chip limits tests, doesn't list as one that it serves."""
        for number, test in enumerate(pairs.tests):
            place = self.place_of.get((test.path, test.direction))
            if place is None or not (self.is_limited or served[place] >> number & 1):
                raise Refused(f"test {test.number}: no test of path {test.path}, {test.direction}, that REPORT lists (of another run?)")

    def kept(self, pairs: AppliedPairs, served: Sequence[int], compared: Dict[int, int]) -> List[int]:
        """The places of the tests that show something of their own path. The others are refused by number."""
        kept, unshared = [], self.unshared(pairs)
        for number, test in enumerate(pairs.tests):
            place = self.place_of[test.path, test.direction]
            if not served[place] >> number & 1:
                self.refused.setdefault(CHIP_LIMITS, []).append(test.number)
            elif unshared >> number & 1:
                self.refused.setdefault(SHARED, []).append(test.number)
            elif not compared.get(end_of(self.faults[place], self.circuit), 0) >> number & 1:
                self.refused.setdefault(UNSEEN, []).append(test.number)
            else:
                kept.append(number)
        return kept

    def unshared(self, pairs: AppliedPairs) -> int:
        """The tests that a scan input can't be given which is an input, too: the last shift takes in what that has under the first vector."""
        line_of = {pin.name: pin.line for pin in self.chip.inputs}
        unshared = 0
        for chain in self.chip.chains if self.mode == "skewed" else ():
            if chain.scan_in in line_of:
                cell = chain.cells[0]
                unshared |= pairs.before[line_of[chain.scan_in]].ones ^ pairs.after[cell.line][0 if cell.inverted else 1]
        return unshared


def lines_seen(circuit: Circuit, chip: Chip, mask_outputs: bool) -> Set[int]:
    """The observed lines that a tester sees: those of outputs, if not masked, and the data lines of flip-flops on chains."""
    scanned = {cell.line for chain in chip.chains for cell in chain.cells}
    seen = {flip_flop.data for flip_flop in circuit.flip_flops if flip_flop.line in scanned}
    return seen if mask_outputs else seen.union(circuit.outputs)


def bits_of(value: Known, compared: int, count: int) -> str:
    """What is compared of a line under each pair: L, H, or X where it isn't."""
    if not compared:
        return "X" * count
    letters = {("0", "0"): "X", ("0", "1"): "X", ("1", "0"): "L", ("1", "1"): "H"}
    return "".join(letters[pair] for pair in zip(row_of(compared, count), row_of(value.ones, count)))


def row_of(bits: int, count: int) -> str:
    """The bits of an integer as letters, bit 0 first."""
    return format(bits, f"0{count}b")[::-1]


def transposed(rows: Sequence[str], count: int) -> Sequence[str]:
    """Of rows with a letter for each pair, the letters of each pair in turn."""
    return ["".join(column) for column in zip(*rows)] if rows else [""] * count
