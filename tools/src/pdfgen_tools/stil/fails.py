"""Which test, which flip-flop or output, and which bit of NET a tester's failing cycles are of.

FAILS is csv: its first row is cycle,pin,value, then a row for each failing bit: the cycle's number, counted as the tester does, the pin, and
what the chip had there: 0, 1, or Z or X where it was neither."""
from __future__ import annotations

import bisect
import csv
import io
import re
from typing import Dict, List, Mapping, NamedTuple, Optional, Sequence, Tuple

from pdfgen_tools.bench import Circuit
from pdfgen_tools.errors import Refused
from pdfgen_tools.names import Map, unescaped
from pdfgen_tools.run_files import Test
from pdfgen_tools.stil.building import LABEL
from pdfgen_tools.stil.chip import ScanCell, ScanChain
from pdfgen_tools.stil.cycles import repetitions_of
from pdfgen_tools.stil.model import Call, Chain, Program, SetTable, Shift, Vector, cell_names

FAILS_HEAD = ["cycle", "pin", "value"]
VALUES = {"0": "0", "1": "1", "L": "0", "H": "1", "Z": "Z", "X": "X", "z": "Z", "x": "X"}


class Fail(NamedTuple):
    """A row of FAILS. cycle: counted from 0."""
    row: int
    cycle: int
    pin: str
    value: str


def fails_of(text: str, first_cycle: int) -> List[Fail]:
    """The rows of FAILS' text, where the tester counts cycles from first_cycle on."""
    try:
        rows = [row for row in csv.reader(io.StringIO(text, newline=""), strict=True) if row]
    except csv.Error as fault:
        raise Refused(f"FAILS: no csv ({fault})")
    if rows[:1] != [FAILS_HEAD]:
        raise Refused(f"FAILS row 1: not {','.join(FAILS_HEAD)}")
    fails = []
    for number, row in enumerate(rows[1:], 2):
        if len(row) != 3 or not re.fullmatch("[0-9]{1,15}", row[0]) or int(row[0]) < first_cycle or row[2] not in VALUES:
            raise Refused(f"FAILS row {number}: not a cycle from {first_cycle} on, a pin, and 0, 1, Z or X")
        fails.append(Fail(number, int(row[0]) - first_cycle, row[1], VALUES[row[2]]))
    return fails


class Played(NamedTuple):
    """What a file plays of a test: its place in the pattern's cycles, and its letters. capture: the cycle that samples; unload: the first cycle
    that shifts what was sampled. load: strings by scan inputs; first, second: letters of inputs before and after the launch; outputs: what
    is compared at the sample, unloaded: what is compared as it is shifted out, by pins."""
    number: int
    capture: int
    unload: int
    load: Mapping[str, str]
    first: Mapping[str, str]
    second: Mapping[str, str]
    outputs: Mapping[str, str]
    unloaded: Mapping[str, str]


class Place(NamedTuple):
    """Cycles of a program in which something is compared, and the test that has sampled it, by its place among those played. call: the strings
    where these cycles shift, else letters: what is compared in the one cycle that there is."""
    begins: int
    cycles: int
    test: int
    letters: Mapping[str, str]
    shifts: bool


class Reading(NamedTuple):
    """A fail, read. test: what the file plays. line: the line of NET that was sampled; cell: the flip-flop, if one took it, with its chain
    and its position there from the scan input, counted from 1. expected: what the pin should have had."""
    fail: Fail
    test: Played
    line: int
    chain: Optional[Chain]
    position: int
    expected: str


class Session:
    """A program that a tester plays, by its tests."""

    def __init__(self, program: Program, circuit: Circuit, map_: Optional[Map]) -> None:
        self.program, self.circuit = program, circuit
        self.members = {group.name: group.members for group in program.groups}
        self.line_of_input = self.lines_of(circuit.inputs, [(port.name, port.line) for port in map_.inputs] if map_ else None)
        self.line_of_output = self.lines_of(circuit.outputs, [(port.name, port.line) for port in map_.outputs] if map_ else None)
        flip_flops = [flip_flop.line for flip_flop in circuit.flip_flops]
        named = cell_names((unescaped(circuit.names[line]) if map_ else circuit.names[line], circuit.names[line]) for line in flip_flops)
        self.line_of_cell = dict(zip(named, flip_flops))
        self.data_of = dict(circuit.flip_flops)
        for chain in program.chains:
            for cell in chain.cells:
                if cell.name not in self.line_of_cell:
                    raise Refused(f"STIL: no flip-flop {cell.name} in NET (of another run, or with another MAP?)")
        self.chain_of_output = {chain.scan_out: chain for chain in program.chains}
        self.tests: List[Played] = []
        self.places: List[Place] = []
        self.cycles = 0
        self.read_pattern()
        self.begins = [place.begins for place in self.places]

    def lines_of(self, lines: Sequence[int], named: Optional[Sequence[Tuple[str, str]]]) -> Dict[str, int]:
        """Lines of NET by the names of their pins."""
        if named is None:
            return {self.circuit.names[line]: line for line in lines}
        for name, line in named:
            if line not in self.circuit.line_of:
                raise Refused(f"MAP: {name} isn't of NET")
        return {unescaped(name): self.circuit.line_of[line] for name, line in named}

    def letters_of(self, vector: Vector) -> Dict[str, str]:
        """The letters of a vector's pins."""
        found: Dict[str, str] = {}
        for name, letters in vector.values.items():
            pins = self.members.get(name, (name,))
            if len(pins) != len(letters):
                raise Refused(f"STIL: {name} has another number of pins than letters")
            found.update(zip(pins, letters))
        return found

    def read_pattern(self) -> None:
        """Goes through the pattern: a call unloads what the vectors before it have sampled."""
        letters: Dict[str, str] = {}
        vectors: List[Tuple[int, Dict[str, str]]] = []  # of the present test, each with its cycle
        load: Optional[Call] = None
        for statement in self.program.pattern:
            if isinstance(statement, Vector):
                letters = {**letters, **self.letters_of(statement)}
                vectors.append((self.cycles, letters))
                self.cycles += 1
            elif isinstance(statement, Call):
                before, shifts = self.cycles_of_call(statement)
                if load is not None:
                    self.add_test(load, vectors, statement, self.cycles + before)
                load, vectors = statement, []
                self.cycles += before + shifts

    def cycles_of_call(self, call: Call) -> Tuple[int, int]:
        """How many cycles a call has before it shifts, and while it does."""
        before, shifts = 0, 0
        for statement in self.program.procedures.get(call.procedure, ()):
            if isinstance(statement, Vector) and not shifts:
                before += 1
            elif isinstance(statement, Shift) and not shifts:
                shifts = repetitions_of(statement, call)
            elif not isinstance(statement, SetTable):
                raise Refused("STIL: a procedure that pdfgen-stil doesn't write")
        return before, shifts

    def add_test(self, load: Call, vectors: Sequence[Tuple[int, Dict[str, str]]], unload: Call, unloads_at: int) -> None:
        """Takes in a test: three vectors settle, launch and sample."""
        number = re.fullmatch(f"{LABEL}([1-9][0-9]{{0,4}})", load.label)
        lengths = [len(chain.cells) for chain in self.program.chains
                   if len(load.values.get(chain.scan_in, "")) < len(chain.cells) or len(unload.values.get(chain.scan_out, "")) < len(chain.cells)]
        if number is None or len(vectors) != 3 or lengths or (self.tests and int(number[1]) <= self.tests[-1].number):
            raise Refused(f"STIL: no test of pdfgen-stil at the label {load.label}")
        (_, first), (_, second), (capture, sample) = vectors
        outputs = {pin: letter for pin, letter in sample.items() if pin in self.line_of_output}
        unloaded = {pin: letters for pin, letters in unload.values.items() if pin in self.chain_of_output}
        place = len(self.tests)
        self.tests.append(Played(int(number[1]), capture, unloads_at, load.values, first, second, outputs, unloaded))
        self.places.append(Place(capture, 1, place, outputs, False))
        self.places.append(Place(unloads_at, len(next(iter(unloaded.values()), "")), place, unloaded, True))

    def read_fail(self, fail: Fail) -> Reading:
        """What a fail is of; Refused where the file compares nothing there, or expects just this."""
        at = bisect.bisect_right(self.begins, fail.cycle) - 1
        place = self.places[at] if at >= 0 else None
        if place is None or fail.cycle >= place.begins + place.cycles or fail.pin not in place.letters:
            raise Refused(f"FAILS row {fail.row}: nothing is compared at {fail.pin} in this cycle (counted from 0 or 1?)")
        offset = fail.cycle - place.begins
        expected = {"L": "0", "H": "1"}.get(place.letters[fail.pin][offset])
        if expected is None:
            raise Refused(f"FAILS row {fail.row}: nothing is compared at {fail.pin} in this cycle (counted from 0 or 1?)")
        if expected == fail.value:
            raise Refused(f"FAILS row {fail.row}: {fail.pin} is to have {expected} in this cycle, so that is no fail")
        test = self.tests[place.test]
        if not place.shifts:
            return Reading(fail, test, self.line_of_output[fail.pin], None, 0, expected)
        chain = self.chain_of_output[fail.pin]
        position = len(chain.cells) - offset
        if position < 1:
            raise Refused(f"FAILS row {fail.row}: {chain.name} is shorter than what STIL compares")
        return Reading(fail, test, self.data_of[self.line_of_cell[chain.cells[position - 1].name]], chain, position, expected)

    def compares_all(self, test: Played) -> bool:
        """Whether a test compares all observed lines."""
        compared = {self.line_of_output[pin] for pin, letter in test.outputs.items() if letter != "X"}
        for pin, letters in test.unloaded.items():
            cells = self.chain_of_output[pin].cells
            compared.update(self.data_of[self.line_of_cell[cell.name]] for cell, letter in zip(reversed(cells), letters) if letter != "X")
        return compared.issuperset(self.circuit.observed)

    def chains(self) -> List[ScanChain]:
        """The chains by lines of NET."""
        return [ScanChain(tuple(ScanCell(self.line_of_cell[cell.name], cell.name, cell.inverted) for cell in chain.cells), chain.inverted_out,
                          chain.scan_in, chain.scan_out) for chain in self.program.chains]

    def applied(self, test: Played, listed: Test) -> Test:
        """The pair that a file gives the chip for a test, as far as it sets it: other flip-flops have 0."""
        first, second = (["0"] * self.circuit.source_count for _ in range(2))
        for pin, line in self.line_of_input.items():
            first[line], second[line] = test.first.get(pin, "0"), test.second.get(pin, "0")
        for chain in self.chains():
            string, inverted = test.load[chain.scan_in][::-1], False
            for cell, letter in zip(chain.cells, string):
                inverted ^= cell.inverted
                first[cell.line] = turned(letter, inverted)
            launching = test.first if chain.scan_in in self.line_of_input else test.second
            second[chain.cells[0].line] = turned(launching.get(chain.scan_in, "0"), chain.cells[0].inverted)
        if not {*first, *second} <= {"0", "1"}:
            raise Refused(f"STIL: test {test.number} drives something else than 0 and 1")
        return listed._replace(first="".join(first), second="".join(second))


def turned(letter: str, inverted: bool) -> str:
    """A letter behind an inversion, or without one."""
    return {"0": "1", "1": "0"}.get(letter, letter) if inverted else letter


def note(program: Program, pattern: str) -> Optional[str]:
    """What a note of a program says, by a pattern with one group, or None."""
    found = [match[1] for match in (re.fullmatch(pattern, text) for text in program.notes) if match]
    return found[0] if len(found) == 1 else None


