"""A circuit, as read from a netlist in the .bench format, and the values of its lines (docs/model.md, 'Circuit' to 'Steadiness').

Sources are lines 0 to s - 1: the inputs, then the flip-flops. Gate g drives line s + g. Many vectors are taken at once: a line's values are
the bits of an integer, bit n that under vector n. Written from the documents alone: it shares no code with the program."""
from __future__ import annotations

import re
from typing import Dict, List, NamedTuple, Optional, Sequence, Tuple

from pdfgen_tools.errors import Refused

PINS_AT_MOST = {"AND": 1024, "NAND": 1024, "OR": 1024, "NOR": 1024, "XOR": 1024, "XNOR": 1024, "NOT": 1, "BUFF": 1, "DFF": 1}
OTHER_WORDS = {"INV": "NOT", "BUF": "BUFF"}
INVERTING = ("NAND", "NOR", "XNOR", "NOT")
CONTROLLING = {"AND": 0, "NAND": 0, "OR": 1, "NOR": 1}

BLANKS = r"[ \t\f\r]*"
NAME = r"[!$-'*+\--<>-~]{1,255}"
PORT = re.compile(rf"{BLANKS}(INPUT|OUTPUT){BLANKS}\({BLANKS}({NAME}){BLANKS}\){BLANKS}", re.IGNORECASE)
GATE = re.compile(rf"{BLANKS}({NAME}){BLANKS}={BLANKS}({NAME}){BLANKS}\({BLANKS}({NAME}(?:{BLANKS},{BLANKS}{NAME})*){BLANKS}\){BLANKS}")


class Gate(NamedTuple):
    """kind: AND, NAND, OR, NOR, XOR, XNOR, NOT or BUFF. pins: the lines that its pins read."""
    kind: str
    pins: Tuple[int, ...]


class FlipFlop(NamedTuple):
    """line: its own, a source. data: the line that it takes over."""
    line: int
    data: int


class Known(NamedTuple):
    """Values of a line of which some are unknown: in which vectors it has 0, and in which it has 1, for sure."""
    zeros: int
    ones: int


class Circuit:
    """names: of all lines, in their order; line_of: their numbers. inputs, outputs, observed: lines, each once; observed_set: the
    same as a set. order: gate numbers, each behind those that it reads."""

    def __init__(self, inputs: Sequence[str], outputs: Sequence[str], flip_flops: Sequence[Tuple[str, str]],
                 gates: Sequence[Tuple[str, str, Sequence[str]]]) -> None:
        self.names = [*inputs, *(name for name, _ in flip_flops), *(name for name, _, _ in gates)]
        self.line_of = {name: line for line, name in enumerate(self.names)}
        self.inputs = list(range(len(inputs)))
        self.source_count = len(inputs) + len(flip_flops)
        self.outputs = [self.line_of[name] for name in dict.fromkeys(outputs)]
        self.flip_flops = [FlipFlop(self.line_of[name], self.line_of[data]) for name, data in flip_flops]
        self.observed = list(dict.fromkeys(self.outputs + [flip_flop.data for flip_flop in self.flip_flops]))
        self.observed_set = frozenset(self.observed)
        self.gates = [Gate(kind, tuple(self.line_of[pin] for pin in pins)) for _, kind, pins in gates]
        self.order = self.gates_in_order()

    def gates_in_order(self) -> List[int]:
        """The gates, each behind those that it reads. A loop is refused."""
        readers: List[List[int]] = [[] for _ in self.names]
        for number, gate in enumerate(self.gates):
            for line in gate.pins:
                readers[line].append(number)
        unknown = [len(gate.pins) for gate in self.gates]
        order, known = [], list(range(self.source_count))
        for line in known:
            for number in readers[line]:
                unknown[number] -= 1
                if unknown[number] == 0:
                    order.append(number)
                    known.append(self.source_count + number)
        if len(order) < len(self.gates):
            looped = next(number for number, left in enumerate(unknown) if left)
            raise Refused(f"NET: loop at {self.names[self.source_count + looped]}")
        return order

    def values(self, sources: Sequence[int], every: int) -> List[int]:
        """The values of each line where the sources have these. every: an integer with a 1 for each vector."""
        values = [*sources, *[0] * len(self.gates)]
        for number in self.order:
            kind, pins = self.gates[number]
            value = values[pins[0]]
            if kind in ("AND", "NAND"):
                for line in pins[1:]:
                    value &= values[line]
            elif kind in ("OR", "NOR"):
                for line in pins[1:]:
                    value |= values[line]
            else:
                for line in pins[1:]:
                    value ^= values[line]
            values[self.source_count + number] = value ^ every if kind in INVERTING else value
        return values

    def known_values(self, sources: Sequence[Known], every: int) -> List[Known]:
        """The same where some values are unknown: a line's value is known where those at the pins that are known settle it."""
        values = [*sources, *[Known(0, 0)] * len(self.gates)]
        for number in self.order:
            kind, pins = self.gates[number]
            value = known_value(kind, [values[line] for line in pins], every)
            values[self.source_count + number] = value
        return values

    def gate_of(self, line: int) -> Optional[int]:
        """The number of the gate that drives a line, or None of a source."""
        return line - self.source_count if line >= self.source_count else None

    def gate_named(self, name: str) -> Gate:
        """The gate that drives the line of this name; Refused where there is none."""
        line = self.line_of.get(name, 0)
        number = self.gate_of(line) if self.gates else None
        if number is None:
            raise Refused(f"NET: no gate {name}")
        return self.gates[number]


def known_value(kind: str, pins: Sequence[Known], every: int) -> Known:
    """The value of a gate of this kind at these values of its pins."""
    if kind in CONTROLLING:
        zeros, ones = (0, every) if CONTROLLING[kind] == 0 else (every, 0)
        for pin in pins:
            zeros, ones = (zeros | pin.zeros, ones & pin.ones) if CONTROLLING[kind] == 0 else (zeros & pin.zeros, ones | pin.ones)
    else:
        zeros, ones = pins[0]
        for pin in pins[1:]:
            zeros, ones = zeros & pin.zeros | ones & pin.ones, zeros & pin.ones | ones & pin.zeros
    return Known(ones, zeros) if kind in INVERTING else Known(zeros, ones)


def circuit_of(netlist: str) -> Circuit:
    """The circuit of a netlist's text; Refused with the line where it is none."""
    inputs: List[str] = []
    outputs: List[str] = []
    flip_flops: List[Tuple[str, str]] = []
    gates: List[Tuple[str, str, Sequence[str]]] = []
    uses: List[Tuple[str, int]] = []
    defined: Dict[str, int] = {}

    def defines(name: str, number: int) -> None:
        if name in defined:
            raise Refused(f"NET line {number}: twice {name}")
        defined[name] = number

    for number, line in enumerate(netlist.split("\n"), 1):
        text = line.split("#")[0]
        port, gate = PORT.fullmatch(text), GATE.fullmatch(text)
        if gate:
            name, kind, pins = parts_of(gate, number)
            defines(name, number)
            uses += [(pin, number) for pin in pins]
            if kind == "DFF":
                flip_flops.append((name, pins[0]))
            else:
                gates.append((name, kind, pins))
        elif port and port[1].upper() == "INPUT":
            defines(port[2], number)
            inputs.append(port[2])
        elif port:
            uses.append((port[2], number))
            outputs.append(port[2])
        elif text.strip(" \t\f\r"):
            raise Refused(f"NET line {number}: no statement")
    for name, number in uses:
        if name not in defined:
            raise Refused(f"NET line {number}: undefined {name}")
    return Circuit(inputs, outputs, flip_flops, gates)


def parts_of(gate: "re.Match[str]", number: int) -> Tuple[str, str, List[str]]:
    """Name, kind and pins of a matched gate or flip-flop."""
    kind = OTHER_WORDS.get(gate[2].upper(), gate[2].upper())
    pins = re.findall(NAME, gate[3])
    if kind not in PINS_AT_MOST:
        raise Refused(f"NET line {number}: unknown kind {gate[2]}")
    if len(pins) > PINS_AT_MOST[kind]:
        raise Refused(f"NET line {number}: too many pins")
    return gate[1], kind, pins
