"""Delay files, read by docs/formats.md ('Delay file'), and the lengths of paths under them.

Written from the documents alone: it shares no code with the program."""
from __future__ import annotations

import csv
import io
import re
from typing import Iterator, List, NamedTuple, Sequence

from pdfgen_tools.bench import Circuit
from pdfgen_tools.errors import Refused
from pdfgen_tools.run_files import Step

BYTE_ORDER_MARK = "\xef\xbb\xbf"
ONE, TWO = ["gate", "pin", "delay"], ["gate", "pin", "rise", "fall"]
GREATEST_DELAY = 1000000


class PinDelay(NamedTuple):
    """How long a pin takes to show that its line rose, and that it fell, in delay units."""
    rise: int
    fall: int

    def to(self, value: int) -> int:
        """The one of a line that ends at this value."""
        return self.rise if value else self.fall


class Delays(NamedTuple):
    """of_gate: for each gate the delays of its pins. are_two: whether the file tells rise and fall."""
    of_gate: List[List[PinDelay]]
    are_two: bool

    def greatest_length(self, steps: Sequence[Step]) -> int:
        """The length of a path where each pin takes the greater of its delays."""
        return sum(max(self.of_gate[gate][pin]) for gate, pin in steps)

    def final_length(self, steps: Sequence[Step], circuit: Circuit, finals: Sequence[int], number: int) -> int:
        """The length of a path for the final values of its lines: bit of this number of finals, by line."""
        return sum(self.of_gate[gate][pin].to(finals[circuit.gates[gate].pins[pin]] >> number & 1) for gate, pin in steps)


def rows_of(text: str) -> Iterator[List[str]]:
    """The rows of a csv text, blanks at both ends of its fields left out; empty lines are passed over."""
    begin = len(BYTE_ORDER_MARK) if text.startswith(BYTE_ORDER_MARK) else 0
    try:
        for row in csv.reader(io.StringIO(text[begin:], newline="")):
            if row:
                yield [field.strip(" \t") for field in row]
    except csv.Error as fault:
        raise Refused(f"DELAYS: {fault}")


def delays_of(text: str, circuit: Circuit) -> Delays:
    """The delays of a file with one delay for each pin, or with two."""
    rows = rows_of(text)
    head: List[str] = next(rows, [])
    if head not in (ONE, TWO):
        raise Refused(f"DELAYS row 1: neither {','.join(ONE)} nor {','.join(TWO)}")
    found = Delays([[PinDelay(1, 1)] * len(gate.pins) for gate in circuit.gates], head == TWO)
    for number, row in enumerate(rows, 2):
        if len(row) != len(head):
            raise Refused(f"DELAYS row {number}: not {len(head)} fields")
        gates, pins = gates_of(number, row[0], circuit), pins_of(number, row[1])
        numbers = [delay_of(number, field) for field in row[2:]]
        delay = PinDelay(numbers[0], numbers[-1])
        for gate in gates:
            annotate(found.of_gate[gate], pins, delay, number if row[0] != "*" else None)
    return found


def gates_of(number: int, name: str, circuit: Circuit) -> Sequence[int]:
    """The gates that a row names."""
    if name == "*":
        return range(len(circuit.gates))
    gate = circuit.gate_of(circuit.line_of[name]) if name in circuit.line_of else None
    if gate is None:
        raise Refused(f"DELAYS row {number}: unknown gate")
    return [gate]


def pins_of(number: int, field: str) -> int:
    """The pin that a row names, or -1 for all."""
    if field == "*":
        return -1
    if not re.fullmatch("[0-9]{1,4}", field) or int(field) >= 1024:
        raise Refused(f"DELAYS row {number}: bad pin")
    return int(field)


def delay_of(number: int, field: str) -> int:
    if not re.fullmatch("[0-9]{1,7}", field) or int(field) > GREATEST_DELAY:
        raise Refused(f"DELAYS row {number}: bad number")
    return int(field)


def annotate(pins: List[PinDelay], pin: int, delay: PinDelay, named_by: "int | None") -> None:
    """Gives a delay to one pin of a gate, or to all. named_by: the row that names this gate, which has to have the pin."""
    if pin < 0:
        pins[:] = [delay] * len(pins)
    elif pin < len(pins):
        pins[pin] = delay
    elif named_by is not None:
        raise Refused(f"DELAYS row {named_by}: bad pin")
