"""A design as SDF names it, beside NET: its cells and ports by their names, which pin of NET carries which delay, and what drives what."""
from __future__ import annotations

import re
from typing import Dict, NamedTuple, Optional, Set, Tuple

from pdfgen_tools.bench import Circuit
from pdfgen_tools.errors import Refused
from pdfgen_tools.names import Cell, Map, Port, unescaped

OUTPUT_OF_GATE, OUTPUT_OF_FLIP_FLOP = "Y", "Q"
DATA, CLOCK = "D", "C"
RESETS = ("R", "S")  # which the tester holds inactive


class Pin(NamedTuple):
    """A pin as SDF names it: of a cell, or a port, which has no cell."""
    cell: str
    name: str

    def told(self) -> str:
        return f"{self.cell}/{self.name}" if self.cell else self.name


class GatePin(NamedTuple):
    """A pin of a gate of NET, both by their numbers."""
    gate: int
    pin: int


class GateCell(NamedTuple):
    """gate: its number in NET. pins: the numbers of its pins that NET has. still: those at a constant, which NET doesn't have."""
    gate: int
    pins: Dict[str, int]
    still: Tuple[str, ...]


class FlipFlopCell(NamedTuple):
    """data: the line that its pin D reads. setup, clock_to_q: the pins of NET that carry these times, where it has such."""
    data: int
    setup: Optional[GatePin]
    clock_to_q: Optional[GatePin]


class OutputPort(NamedTuple):
    """line: the one whose value the port shows. wire: the pin of NET that carries the delay of the wire to it, where there is one."""
    line: int
    wire: Optional[GatePin]


class Design:
    """gates, flip_flops, outputs: by names. left_out: cells that NET doesn't have, as a flip-flop that keeps its value. scopes: names of
    instances that have cells inside. drivers: the line that each output of a cell and each input port drives, None where NET has no such
    line. clocks, constants: names of ports. active: the edge at which flip-flops take their data. wire_count: of how many pins of NET the
    wire's delay may be told. The map has to fit the circuit (names.fit)."""

    def __init__(self, circuit: Circuit, map_: Map) -> None:
        self.circuit = circuit
        still = {unescaped(cell.name): cell.pins for cell in map_.stills}
        self.gates = {unescaped(cell.name): self.gate_cell(cell, still) for cell in map_.gates}
        setups = {row.name: self.buffer(row.line) for row in map_.setups}
        clock_to_qs = {row.name: self.buffer(row.line) for row in map_.clock_to_qs}
        wires = {row.name: self.buffer(row.line) for row in map_.output_wires}
        data = {flip_flop.line: flip_flop.data for flip_flop in circuit.flip_flops}
        self.flip_flops = {unescaped(row.name): self.flip_flop_cell(row, data, setups, clock_to_qs) for row in map_.flip_flops}
        self.outputs = {unescaped(row.name): self.output_port(row, wires) for row in map_.outputs}
        self.left_out = {unescaped(row.name) for row in map_.settled} | (still.keys() - self.gates.keys())
        self.clocks = {unescaped(clock.port) for clock in map_.clocks}
        self.constants = {unescaped(row.name) for row in map_.constants}
        self.active = map_.clocks[0].edge if map_.clocks else "rising"
        self.drivers = self.find_drivers(map_)
        self.scopes = self.find_scopes()
        self.wire_count = sum(len(gate.pins) for gate in self.gates.values()) + len(setups) + len(wires)

    def buffer(self, name: str) -> GatePin:
        """The pin of a buffer that carries a time."""
        if self.circuit.gate_named(name).kind != "BUFF":
            raise Refused(f"MAP: {name} is no buffer of NET")
        return GatePin(self.number(name), 0)

    def number(self, name: str) -> int:
        """The number of the gate that drives this line."""
        return self.circuit.line_of[name] - self.circuit.source_count

    def gate_cell(self, cell: Cell, still: Dict[str, Tuple[str, ...]]) -> GateCell:
        pins = {unescaped(pin): at for at, pin in enumerate(cell.pins)}
        return GateCell(self.number(cell.line), pins, tuple(map(unescaped, still.get(unescaped(cell.name), ()))))

    def flip_flop_cell(self, row: Port, data: Dict[int, int], setups: Dict[str, GatePin], clock_to_qs: Dict[str, GatePin]) -> FlipFlopCell:
        setup = setups.get(row.name)
        read = data[self.circuit.line_of[row.line]] if setup is None else self.circuit.gates[setup.gate].pins[0]
        return FlipFlopCell(read, setup, clock_to_qs.get(row.name))

    def output_port(self, row: Port, wires: Dict[str, GatePin]) -> OutputPort:
        wire = wires.get(row.name)
        return OutputPort(self.circuit.line_of[row.line] if wire is None else self.circuit.gates[wire.gate].pins[0], wire)

    def find_drivers(self, map_: Map) -> Dict[Pin, Optional[int]]:
        """The line that each output of a cell and each input port drives."""
        line_of, behind = self.circuit.line_of, {row.name: row.line for row in map_.clock_to_qs}
        without_line = [Pin("", name) for name in [*(unescaped(row.name) for row in map_.held), *self.clocks]]
        without_line += [Pin(name, output) for name in self.left_out for output in (OUTPUT_OF_GATE, OUTPUT_OF_FLIP_FLOP)]
        return {
            **{Pin("", unescaped(row.name)): line_of[row.line] for row in map_.inputs},
            **{Pin(unescaped(gate.name), OUTPUT_OF_GATE): line_of[gate.line] for gate in map_.gates},
            **{Pin(unescaped(row.name), OUTPUT_OF_FLIP_FLOP): line_of[behind.get(row.name, row.line)] for row in map_.flip_flops},
            **dict.fromkeys(without_line)}

    def find_scopes(self) -> Set[str]:
        """The names of instances that have cells inside: beginnings of flattened names, up to a point."""
        names = [name for name in [*self.gates, *self.flip_flops, *self.left_out] if "." in name]
        return {name[:found.start()] for name in names for found in re.finditer(r"\.", name)}
