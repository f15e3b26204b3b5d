"""What the entries of an SDF file say of a netlist's pins: each is read, or counted with the reason why not, or the file is refused.

A delay that NET has no pin for (clock-to-Q and setup times without buffers, wires to outputs and of the clock) is refused, but where it
is 0 or where the caller leaves that kind out: paths would be shorter by it."""
from __future__ import annotations

import collections
import re
from decimal import Decimal
from typing import Callable, Collection, Counter, Dict, Iterable, Iterator, List, NamedTuple, NoReturn, Optional, Sequence, Tuple

from pdfgen_tools.errors import Refused
from pdfgen_tools.sdf.design import CLOCK, DATA, OUTPUT_OF_FLIP_FLOP, OUTPUT_OF_GATE, RESETS, Design, FlipFlopCell, GateCell, GatePin, Pin
from pdfgen_tools.sdf.entries import BOTH, Cell, Check, DelayFile, Edge, Path, PortSpec, Triple, Value, Wire
from pdfgen_tools.sdf.tables import Delay, NothingToAddTo, PathDelays, SetupTimes, WireDelays

CORNERS = ("min", "typ", "max")
FLIP_FLOPS, OUTPUT_WIRES, CLOCK_WIRES = "flip-flops", "output-wires", "clock-wires"
LEFT_OUT = (FLIP_FLOPS, OUTPUT_WIRES, CLOCK_WIRES)  # the kinds of delays that a caller may leave out
ADVICE = {
    FLIP_FLOPS: "NET has no buffer for it (--flip-flop-delays of pdfgen-from-yosys; --leave-out flip-flops)",
    OUTPUT_WIRES: "NET has no buffer for it (--output-delays of pdfgen-from-yosys; --leave-out output-wires)",
    CLOCK_WIRES: "NET has no clock (--leave-out clock-wires)"}
ZERO = Decimal(0)
NUMBERS_KEPT = 100000
PORTS_AT_MOST = 8  # of a cell whose delays have conditions
TYPE_OF_YOSYS = re.compile(r"\$_([A-Z]+)_")
KINDS_OF_YOSYS = {"BUF": "BUFF"}


class ToldDelay(NamedTuple):
    """The delays of a pin of NET, by the transition of the line that it reads; None where SDF doesn't tell it."""
    pin: GatePin
    rise: Delay
    fall: Delay


class Annotation:
    """paths, setups, wires: by the pins of NET. read: how many entries. ignored: how many are not read, and parts of those that are, by
    the reason. refuse_at: how a place of the file is refused."""

    def __init__(self, design: Design, corner: str, left_out: Collection[str], divider: str,
                 refuse_at: Callable[[int, str], NoReturn]) -> None:
        self.design, self.corner, self.left_out, self.refuse_at = design, CORNERS.index(corner), left_out, refuse_at
        self.divider = divider
        self.part = re.compile(rf"(?:[^\\{re.escape(divider)}]|\\.)+")
        self.paths: Dict[GatePin, PathDelays] = {}
        self.setups: Dict[GatePin, SetupTimes] = {}
        self.wires: Dict[GatePin, WireDelays] = {}
        self.read = 0
        self.ignored: Counter[str] = collections.Counter()
        self.at, self.cell = 0, ""
        self.numbers_known: Dict[Triple, Decimal] = {}

    def refuse(self, reason: str) -> NoReturn:
        """Refuses the entry that is being read."""
        self.refuse_at(self.at, f"cell {self.cell or '-'}: {reason}")

    def take(self, file: DelayFile) -> None:
        """Takes in all cells of a file."""
        for cell in file.cells:
            self.at = cell.at
            self.take_cell(cell)

    def take_cell(self, cell: Cell) -> None:
        self.cell = ".".join(self.parts(cell.instance))
        self.ignored.update(cell.passed_over)
        gate, flip_flop = self.design.gates.get(self.cell), self.design.flip_flops.get(self.cell)
        is_scope = self.cell == "" or self.cell in self.design.scopes
        if gate:
            self.refuse_other_kind(cell, gate)
        elif not flip_flop and self.cell not in self.design.left_out and not is_scope:
            self.refuse("none of MAP")
        for path in cell.paths:
            self.at = path.at
            self.take_path(path, gate, flip_flop)
        for check in cell.checks:
            self.at = check.at
            self.take_check(check, flip_flop)
        for wire in cell.wires:
            self.at = wire.at
            self.take_wire(wire, is_scope and not gate and not flip_flop)

    def refuse_other_kind(self, cell: Cell, gate: GateCell) -> None:
        """Refuses a gate of another kind than NET has: SDF is of another mapping. A gate with pins at a constant may have changed."""
        kind = TYPE_OF_YOSYS.fullmatch(cell.kind.replace("\\", ""))
        in_net = self.design.circuit.gates[gate.gate].kind
        if kind and not gate.still and KINDS_OF_YOSYS.get(kind[1], kind[1]) != in_net:
            self.refuse(f"it is of type {cell.kind}, and of kind {in_net} in NET")

    def take_path(self, path: Path, gate: Optional[GateCell], flip_flop: Optional[FlipFlopCell]) -> None:
        """An IOPATH: from an input of a cell to its output."""
        values = self.numbers(path.values, path.is_increment)
        output = OUTPUT_OF_FLIP_FLOP if flip_flop else OUTPUT_OF_GATE
        name, sink = self.name(path.source.name), self.name(path.sink)
        if not gate and not flip_flop:
            if self.cell not in self.design.left_out:
                self.refuse("an IOPATH of no cell")
            self.ignored["cells that NET doesn't have"] += 1
        elif sink != output:
            self.refuse(f"MAP has no output {sink}")
        elif gate:
            self.take_gate_path(path, name, gate, values)
        elif flip_flop:
            self.take_clock_to_q(path, name, flip_flop, values)

    def take_gate_path(self, path: Path, name: str, gate: GateCell, values: Sequence[Delay]) -> None:
        if name in gate.still:
            self.ignored["pins at a constant"] += 1
            return
        if name not in gate.pins:
            self.refuse(f"MAP has no pin {name}")
        if path.condition:
            ports = {*gate.pins, *gate.still}
            self.refuse_ports([port for port in path.condition.ports if port not in ports], len(ports))
        self.add_path(path, GatePin(gate.gate, gate.pins[name]), values)

    def take_clock_to_q(self, path: Path, name: str, flip_flop: FlipFlopCell, values: Sequence[Delay]) -> None:
        if name in RESETS:
            self.ignored["resets"] += 1
            return
        if name != CLOCK:
            self.refuse(f"MAP has no path from {name}")
        self.refuse_other_edge(path.source)
        if path.condition:
            self.refuse_ports([], len(path.condition.ports))
        if flip_flop.clock_to_q is None:
            self.leave_out(FLIP_FLOPS, "a clock-to-Q time", values)
        else:  # both edges of the clock's pin stand for the active one: the buffer's pin reads the flip-flop's output
            self.add_path(path._replace(source=PortSpec(name, BOTH, "")), flip_flop.clock_to_q, values)

    def add_path(self, path: Path, pin: GatePin, values: Sequence[Delay]) -> None:
        found = self.paths.get(pin)
        if found is None:
            found = self.paths[pin] = PathDelays()
        try:
            found.take(path, values)
        except NothingToAddTo:
            self.refuse("INCREMENT where no delay stands before it")
        if path.is_increment:
            self.refuse_negative(found.told())
        self.read += 1

    def refuse_negative(self, values: Iterable[Delay]) -> None:
        if any(value is not None and value < 0 for value in values):
            self.refuse("a negative delay")

    def refuse_ports(self, others: Sequence[str], count: int) -> None:
        """Refuses a condition that reads other ports than the cell has, or too many."""
        if others:
            self.refuse(f"a condition reads {others[0]}, which MAP doesn't have")
        if count > PORTS_AT_MOST:
            self.refuse(f"a condition, and more than {PORTS_AT_MOST} ports")

    def refuse_other_edge(self, clock: PortSpec) -> None:
        """Refuses a clock's edge at which the flip-flop doesn't take its data."""
        if clock.word and clock.edges != ((Edge.RISE,) if self.design.active == "rising" else (Edge.FALL,)):
            self.refuse(f"({clock.word} {clock.name}), and the flip-flop takes its data at the {self.design.active} edge")

    def take_check(self, check: Check, flip_flop: Optional[FlipFlopCell]) -> None:
        """A SETUP or a SETUPHOLD. A setup time below 0 counts as 0."""
        time, name = self.number(check.setup), self.name(check.data.name)
        if flip_flop is None:
            if self.cell not in self.design.left_out:
                self.refuse("a setup time of no flip-flop")
            self.ignored["cells that NET doesn't have"] += 1
            return
        if name in RESETS:
            self.ignored["resets"] += 1
            return
        if name != DATA or self.name(check.clock.name) != CLOCK:
            self.refuse(f"MAP has no setup time of {name} before {check.clock.name}")
        self.refuse_other_edge(check.clock)
        if time is not None and time < 0:
            self.ignored["setup times below 0"] += 1
            time = Decimal(0)
        if flip_flop.setup is None:
            self.leave_out(FLIP_FLOPS, "a setup time", [time])
            return
        if time is not None:
            self.setups.setdefault(flip_flop.setup, SetupTimes()).take(check.data.edges, time, check.condition)
        self.read += 1

    def take_wire(self, wire: Wire, is_scope: bool) -> None:
        """An INTERCONNECT, or a PORT: the wire to the pin at its end. Inside of a cell only its own pins are named, by PORT."""
        values = self.numbers(wire.values, wire.is_increment)
        if not is_scope and wire.source:
            self.refuse("an INTERCONNECT inside of it")
        sink = self.pin(wire.sink)
        source = self.pin(wire.source) if wire.source else None
        if source and source not in self.design.drivers:
            self.refuse(f"MAP has no driver {source.told()}")
        if sink.cell:
            self.take_wire_to_cell(wire, source, sink, values)
        else:
            self.take_wire_to_port(wire, source, sink, values)

    def take_wire_to_cell(self, wire: Wire, source: Optional[Pin], sink: Pin, values: Sequence[Delay]) -> None:
        gate, flip_flop = self.design.gates.get(sink.cell), self.design.flip_flops.get(sink.cell)
        if sink.cell in self.design.left_out:
            self.ignored["cells that NET doesn't have"] += 1
        elif gate and sink.name in gate.still:
            self.ignored["pins at a constant"] += 1
        elif gate and sink.name in gate.pins:
            pin = GatePin(gate.gate, gate.pins[sink.name])
            self.refuse_other_driver(source, sink, self.design.circuit.gates[pin.gate].pins[pin.pin])
            self.add_wire(wire, pin, values)
        elif flip_flop and sink.name in RESETS:
            self.ignored["resets"] += 1
        elif flip_flop and sink.name == CLOCK:
            if source and (source.cell or source.name not in self.design.clocks):
                self.refuse(f"{source.told()} doesn't drive {sink.told()}")
            self.leave_out(CLOCK_WIRES, f"a wire of the clock to {sink.told()}", values)
        elif flip_flop and sink.name == DATA:
            self.refuse_other_driver(source, sink, flip_flop.data)
            self.carry_wire(FLIP_FLOPS, wire, sink, flip_flop.setup, values)
        else:
            self.refuse(f"MAP has no pin {sink.told()}")

    def take_wire_to_port(self, wire: Wire, source: Optional[Pin], sink: Pin, values: Sequence[Delay]) -> None:
        if sink.name in self.design.constants:
            self.ignored["outputs that are constant"] += 1
            return
        if sink.name not in self.design.outputs:
            self.refuse(f"MAP has no output port {sink.name}")
        port = self.design.outputs[sink.name]
        self.refuse_other_driver(source, sink, port.line)
        self.carry_wire(OUTPUT_WIRES, wire, sink, port.wire, values)

    def refuse_other_driver(self, source: Optional[Pin], sink: Pin, line: int) -> None:
        """Refuses a wire whose source isn't what drives the line that its end reads."""
        if source and self.design.drivers[source] != line:
            self.refuse(f"{source.told()} doesn't drive {sink.told()}")

    def carry_wire(self, kind: str, wire: Wire, sink: Pin, pin: Optional[GatePin], values: Sequence[Delay]) -> None:
        """Takes in a wire where NET has a pin for it."""
        if pin is None:
            self.leave_out(kind, f"a wire to {sink.told()}", values)
        else:
            self.add_wire(wire, pin, values)

    def add_wire(self, wire: Wire, pin: GatePin, values: Sequence[Delay]) -> None:
        found = self.wires.get(pin)
        if found is None:
            found = self.wires[pin] = WireDelays()
        try:
            found.take(values, wire.is_increment)
        except NothingToAddTo:
            self.refuse("INCREMENT where no delay stands before it")
        if wire.is_increment:
            self.refuse_negative(found.found)
        self.read += 1

    def leave_out(self, kind: str, what: str, values: Sequence[Delay]) -> None:
        """What NET has no pin for: refused where it is more than 0, but where the caller leaves it out."""
        self.refuse_negative(values)
        if all(value is None or value == 0 for value in values):
            self.read += 1
        elif kind in self.left_out:
            self.ignored[f"left out: {kind}"] += 1
        else:
            most = max(value for value in values if value is not None)
            self.refuse(f"{what} of {most}: {ADVICE[kind]}")

    def numbers(self, values: Sequence[Value], is_increment: bool) -> List[Delay]:
        """The delays of a rise and of a fall, out of one value or more. More than two are for transitions from or to z."""
        if len(values) > 2:
            self.ignored["values for z"] += len(values) - 2
        rise = self.number(values[0])
        fall = rise if len(values) == 1 else self.number(values[1])
        if not is_increment and ((rise is not None and rise < 0) or (fall is not None and fall < 0)):
            self.refuse("a negative delay")
        return [rise, fall]

    def number(self, value: Value) -> Delay:
        """The number of a value in the corner, or None of an empty one. Most files have few values, each many times."""
        if value is None:
            return None
        if value not in self.numbers_known:
            if len(self.numbers_known) == NUMBERS_KEPT:
                self.numbers_known.clear()
            self.numbers_known[value] = self.number_of_triple(value)
        return self.numbers_known[value]

    def number_of_triple(self, triple: Triple) -> Decimal:
        """The number of a triple in the corner, which has to be there; no number may be less than one in front of it."""
        told = [Decimal(number) for number in triple if number]
        if told != sorted(told):
            self.refuse(f"({':'.join(triple)}) descends from min to max")
        if not triple[self.corner]:
            self.refuse(f"no {CORNERS[self.corner]} value in ({':'.join(triple)})")
        return Decimal(triple[self.corner])

    def delays(self) -> Iterator[ToldDelay]:
        """The delays of all pins of NET, gate after gate, in the file's unit."""
        names = {cell.gate: list(cell.pins) for cell in self.design.gates.values()}
        wire_pins = {port.wire for port in self.design.outputs.values()}
        for number, gate in enumerate(self.design.circuit.gates):
            for at in range(len(gate.pins)):
                pin = GatePin(number, at)
                own = self.own_delays(pin, names.get(number, [""] * len(gate.pins)), pin in wire_pins)
                if pin in self.wires:
                    own = [None if one is None or two is None else one + two for one, two in zip(own, self.wires[pin].found)]
                yield ToldDelay(pin, *own)

    def own_delays(self, pin: GatePin, names: Sequence[str], is_wire: bool) -> List[Delay]:
        """The delays of a pin without the wire to it, by the transition of the line that it reads."""
        if pin in self.paths:
            sides = [name for at, name in enumerate(names) if at != pin.pin]
            kind = self.design.circuit.gates[pin.gate].kind
            return self.paths[pin].delays(kind, names[pin.pin], sides)
        if pin in self.setups:
            return [self.setups[pin].time(edge) for edge in BOTH]
        return [ZERO, ZERO] if is_wire else [None, None]

    def parts(self, spelled: str) -> List[str]:
        """The parts of a name, without backslashes."""
        if "\\" not in spelled:
            return spelled.split(self.divider) if spelled else []
        return [re.sub(r"\\(.)", r"\1", part) for part in self.part.findall(spelled)]

    def name(self, spelled: str) -> str:
        """The name of a port of the cell."""
        return ".".join(self.parts(spelled)) if "\\" in spelled or self.divider in spelled else spelled

    def pin(self, spelled: str) -> Pin:
        """The pin of a cell, or the port, that a wire begins or ends at, as named inside of the cell that is being read."""
        if "\\" in spelled:
            *inside, name = self.parts(spelled)
            cell = ".".join(inside)
        else:
            cell, _, name = spelled.rpartition(self.divider)
            cell = cell.replace(self.divider, ".")
        return Pin(f"{self.cell}.{cell}" if self.cell and cell else self.cell or cell, name)
