"""NET and MAP of a module. A gate with a pin at a constant, or at what the tester holds, is written as the gate that it then is."""
from __future__ import annotations

from typing import Dict, List, NamedTuple, Optional, Sequence, Set, Tuple

from pdfgen_tools.errors import Refused
from pdfgen_tools.names import Bus, Cell, Clock, Held, Map, Port, escaped, no_map
from pdfgen_tools.yosys.controls import FLIP_FLOP, Roles, is_flip_flop, roles_of
from pdfgen_tools.yosys.json_file import Bit, Module, Wire, YosysCell
from pdfgen_tools.yosys.naming import NetNames, names_of_nets

KINDS = {"$_BUF_": "BUFF", **{f"$_{kind}_": kind for kind in ("NOT", "AND", "NAND", "OR", "NOR", "XOR", "XNOR")}}
PINS = {word: ("A",) if kind in ("BUFF", "NOT") else ("A", "B") for word, kind in KINDS.items()}
CONTROLLING = {"AND": 0, "NAND": 0, "OR": 1, "NOR": 1}
INVERTED = ("NOT", "NAND", "NOR", "XNOR")
CLOCK_TO_Q, SETUP, OUTPUT = "%clock_to_q", "%setup", "%output"  # behind a line's or a port's name: the buffer that carries this delay


class Buffers(NamedTuple):
    """Which delays get a buffer of their own: clock-to-Q and setup times; wires to output ports."""
    flip_flops: bool
    outputs: bool


class Simple(NamedTuple):
    """What is left of a gate: a kind and the pins that it has, or the value that it always has."""
    kind: str
    pins: Tuple[str, ...]
    value: Optional[int]


def pins_of(cell: YosysCell) -> Tuple[str, ...]:
    return PINS[cell.kind]


def simplified(cell: YosysCell, roles: Roles) -> Simple:
    """A gate without its pins that never change."""
    kind = KINDS[cell.kind]
    inverted = kind in INVERTED
    values = {pin: roles.value(cell.bit(pin)) for pin in pins_of(cell)}
    left = tuple(pin for pin, value in values.items() if value is None)
    known = [value for value in values.values() if value is not None]
    if kind in CONTROLLING and CONTROLLING[kind] in known:
        return Simple(kind, (), CONTROLLING[kind] ^ inverted)
    if kind not in CONTROLLING:
        inverted ^= sum(known) % 2 == 1
    if not left:
        neutral = 1 - CONTROLLING[kind] if kind in CONTROLLING else 0
        return Simple(kind, (), neutral ^ inverted)
    return Simple(kind if len(left) == len(values) else "NOT" if inverted else "BUFF", left, None)


def readers_of(gates: Sequence[YosysCell]) -> Dict[Bit, List[int]]:
    """The gates that read each net or constant, by their numbers, once for each pin."""
    readers: Dict[Bit, List[int]] = {}
    for number, gate in enumerate(gates):
        for pin in pins_of(gate):
            readers.setdefault(gate.bit(pin), []).append(number)
    return readers


class Design:
    """A module with what is known of its nets. values of roles grow by those of gates that never change; driven: nets that NET has."""

    def __init__(self, module: Module, held: Dict[str, int]) -> None:
        self.names = names_of_nets(module)
        self.ports = module.ports
        self.flip_flops = [cell for cell in module.cells if is_flip_flop(cell)]
        self.gates = [cell for cell in module.cells if not is_flip_flop(cell)]
        for cell in self.gates:
            if cell.kind not in KINDS:
                raise Refused(f"cell {cell.name}: {cell.kind} is no gate of a .bench netlist")
        self.inputs = [bit for port in module.ports if port.direction == "input" for bit in port.bits if isinstance(bit, int)]
        self.refuse_twice_driven()
        self.roles = roles_of(module.ports, self.flip_flops, self.gates, self.names, self.held_nets(held))
        self.readers = readers_of(self.gates)
        self.simple = self.settle_gates()
        still = {*self.roles.values} | ({self.roles.clock[0]} if self.roles.clock else set())
        self.states = {cell.net("Q") for cell in self.flip_flops} - still
        self.driven = (self.states | {cell.net("Y") for cell in self.gates} | set(self.inputs)) - still

    def refuse_twice_driven(self) -> None:
        drivers = [cell.net("Q") for cell in self.flip_flops] + [cell.net("Y") for cell in self.gates] + self.inputs
        seen: Set[int] = set()
        for net in drivers:
            if net in seen:
                raise Refused(f"net {self.names.lines.get(net, net)} is driven twice")
            seen.add(net)

    def held_nets(self, held: Dict[str, int]) -> Dict[int, int]:
        """The nets of the ports that a call holds."""
        ports = {name: bit for port in self.ports if port.direction == "input" for name, bit in port.named_bits()}
        for name in held:
            if not isinstance(ports.get(name), int):
                raise Refused(f"--hold {name}: the design has no such input port")
        return {bit: held[name] for name, bit in ports.items() if name in held and isinstance(bit, int)}

    def settle_gates(self) -> Dict[str, Simple]:
        """What is left of each gate that reads what never changes, by its cell's name. Values of gates that never change are added to roles."""
        simple: Dict[str, Simple] = {}
        left: List[Bit] = ["0", "1", *self.roles.values]
        for bit in left:
            for gate in map(self.gates.__getitem__, self.readers.get(bit, ())):
                found = simple[gate.name] = simplified(gate, self.roles)
                net = gate.net("Y")
                if found.value is not None and self.roles.values.get(net) != found.value:
                    if net in self.roles.values:
                        raise Refused(f"cell {gate.name}: is {found.value} where a reset asks for {self.roles.values[net]}")
                    self.roles.values[net] = found.value
                    left.append(net)
        return simple

    def is_loop_free(self) -> bool:
        """Whether no gate reads what it drives, through others or not."""
        unknown = [len(pins_of(gate)) for gate in self.gates]
        driven = {gate.net("Y") for gate in self.gates}
        known = [bit for bit in self.readers if bit not in driven]
        for bit in known:
            for number in self.readers.get(bit, ()):
                unknown[number] -= 1
                if unknown[number] == 0:
                    known.append(self.gates[number].net("Y"))
        return not any(unknown)

    def told(self, net: int) -> str:
        """What a net is that no line of NET may read."""
        name = self.names.lines.get(net, str(net))
        if self.roles.clock and net == self.roles.clock[0]:
            return f"the clock {name}"
        value = self.roles.values.get(net)
        return f"the undriven net {name}" if value is None else f"{name}, which is always {value}"


class Writer:
    """The lines of NET and the rows of MAP, as they are made from a design."""

    def __init__(self, design: Design, buffers: Buffers) -> None:
        self.design, self.buffers = design, buffers
        self.inputs: List[str] = []
        self.outputs: List[str] = []
        self.logic: List[str] = []
        self.map: Map = no_map()
        for port in design.ports:
            self.write_port(port)
        for cell in design.flip_flops:
            self.write_flip_flop(cell)
        for cell in design.gates:
            self.write_gate(cell)
        self.map.aliases.extend(Port(name, design.names.line(net)) for net, names in design.names.aliases.items() if net in design.driven
                                for name in names)

    def netlist(self) -> str:
        return "".join(line + "\n" for line in [*self.inputs, *self.outputs, *self.logic])

    def line(self, bit: Bit, reader: str) -> str:
        """The name of the line that a reader of this bit reads."""
        if isinstance(bit, str):
            raise Refused(f"{reader}: a constant {bit}" if bit in "01" else f"{reader}: undriven in the design ({bit})")
        if bit not in self.design.driven:
            raise Refused(f"{reader}: reads {self.design.told(bit)}")
        return self.design.names.line(bit) + (CLOCK_TO_Q if self.buffers.flip_flops and bit in self.design.states else "")

    def write_port(self, port: Wire) -> None:
        if port.direction not in ("input", "output"):
            raise Refused(f"port {port.name}: neither input nor output")
        if len(port.bits) > 1 or port.offset:
            first, last = port.offset + len(port.bits) - 1, port.offset
            self.map.buses.append(Bus(escaped(port.name), *((last, first) if port.upto else (first, last))))
        for word, bit in port.named_bits():
            if port.direction == "input":
                self.write_input(escaped(word), bit)
            else:
                self.write_output(escaped(word), bit)

    def write_input(self, name: str, bit: Bit) -> None:
        roles = self.design.roles
        if isinstance(bit, str):
            raise Refused(f"port {name}: an input that the design sets to a constant")
        if roles.clock and bit == roles.clock[0]:
            self.map.clocks.append(Clock(name, roles.clock[1]))
        elif bit in roles.values:
            self.map.held.append(Held(name, roles.values[bit]))
        else:
            line = self.design.names.line(bit)
            self.inputs.append(f"INPUT({line})")
            self.map.inputs.append(Port(name, line))

    def write_output(self, name: str, bit: Bit) -> None:
        value = self.design.roles.value(bit) if bit not in ("x", "z") else None
        if value is not None:
            self.map.constants.append(Held(name, value))
            return
        line = self.line(bit, f"port {name}")
        if self.buffers.outputs:
            self.logic.append(f"{name}{OUTPUT} = BUFF({line})")
            line = name + OUTPUT
            self.map.output_wires.append(Port(name, line))
        self.outputs.append(f"OUTPUT({line})")
        self.map.outputs.append(Port(name, line))

    def write_flip_flop(self, cell: YosysCell) -> None:
        net, name = cell.net("Q"), escaped(cell.name)
        if net in self.design.roles.settled:
            self.map.settled.append(Held(name, self.design.roles.values[net]))
            return
        if net not in self.design.driven:
            raise Refused(f"cell {cell.name}: its output is {self.design.told(net)}")
        data = self.line(cell.bit("D"), f"cell {cell.name} pin D")
        state = self.design.names.line(net)
        self.map.flip_flops.append(Port(name, state))
        if self.buffers.flip_flops:
            self.logic += [f"{state}{SETUP} = BUFF({data})", f"{state}{CLOCK_TO_Q} = BUFF({state})"]
            self.map.setups.append(Cell(name, state + SETUP, ("D",)))
            self.map.clock_to_qs.append(Cell(name, state + CLOCK_TO_Q, ("C",)))
            data = state + SETUP
        self.logic.append(f"{state} = DFF({data})")

    def write_gate(self, cell: YosysCell) -> None:
        pins, name = pins_of(cell), escaped(cell.name)
        simple = self.design.simple.get(cell.name) or Simple(KINDS[cell.kind], pins, None)
        still = tuple(pin for pin in pins if pin not in simple.pins)
        if still:
            self.map.stills.append(Cell(name, "", still))
        if simple.value is not None:
            return
        read = ", ".join(self.line(cell.bit(pin), f"cell {cell.name}") for pin in simple.pins)
        line = self.design.names.line(cell.net("Y"))
        self.logic.append(f"{line} = {simple.kind}({read})")
        self.map.gates.append(Cell(name, line, simple.pins))
