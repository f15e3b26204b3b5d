"""Names of a design, as NET and MAP spell them, and MAP, which pdfgen-from-yosys writes: what each port and cell of the design is in NET.

In NET a name has the bytes 33 to 126 without " # ( ) , = and at most 255 of them. Each other byte is written as % and two hexadecimal
digits, as are % itself and *, which a delay file reads as 'all'.

MAP's first line is `pdfgen map 2`, its second names the columns, what,name,line,value. Then a row each:

    clock,PORT,,rising|falling          the clock, and its active edge
    held,PORT,,0|1                      an input port that the tester holds at this value, such as a reset: it is no line of NET
    input,PORT,LINE,                    an input port, and the line of NET that it is
    output,PORT,LINE,                   an output port, and the line that it shows
    constant,PORT,,0|1                  an output port that always has this value
    flip_flop,CELL,LINE,                a flip-flop, and its line
    settled,CELL,,0|1                   a flip-flop that takes this value by itself and keeps it, as one of a reset synchronizer: no line of NET
    gate,CELL,LINE,PINS                 a gate, its line, and the names of its pins in NET's order, blanks between
    setup,CELL,LINE,PIN                 the buffer of NET that carries a flip-flop's setup time, and the pin whose it is
    clock_to_q,CELL,LINE,PIN            the buffer that carries a flip-flop's delay from the clock, and the clock pin
    output_wire,PORT,LINE,              the buffer that carries the delay of the wire to an output port
    still,CELL,,PINS                    pins of a cell at a constant, which NET doesn't have; a cell may have no others
    bus,PORT,,LEFT:RIGHT                a port of several bits, whose names are PORT[LEFT] to PORT[RIGHT]; each other port has one bit
    alias,NAME,LINE,                    a further name of the design for a line

A cell with `still` may have a `gate` row, too, with its other pins. Names and pins are spelled as in NET."""
from __future__ import annotations

import re
from typing import List, NamedTuple, Sequence, Set, Tuple

from pdfgen_tools.bench import Circuit
from pdfgen_tools.errors import Refused

MAP_HEADS = ("pdfgen map 2", "what,name,line,value")
NAME_BYTES_AT_MOST = 255
LONGEST_ENDING = len("%clock_to_q")  # what is put behind names of the design
PLAIN = set(range(33, 127)) - set(b'"#(),=%*')
PLAIN_NAME = re.compile(r"[!$&'+\--<>-~]{1,%d}" % (NAME_BYTES_AT_MOST - LONGEST_ENDING))  # as it is in NET


class Clock(NamedTuple):
    """edge: rising or falling, the one at which flip-flops take their data."""
    port: str
    edge: str


class Held(NamedTuple):
    """A port, or a flip-flop's cell, and the value that it keeps."""
    name: str
    value: int


class Port(NamedTuple):
    """A port, and the name of its line in NET."""
    name: str
    line: str


class Cell(NamedTuple):
    """A cell, the name of its line in NET, and those of its pins, in NET's order."""
    name: str
    line: str
    pins: Tuple[str, ...]


class Bus(NamedTuple):
    """A port of several bits, and the range that its declaration has."""
    port: str
    left: int
    right: int

    def bits(self) -> List[str]:
        """The names of its bits, from the left."""
        step = -1 if self.left > self.right else 1
        return [f"{self.port}[{place}]" for place in range(self.left, self.right + step, step)]


class Map(NamedTuple):
    """What each port and cell of a design is in NET: lists in MAP's order, names as NET spells them."""
    clocks: List[Clock]
    held: List[Held]
    inputs: List[Port]
    outputs: List[Port]
    constants: List[Held]
    flip_flops: List[Port]
    settled: List[Held]
    gates: List[Cell]
    setups: List[Cell]
    clock_to_qs: List[Cell]
    output_wires: List[Port]
    stills: List[Cell]
    aliases: List[Port]
    buses: List[Bus]

    def names_of(self, line: str) -> List[str]:
        """All names that the design has for a line of NET: that of NET itself first, then the others."""
        return list(dict.fromkeys([line, *(alias.name for alias in self.aliases if alias.line == line)]))


def no_map() -> Map:
    """A map without rows."""
    return Map([], [], [], [], [], [], [], [], [], [], [], [], [], [])


class Form(NamedTuple):
    """How a kind of row is read. space: in which no name stands twice. has_line: whether the third field is a name. value: what the fourth
    field is like."""
    space: str
    has_line: bool
    value: str


PIN, PINS, RANGE = "[^ ]+", "[^ ]+( [^ ]+)*", "(0|-?[1-9][0-9]{0,8}):(0|-?[1-9][0-9]{0,8})"
FORMS = {
    "clock": Form("input", False, "rising|falling"), "held": Form("input", False, "[01]"), "input": Form("input", True, ""),
    "output": Form("output", True, ""), "constant": Form("output", False, "[01]"), "flip_flop": Form("cell", True, ""),
    "settled": Form("cell", False, "[01]"), "gate": Form("cell", True, PINS), "setup": Form("setup", True, PIN),
    "clock_to_q": Form("clock_to_q", True, PIN), "output_wire": Form("output_wire", True, ""), "still": Form("still", False, PINS),
    "alias": Form("alias", True, ""), "bus": Form("bus", False, RANGE)}


def map_of(text: str) -> Map:
    """The map of a file's text; Refused with the line that is none of its."""
    *lines, rest = text.split("\n")
    for number, head in enumerate(MAP_HEADS, 1):
        if lines[number - 1:number] != [head]:
            raise Refused(f"MAP line {number}: not {head}")
    if rest:
        raise Refused("MAP: its last line has no end")
    found = no_map()
    seen: Set[Tuple[str, str]] = set()
    for number, text_of_row in enumerate(lines[2:], 3):
        fields = text_of_row.split(",")
        if len(fields) != 4:
            raise Refused(f"MAP line {number}: not four fields")
        add_row(found, number, *fields)
        if (FORMS[fields[0]].space, fields[1]) in seen:
            raise Refused(f"MAP line {number}: twice {fields[1]}")
        seen.add((FORMS[fields[0]].space, fields[1]))
    return found


def add_row(found: Map, number: int, what: str, name: str, line: str, value: str) -> None:
    """Takes in a row of a map."""
    if what not in FORMS:
        raise Refused(f"MAP line {number}: unknown {what}")
    form = FORMS[what]
    if not is_name(name) or is_name(line) != form.has_line or (line != "") != form.has_line or not re.fullmatch(form.value, value):
        raise Refused(f"MAP line {number}: no row of {what}")
    ports = {"input": found.inputs, "output": found.outputs, "flip_flop": found.flip_flops, "output_wire": found.output_wires, "alias": found.aliases}
    held = {"held": found.held, "constant": found.constants, "settled": found.settled}
    cells = {"gate": found.gates, "setup": found.setups, "clock_to_q": found.clock_to_qs, "still": found.stills}
    if what == "clock":
        found.clocks.append(Clock(name, value))
    elif what == "bus":
        left, right = map(int, value.split(":"))
        found.buses.append(Bus(name, left, right))
    elif what in ports:
        ports[what].append(Port(name, line))
    elif what in held:
        held[what].append(Held(name, int(value)))
    else:
        cells[what].append(Cell(name, line, tuple(value.split(" "))))


def text_of(map_: Map) -> str:
    """The text of a map."""
    rows = [("clock", port, "", edge) for port, edge in map_.clocks]
    for what, held in (("held", map_.held), ("constant", map_.constants), ("settled", map_.settled)):
        rows += [(what, name, "", str(value)) for name, value in held]
    for what, ports in (("input", map_.inputs), ("output", map_.outputs), ("flip_flop", map_.flip_flops)):
        rows += [(what, name, line, "") for name, line in ports]
    for what, cells in (("gate", map_.gates), ("setup", map_.setups), ("clock_to_q", map_.clock_to_qs), ("still", map_.stills)):
        rows += [(what, name, line, " ".join(pins)) for name, line, pins in cells]
    rows += [("output_wire", name, line, "") for name, line in map_.output_wires]
    rows += [("bus", port, "", f"{left}:{right}") for port, left, right in map_.buses]
    rows += [("alias", name, line, "") for name, line in map_.aliases]
    return "".join(line + "\n" for line in (*MAP_HEADS, *(",".join(row) for row in rows)))


def fit(map_: Map, circuit: Circuit) -> None:
    """Refuses a map that isn't of this circuit: it has to name each input, output, flip-flop and gate, gates with all of their pins."""
    gates = [*map_.gates, *map_.setups, *map_.clock_to_qs, *(Cell(port.name, port.line, ("A",)) for port in map_.output_wires)]
    names = circuit.names
    covers("inputs", [port.line for port in map_.inputs], [names[line] for line in circuit.inputs])
    covers("outputs", list(dict.fromkeys(port.line for port in map_.outputs)), [names[line] for line in circuit.outputs])
    covers("flip-flops", [port.line for port in map_.flip_flops], [names[flip_flop.line] for flip_flop in circuit.flip_flops])
    covers("gates", [cell.line for cell in gates], names[circuit.source_count:])
    covers("aliases", [], [alias.line for alias in map_.aliases if alias.line not in circuit.line_of])
    for cell in gates:
        if len(cell.pins) != len(circuit.gate_named(cell.line).pins):
            raise Refused(f"MAP: {cell.name} has other pins in NET")


def covers(what: str, lines: Sequence[str], wanted: Sequence[str]) -> None:
    """Refuses lines that aren't those wanted, each once."""
    if sorted(lines) != sorted(wanted):
        raise Refused(f"MAP: its {what} aren't those of NET")


def is_name(text: str) -> bool:
    """Whether NET can have this name."""
    return re.fullmatch(r"[!$-'*+\--<>-~]{1,255}", text) is not None


def escaped(name: str) -> str:
    """A name of the design, a letter for each byte, as NET and MAP spell it."""
    if PLAIN_NAME.fullmatch(name):
        return name
    if any(ord(letter) > 255 for letter in name):
        raise Refused(f"a name has what is no byte: {ascii(name[:40])}")
    text = "".join(chr(byte) if byte in PLAIN else f"%{byte:02X}" for byte in name.encode("latin-1"))
    if not 1 <= len(text) <= NAME_BYTES_AT_MOST - LONGEST_ENDING:
        raise Refused(f"a name is empty or too long: {name[:40]}")
    return text


def unescaped(name: str) -> str:
    """The name of the design, a letter for each byte."""
    return re.sub("%([0-9A-F]{2})", lambda found: chr(int(found[1], 16)), name) if "%" in name else name
