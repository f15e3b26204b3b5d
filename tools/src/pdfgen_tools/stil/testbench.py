"""Spells a Verilog testbench that plays a program on a chip's module, with the times of its waveform tables: what the tester does, for a
simulator.

At one time outputs are compared first, then the clock changes, and the other inputs behind it, so that flip-flops behind a clock without
delays take what was there before. It prints how many bits were compared and how many were wrong, and writes the wrong ones to the file of
+fails=FILE, as a tester does: cycle,pin,value."""
from __future__ import annotations

import re
from typing import Dict, Iterator, List, Mapping, NamedTuple, Sequence, Tuple

from pdfgen_tools.errors import Refused
from pdfgen_tools.names import Bus, unescaped
from pdfgen_tools.stil.model import Call, Program, SetTable, Shift, Statement, Vector, WaveformTable

TABLE, PROCEDURE = "table_", "procedure_"  # in front of names of tasks


class Actions(NamedTuple):
    """What a table does at a time: places of inputs that are driven, values of the clock, places of outputs that are compared."""
    driven: List[int]
    clock: Dict[str, str]
    compared: List[int]


class Bench:
    """The parts of a testbench. Pins have places: inputs and outputs are counted apart, in the order of their declarations."""

    def __init__(self, program: Program, module: str, buses: Sequence[Bus]) -> None:
        self.program, self.module = program, module
        self.inputs = {signal.name: place for place, signal in enumerate(signal for signal in program.signals if signal.is_input)}
        self.outputs = {signal.name: place for place, signal in enumerate(signal for signal in program.signals if not signal.is_input)}
        self.clock = program.chains[0].clock
        self.members: Dict[str, Tuple[str, ...]] = {signal.name: (signal.name,) for signal in program.signals}
        self.members.update((group.name, group.members) for group in program.groups)
        self.buses = {unescaped(bus.port): [unescaped(bit) for bit in bus.bits()] for bus in buses}
        calls = [statement for statement in program.pattern if isinstance(statement, Call)]
        self.shifted = list(calls[0].values) if calls else []
        self.length = len(calls[0].values[self.shifted[0]]) if calls else 1

    def lines(self) -> Iterator[str]:
        """The lines of a testbench, without their ends."""
        yield f"// Plays {self.program.title} on the module {self.module}. Wrong bits go to the file of +fails=FILE."
        yield from ("`timescale 1ps/1ps", "module pdfgen_testbench;")
        yield f"  reg [0:{len(self.inputs) - 1}] in, letters, kept;"
        yield f"  wire [0:{len(self.outputs) - 1}] out;"
        yield f"  reg [0:{len(self.outputs) - 1}] expected, kept_expected;"
        yield from (f"  reg [0:{self.length - 1}] shifted_{at};" for at in range(len(self.shifted)))
        yield from ("  reg pulse;", "  integer cycle, compared, wrong, fails, at;", "  reg [8*1024:1] name;", "")
        yield from self.instance()
        yield from self.comparing()
        for table in self.program.tables:
            yield from self.table(table)
        for name, statements in self.program.procedures.items():
            yield from self.procedure(name, statements)
        yield from self.pattern()
        yield "endmodule"

    def instance(self) -> Iterator[str]:
        """The chip. Outputs that the program doesn't name stay open."""
        nets = {**{name: f"in[{place}]" for name, place in self.inputs.items()}, **{name: f"out[{place}]" for name, place in self.outputs.items()}}
        ports = []
        for bus, bits in self.buses.items():
            if any(bit in self.inputs for bit in bits):
                for bit in bits:
                    if bit not in self.inputs:
                        raise Refused(f"MAP: bus {bus} has no bit {bit}")
                ports.append(f".{spelled(bus)}({{{', '.join(nets[bit] for bit in bits)}}})")
            else:
                ports.append(f".{spelled(bus)}({{{', '.join(nets.get(bit, f'open_{len(ports)}[{at}]') for at, bit in enumerate(bits))}}})")
                yield f"  wire [0:{len(bits) - 1}] open_{len(ports) - 1};"
        of_buses = {bit for bits in self.buses.values() for bit in bits}
        ports += [f".{spelled(name)}({net})" for name, net in nets.items() if name not in of_buses]
        yield f"  {spelled(self.module)} chip ({', '.join(ports)});"

    def comparing(self) -> Iterator[str]:
        """The task that compares an output, and the names of all as a table of fails has them."""
        yield from ("  task compare(input integer place);", "    if (expected[place] !== 1'bx) begin", "      compared = compared + 1;",
                    "      if (out[place] !== expected[place]) begin", "        wrong = wrong + 1;", "        case (place)")
        yield from (f"          {place}: name = \"{in_string(name)}\";" for name, place in self.outputs.items())
        yield from ("        endcase", "        if (fails) $fdisplay(fails, \"%0d,%0s,%b\", cycle, name, out[place]);", "      end", "    end", "  endtask")

    def table(self, table: WaveformTable) -> Iterator[str]:
        """The task of a cycle."""
        yield from (f"  task {TABLE}{table.name};", "    begin")
        now = 0
        for at, actions in sorted(self.actions(table).items()):
            yield f"      #{at - now};"
            now = at
            yield from (f"      for (at = {first}; at <= {last}; at = at + 1) compare(at);" for first, last in ranges(actions.compared))
            if actions.clock:
                yield f"      in[{self.inputs[self.clock]}] = pulse ? 1'b{actions.clock['P']} : 1'b{actions.clock['0']};"
            if actions.clock and actions.driven:
                yield "      #0;"
            yield from (f"      in[{first}:{last}] = letters[{first}:{last}];" for first, last in ranges(actions.driven))
        yield from (f"      #{table.period - now};", "      cycle = cycle + 1;", "    end", "  endtask")

    def actions(self, table: WaveformTable) -> Dict[int, Actions]:
        """What a table does, by times."""
        found: Dict[int, Actions] = {}
        clock: Dict[str, Dict[int, str]] = {"0": {}, "P": {}}
        for of, letter, events in table.waveforms:
            for pin in self.members[of]:
                for event in events:
                    if pin == self.clock:
                        clock[letter][event.at] = event.does
                    elif letter == "1":
                        found.setdefault(event.at, Actions([], {}, [])).driven.append(self.inputs[pin])
                    elif letter == "H" and event.does == "H":
                        found.setdefault(event.at, Actions([], {}, [])).compared.append(self.outputs[pin])
        idle = {"D": "0", "U": "1"}[clock["0"][0]]
        for time, does in clock["P"].items():
            found.setdefault(time, Actions([], {}, [])).clock.update({"0": idle, "P": {"D": "0", "U": "1"}[does]})
        return found

    def procedure(self, name: str, statements: Sequence[Statement]) -> Iterator[str]:
        """The task of a procedure: pins have what they had when it ends."""
        yield from (f"  task {PROCEDURE}{name};", "    integer shift;", "    begin", "      kept = letters;", "      kept_expected = expected;")
        table = ""
        for statement in statements:
            if isinstance(statement, SetTable):
                table = statement.name
            elif isinstance(statement, Vector):
                yield f"      {' '.join(self.assignments(statement.values, ''))} {TABLE}{table};"
            elif isinstance(statement, Shift):
                yield f"      for (shift = 0; shift < {self.length}; shift = shift + 1) begin"
                yield f"        {' '.join(self.assignments(statement.vector.values, 'shift'))} {TABLE}{table};"
                yield "      end"
        yield from ("      letters = kept;", "      expected = kept_expected;", "    end", "  endtask")

    def assignments(self, values: Mapping[str, str], shift: str) -> List[str]:
        """What a vector sets, one statement for pins that stand side by side."""
        found = []
        for name, letters in values.items():
            pins = self.members[name]
            if name == self.clock:
                found.append(f"pulse = {int(letters == 'P')};")
                continue
            places, target = (self.inputs, "letters") if pins[0] in self.inputs else (self.outputs, "expected")
            begin = 0
            for first, last in ranges([places[pin] for pin in pins]):
                some = letters[begin:begin + last - first + 1]
                begin += len(some)
                value = f"shifted_{self.shifted.index(name)}[{shift}]" if some == "#" else literal(some)
                found.append(f"{target}[{first}:{last}] = {value};")
        return found

    def pattern(self) -> Iterator[str]:
        """All vectors, in their order."""
        yield from ("  initial begin", "    cycle = 0; compared = 0; wrong = 0; fails = 0; pulse = 0; in = 'bx; letters = 'bx; expected = 'bx;",
                    "    if ($value$plusargs(\"fails=%s\", name)) begin", "      fails = $fopen(name);", "      $fdisplay(fails, \"cycle,pin,value\");", "    end")
        table = ""
        for statement in self.program.pattern:
            if isinstance(statement, SetTable):
                table = statement.name
            elif isinstance(statement, Vector):
                yield f"    {' '.join(self.assignments(statement.values, ''))} {TABLE}{table};"
            elif isinstance(statement, Call):
                if statement.label:
                    yield f"    // {statement.label}"
                yield from (f"    shifted_{at} = {literal(statement.values[pin])};" for at, pin in enumerate(self.shifted))
                yield f"    {PROCEDURE}{statement.procedure};"
        yield from ("    $display(\"cycles %0d compared %0d wrong %0d\", cycle, compared, wrong);", "    if (fails) $fclose(fails);", "    $finish;", "  end")


def ranges(places: Sequence[int]) -> List[Tuple[int, int]]:
    """The places in their order, as first and last ones of runs that count up."""
    found: List[Tuple[int, int]] = []
    for place in places:
        if found and found[-1][1] == place - 1:
            found[-1] = found[-1][0], place
        else:
            found.append((place, place))
    return found


def literal(letters: str) -> str:
    """A number of Verilog with these letters: L and H are 0 and 1, X is x."""
    return f"{len(letters)}'b{letters.translate({ord('L'): '0', ord('H'): '1', ord('X'): 'x'})}"


def spelled(name: str) -> str:
    """A name as an escaped one, which may have any letters but blanks."""
    if not re.fullmatch("[!-~]+", name):
        raise Refused(f"port {name}: a name with a blank is none of Verilog")
    return f"\\{name} "


def in_string(name: str) -> str:
    """A pin's name as a field of csv, in a string of Verilog."""
    field = f'"{name}"' if "," in name else name
    return field.replace("\\", "\\\\").replace('"', '\\"')
