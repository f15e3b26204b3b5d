"""Runs a design in Icarus beside its netlist: what each flip-flop and each output had in each cycle."""
from __future__ import annotations

import pathlib
import random
import re
from typing import Dict, List, NamedTuple, Sequence

from packages import printed
from pdfgen_tools.bench import Circuit
from pdfgen_tools.names import Map, unescaped

PLAIN = re.compile(r"[A-Za-z_][][A-Za-z_0-9.]*")


class Cycles(NamedTuple):
    """For each cycle a letter for each input, each flip-flop and each output port, as they stand in the map, taken before the clock's edge."""
    inputs: List[str]
    states: List[str]
    outputs: List[str]


def in_verilog(names: Sequence[str], spelled: Dict[str, str]) -> str:
    """The first of a line's names that can be spelled in Verilog. spelled: how those are that no rule tells, by the name without its index."""
    for name in map(unescaped, names):
        base, index = re.fullmatch(r"(.*?)((?:\[[0-9]+\])?)", name, re.DOTALL).groups()  # type: ignore[union-attr]
        if name in spelled:
            return f"chip.{spelled[name]}"
        if base in spelled:
            return f"chip.{spelled[base]}{index}"
        if PLAIN.fullmatch(name):
            return f"chip.{name}"
    raise AssertionError(f"no name of {names[0]} in Verilog")


def connections(map_: Map) -> List[str]:
    """What each input port of the design is connected to: the clock, a held value, or bits of `vector`, whose leftmost is that of the first input."""
    values = {port.name: f"vector[{len(map_.inputs) - 1 - at}]" for at, port in enumerate(map_.inputs)}
    values.update({clock.port: "clock" for clock in map_.clocks})
    values.update({held.name: f"{'' if held.value else '!'}released" for held in map_.held})
    buses = {name: bus for bus in map_.buses for name in bus.bits()}
    ports: Dict[str, List[str]] = {}
    for bus in map_.buses:
        if bus.bits()[0] in values:
            ports[bus.port] = [values[name] for name in bus.bits()]
    ports.update({name: [value] for name, value in values.items() if name not in buses})
    return [f".\\{unescaped(port)} ({{{', '.join(bits)}}})" for port, bits in ports.items()]


def run_cycles(folder: pathlib.Path, source: pathlib.Path, top: str, map_: Map, spelled: Dict[str, str], count: int) -> Cycles:
    """The design under random inputs, so many cycles after its reset, but the first ones, in which something isn't known yet."""
    chance = random.Random(7)
    watched = [in_verilog(map_.names_of(state.line), spelled) for state in map_.flip_flops] + [in_verilog([port.name], spelled) for port in map_.outputs]
    width = len(map_.inputs)
    (folder / "vectors").write_text("".join("".join(chance.choice("01") for _ in map_.inputs) + "\n" for _ in range(count)))
    idle, active = ("0", "1") if map_.clocks[0].edge == "rising" else ("1", "0")
    text = ["`timescale 1ns/1ns", "module bench;", f"  reg [{width - 1}:0] vectors [0:{count - 1}];", f"  reg [{width - 1}:0] vector = 0;",
            f"  reg clock = {idle}, released = 1;", "  integer at;", f"  {top} chip ({', '.join(connections(map_))});", "  initial begin",
            '    $readmemb("vectors", vectors);', "    #1 released = 0;", "    #9 released = 1;",
            f"    for (at = 0; at < {count}; at = at + 1) begin", "      vector = vectors[at];", "      #5;",
            f'      if (at >= 12) $display("%b {"%b" * len(watched)}", vector, {", ".join(watched)});',
            f"      clock = {active}; #5; clock = {idle}; #5;", "    end", "  end", "endmodule"]
    (folder / "bench.v").write_text("\n".join(text) + "\n")
    printed(["iverilog", "-g2005", "-o", "bench.vvp", "-s", "bench", "bench.v", str(source)], folder)
    rows = [line.split(" ") for line in printed(["vvp", "-n", "bench.vvp"], folder).splitlines()]
    states = len(map_.flip_flops)
    del rows[:1 + max((number for number, row in enumerate(rows) if not set(row[1]) <= {"0", "1"}), default=-1)]
    return Cycles([row[0] for row in rows], [row[1][:states] for row in rows], [row[1][states:] for row in rows])


def differences(circuit: Circuit, map_: Map, cycles: Cycles) -> int:
    """In how many bits the netlist is another than the design: next states and outputs of all cycles but the last."""
    count = len(cycles.inputs) - 1
    every = (1 << count) - 1

    def lanes(rows: Sequence[str], place: int, begin: int = 0) -> int:
        return int("".join(row[place] for row in rows[begin:begin + count])[::-1], 2)

    sources = [0] * circuit.source_count
    for place, port in enumerate(map_.inputs):
        sources[circuit.line_of[port.line]] = lanes(cycles.inputs, place)
    for place, state in enumerate(map_.flip_flops):
        sources[circuit.line_of[state.line]] = lanes(cycles.states, place)
    values = circuit.values(sources, every)
    data_of = dict(circuit.flip_flops)
    wrong = [values[circuit.line_of[port.line]] ^ lanes(cycles.outputs, place) for place, port in enumerate(map_.outputs)]
    wrong += [values[data_of[circuit.line_of[state.line]]] ^ lanes(cycles.states, place, 1) for place, state in enumerate(map_.flip_flops)]
    return sum(bin(bits).count("1") for bits in wrong)
