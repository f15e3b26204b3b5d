"""Verilog mapped by yosys as examples/chip/map.ys does, and the netlist of it beside the design as written, cycle by cycle."""
from __future__ import annotations

import pathlib
from typing import Dict

from icarus import differences, run_cycles
from packages import EXAMPLES, ToolTest, lines, mapped
from pdfgen_tools.bench import circuit_of
from pdfgen_tools.cli.from_yosys import main
from pdfgen_tools.names import Map, map_of

DESIGNS = pathlib.Path(__file__).resolve().parent / "designs"
RESET = "always @(posedge clk or negedge rst_n) if (!rst_n) "


class Mapping(ToolTest):
    def netlist(self, verilog: str, top: str = "chip") -> Map:
        """NET of a design, in the folder, and its map."""
        self.assertIn("still_pins", self.call(main, self.write("json", mapped(self.folder, verilog, top)), self.path("net"), self.path("map")))
        return map_of(self.read("map"))

    def refused_by_yosys(self, verilog: str, reason: str) -> None:
        with self.assertRaisesRegex(AssertionError, reason):
            mapped(self.folder, verilog)

    def test_the_chip_of_the_guide(self) -> None:
        self.netlist((EXAMPLES / "chip" / "chip.v").read_text())
        circuit = circuit_of(self.read("net"))
        self.assertEqual((len(circuit.inputs), len(circuit.flip_flops), len(circuit.outputs)), (25, 52, 23))

    def test_undriven_nets_end_it(self) -> None:
        self.refused_by_yosys(lines("module chip(input a, output y);", "wire b;", "assign y = a & b;", "endmodule"), "check -assert")

    def test_unconnected_ports_end_it(self) -> None:
        self.refused_by_yosys(lines("module chip(input a, output y);", "part p(.i(a), .o(y));", "endmodule",
                                    "module part(input i, input j, output o);", "assign o = i ^ j;", "endmodule"), "check -assert")

    def test_nets_driven_twice_end_it(self) -> None:
        self.refused_by_yosys(lines("module chip(input a, input b, output y);", "assign y = a;", "assign y = b;", "endmodule"), "check -assert")

    def test_equal_flip_flops_stay_two(self) -> None:
        found = self.netlist(lines("module chip(input clk, input a, output y, output z);", "reg p, q;", "always @(posedge clk) begin p <= a; q <= a; end",
                                   "assign y = p;", "assign z = ~q;", "endmodule"))
        self.assertEqual(len(found.flip_flops), 2)

    def test_a_state_machine_keeps_its_code(self) -> None:
        case = "case (s) 0: if (a) s <= 1; 1: s <= 2; 2: s <= a ? 3 : 4; 3: s <= 4; 4: s <= 5; default: s <= 0; endcase"
        found = self.netlist(lines("module chip(input clk, input rst_n, input a, output y);", "reg [2:0] s;", RESET + "s <= 0; else " + case,
                                   "assign y = s == 5;", "endmodule"))
        self.assertEqual([flip_flop.line for flip_flop in found.flip_flops], ["s[0]", "s[1]", "s[2]"])

    def test_other_flip_flops(self) -> None:
        found = self.netlist(lines("module chip(input clk, input rst, input d, output reg q = 0);",
                                   "always @(negedge clk or posedge rst) if (rst) q <= 1; else q <= d ^ q;", "endmodule"))
        self.assertEqual((found.clocks, found.held, [port.name for port in found.inputs]), ([("clk", "falling")], [("rst", 0)], ["d"]))

    def compared(self, top: str, settled: int, spelled: Dict[str, str]) -> None:
        """A design of designs/ beside its netlist, 5,000 cycles of random inputs."""
        source = DESIGNS / f"{top}.v"
        found = self.netlist(source.read_text(), top)
        self.assertEqual(len(found.settled), settled)
        circuit = circuit_of(self.read("net"))
        self.assertGreater(len(circuit.gates), 1800)
        self.assertEqual(differences(circuit, found, run_cycles(self.folder, source, top, found, spelled, 5000)), 0)

    def test_names_that_are_escaped_and_ranges_that_count_up(self) -> None:
        self.compared("mixer", 2, {"data.in": "\\data.in ", "queue(head)": "\\queue(head) ", "full?": "\\full? "})

    def test_modules_in_modules_and_falling_edges(self) -> None:
        self.compared("lanes", 3, {"least[0]": "\\least[0] "})
