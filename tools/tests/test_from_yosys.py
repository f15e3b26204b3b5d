"""pdfgen-from-yosys, on designs in yosys JSON written by hand."""
from __future__ import annotations

import itertools
import json
import os
from typing import Any, Dict, Tuple
from unittest import mock

from support import ToolTest, lines
from pdfgen_tools.bench import circuit_of
from pdfgen_tools.cli.from_yosys import main
from pdfgen_tools.names import escaped, map_of, text_of, unescaped

Part = Dict[str, Any]
GOOD = "inputs 2 outputs 1 flip_flops 1 gates 2 held 1 settled 0 constant 1 still_pins 0\n"


def cell(kind: str, **pins: "int | str") -> Part:
    return {"type": kind, "connections": {pin: [net] for pin, net in pins.items()}}


def net(*bits: "int | str", hidden: int = 0, **more: int) -> Part:
    return {"bits": list(bits), "hide_name": hidden, **more}


def port(direction: str, *bits: "int | str", **more: int) -> Part:
    return {"direction": direction, "bits": list(bits), **more}


def module(ports: Part, cells: Part, nets: Part) -> Part:
    return {"modules": {"top": {"attributes": {"top": "1"}, "ports": ports, "cells": cells, "netnames": nets}}}


def design(**more_cells: Part) -> Part:
    """q(0) takes AND(in[4], q) at each rising edge of clk; rst_n resets it; z is always 1."""
    ports = {"clk": port("input", 2), "rst_n": port("input", 3), "in": port("input", 4, 5, offset=4), "y": port("output", 6),
             "z": port("output", "1")}
    cells = {"u#1": cell("$_AND_", A=4, B=7, Y=8), "u2": cell("$_NOT_", A=7, Y=6), "ff": cell("$_DFF_PN0_", C=2, R=3, D=8, Q=7), **more_cells}
    nets = {"$auto$9": net(8, hidden=1), "q(0)": net(7), "in": net(4, 5, offset=4), "clk": net(2), "rst_n": net(3), "y": net(6)}
    return module(ports, cells, nets)


def synchronized(**changed: Part) -> Part:
    """q takes in at clk; its reset r comes from two flip-flops that take over a constant 1; y = XOR(q, NOT r)."""
    ports = {"clk": port("input", 2), "rst_n": port("input", 3), "in": port("input", 4), "y": port("output", 5)}
    cells = {"s1": cell("$_DFF_PN0_", C=2, R=3, D="1", Q=6), "s2": cell("$_DFF_PN0_", C=2, R=3, D=6, Q=7),
             "ff": cell("$_DFF_PN0_", C=2, R=7, D=4, Q=8), "n": cell("$_NOT_", A=7, Y=9), "x": cell("$_XOR_", A=8, B=9, Y=5), **changed}
    return module(ports, cells, {"meta": net(6), "r": net(7), "q": net(8), "$n": net(9, hidden=1)})


class FromYosys(ToolTest):
    def written(self, text: Part, *options: str) -> Tuple[str, str]:
        """NET and MAP of a design."""
        self.call(main, self.write("json", json.dumps(text)), self.path("net"), self.path("map"), *options)
        return self.read("net"), self.read("map")

    def refused(self, reason: str, text: Part, *options: str) -> None:
        self.refuse(main, reason, self.write("json", json.dumps(text)), self.path("net"), self.path("map"), *options)

    def test_names_ports_and_flip_flops(self) -> None:
        self.assertEqual(self.call(main, self.write("json", json.dumps(design())), self.path("net"), self.path("map")), GOOD)
        self.assertEqual(self.read("net"), lines(
            "INPUT(in[4])", "INPUT(in[5])", "OUTPUT(y)", "q%280%29 = DFF($auto$9)", "$auto$9 = AND(in[4], q%280%29)", "y = NOT(q%280%29)"))
        self.assertEqual(self.read("map"), lines(
            "pdfgen map 2", "what,name,line,value", "clock,clk,,rising", "held,rst_n,,1", "constant,z,,1", "input,in[4],in[4],",
            "input,in[5],in[5],", "output,y,y,", "flip_flop,ff,q%280%29,", "gate,u%231,$auto$9,A B", "gate,u2,y,A", "bus,in,,5:4"))
        self.assertEqual(text_of(map_of(self.read("map"))), self.read("map"))

    def test_buffers_carry_the_times_of_flip_flops(self) -> None:
        net_text, map_text = self.written(design(), "--flip-flop-delays")
        self.assertIn(lines("q%280%29%setup = BUFF($auto$9)", "q%280%29%clock_to_q = BUFF(q%280%29)", "q%280%29 = DFF(q%280%29%setup)"), net_text)
        self.assertIn("y = NOT(q%280%29%clock_to_q)\n", net_text)
        self.assertIn(lines("setup,ff,q%280%29%setup,D", "clock_to_q,ff,q%280%29%clock_to_q,C"), map_text)

    def test_buffers_carry_the_delays_of_wires_to_outputs(self) -> None:
        text = design()
        text["modules"]["top"]["ports"]["w"] = port("output", 6)
        net_text, map_text = self.written(text, "--output-delays")
        self.assertIn(lines("OUTPUT(y%output)", "OUTPUT(w%output)", "y%output = BUFF(y)", "w%output = BUFF(y)"), net_text)
        self.assertIn(lines("output_wire,y,y%output,", "output_wire,w,w%output,"), map_text)

    def test_ranges_count_up_or_down(self) -> None:
        text = design()
        text["modules"]["top"]["ports"]["in"] = port("input", 4, 5, offset=4, upto=1)
        del text["modules"]["top"]["netnames"]["in"]
        net_text, _ = self.written(text)  # of [4:5] the last is the lowest
        self.assertIn(lines("INPUT(in[5])", "INPUT(in[4])"), net_text)
        self.assertIn("$auto$9 = AND(in[5], q%280%29)\n", net_text)

    def test_all_names_of_a_line_are_told(self) -> None:
        text = design()
        text["modules"]["top"]["netnames"].update({"total": net(9, 7), "same": net(6), "_5_": net(8), "$hidden": net(8, hidden=1), "z": net(7)})
        _, map_text = self.written(text)
        self.assertIn(lines("alias,total[1],q%280%29,", "alias,z,q%280%29,", "alias,same,y,"), map_text)
        self.assertEqual(map_text.count("alias"), 3)
        self.assertEqual(map_of(map_text).names_of("q%280%29"), ["q%280%29", "total[1]", "z"])

    def test_a_name_of_two_nets_is_no_alias(self) -> None:
        text = design()
        text["modules"]["top"]["netnames"].update({"a": net(6, 7), "a[0]": net(7)})
        self.assertNotIn("alias,a[0]", self.written(text)[1])

    def test_names_come_back(self) -> None:
        for name in ("a[3]", "\\weird name", "50%", "*", "a,b", 'say "x"', "ümlaut", "\xff"):
            self.assertEqual(unescaped(escaped(name)), name)
            self.assertRegex(escaped(name), r'^[^"#(),= \x7f-\xff]+$')
        text = design()
        text["modules"]["top"]["ports"]["\xc3\xbc"] = text["modules"]["top"]["ports"].pop("y")
        self.assertIn("OUTPUT(%C3%BC)\n", self.written(text)[0])

    def test_names_of_the_design_come_before_those_of_yosys(self) -> None:
        text = design()
        nets = text["modules"]["top"]["netnames"]
        text["modules"]["top"]["netnames"] = {"_0_": net(7), **nets}
        self.assertIn("flip_flop,ff,q%280%29,\n", self.written(text)[1])

    def test_a_synchronizer_releases_resets(self) -> None:
        net_text, map_text = self.written(synchronized())
        self.assertEqual(net_text, lines("INPUT(in)", "OUTPUT(y)", "q = DFF(in)", "y = BUFF(q)"))
        self.assertIn(lines("held,rst_n,,1", "settled,s1,,1", "settled,s2,,1"), map_text)
        self.assertIn(lines("gate,x,y,A", "still,n,,A", "still,x,,B"), map_text)
        active_high = {"ff": cell("$_DFF_PP0_", C=2, R=9, D=4, Q=8)}
        self.assertIn(lines("held,rst_n,,1", "settled,s1,,1", "settled,s2,,1"), self.written(synchronized(**active_high))[1])

    def test_a_synchronizer_that_never_releases_is_refused(self) -> None:
        self.refused("cell ff: its reset is active while a constant 0 is 0, as it has to be held",
                     synchronized(s1=cell("$_DFF_PN0_", C=2, R=3, D="0", Q=6)))
        self.refused("the reset r settles at no value", synchronized(s1=cell("$_DFF_PN0_", C=2, R=3, D=7, Q=6)))
        self.refused("the reset meta is no input port, nor held by a synchronizer (hold its ports: --hold PIN=1)",
                     synchronized(s1=cell("$_OR_", A=3, B=4, Y=6)))
        self.refused("cell s2: its reset is active while rst_n is 1, as it has to be held",
                     synchronized(s2=cell("$_DFF_PP0_", C=2, R=3, D=6, Q=7)))

    def test_both_of_two_resets_are_held(self) -> None:
        text = synchronized(s1=cell("$_AND_", A=3, B=10, Y=6), s2=cell("$_BUF_", A=6, Y=7))
        text["modules"]["top"]["ports"]["por_n"] = port("input", 10)
        self.assertIn(lines("held,rst_n,,1", "held,por_n,,1"), self.written(text)[1])

    def test_what_is_held_makes_gates_simpler(self) -> None:
        # y by all kinds of gates at a free pin and a held one, against the values of the gate itself
        for kind, value, swapped in itertools.product(("AND", "NAND", "OR", "NOR", "XOR", "XNOR"), "01", (False, True)):
            pins = {"A": 3, "B": 2} if swapped else {"A": 2, "B": 3}
            text = module({"a": port("input", 2), "t": port("input", 3), "y": port("output", 4), "n": port("output", 5)},
                          {"g": cell(f"$_{kind}_", Y=4, **pins), "m": cell("$_NOT_", A=2, Y=5)}, {})
            free, _ = self.written(text)
            kept, map_text = self.written(text, "--hold", f"t={value}")
            self.assertIn(f"held,t,,{value}\n", map_text)
            whole = circuit_of(free)
            want = whole.values([0b10, 0b11 * int(value)], 0b11)[whole.line_of["y"]]
            circuit = circuit_of(kept)
            found = map_of(map_text)
            if found.constants:
                self.assertEqual(found.constants[0].value * 0b11, want)
                self.assertEqual(found.stills[0].pins, ("A", "B"))
            else:
                self.assertEqual(circuit.values([0b10], 0b11)[circuit.line_of["y"]], want)
                self.assertEqual(found.stills[0].pins, ("A",) if swapped else ("B",))

    def test_held_pins_have_to_be_input_ports(self) -> None:
        self.refused("--hold y: the design has no such input port", design(), "--hold", "y=1")
        self.refused("cell ff: its reset is active while rst_n is 0, as it has to be held", design(), "--hold", "rst_n=0")
        self.refused("the clock clk is held, or a reset", design(), "--hold", "clk=0")
        words = [self.write("json", json.dumps(design())), self.path("net"), self.path("map")]
        for hold in ("in[4]", "in[4]=2", "=1"):
            self.refuse(main, f"words: --hold {hold}: not PIN=0 or PIN=1, or twice", *words, "--hold", hold, status=2)
        self.refuse(main, "words: --hold in[4]=1: not PIN=0 or PIN=1, or twice", *words, "--hold", "in[4]=0", "--hold", "in[4]=1", status=2)

    def test_one_file_is_not_written_twice(self) -> None:
        json_file, net_file = self.write("json", json.dumps(design())), self.path("net")
        self.refuse(main, f"{net_file}: would overwrite another file of this call", json_file, net_file, net_file)
        self.refuse(main, f"{json_file}: would overwrite another file of this call", json_file, net_file, json_file)

    def test_neither_of_two_files_stays_alone(self) -> None:
        words = [self.write("json", json.dumps(design())), self.path("net"), self.path("map")]
        self.write("net", "old")
        with mock.patch("os.replace", side_effect=failing_at(2, os.replace)):  # MAP is moved, then NET can't be
            self.refuse(main, f"{words[1]}: No space left on device", *words, status=6)
        self.assertEqual((self.read("net"), (self.folder / "map").exists()), ("old", False))
        self.write("map", "older")
        with mock.patch("os.replace", side_effect=failing_at(2, os.replace)):
            self.refuse(main, f"{words[1]}: No space left on device", *words, status=6)
        self.assertEqual((self.read("net"), self.read("map")), ("old", "older"))
        self.refuse(main, f"{self.folder}/none/map: No such file or directory", *words[:2], f"{self.folder}/none/map", status=6)
        self.assertEqual(self.read("net"), "old")

    def test_what_a_bench_netlist_cannot_have_is_refused(self) -> None:
        for text in ("{", "[" * 100000, "[]", '{"modules": {"top": []}}', '{"modules": {"a": {"ports": {}, "ports": {}}}}'):
            self.refuse(main, "JSON: not what yosys writes", self.write("json", text), self.path("net"), self.path("map"))
        self.refused("cell m: $_MUX_ is no gate of a .bench netlist", design(m=cell("$_MUX_", A=4, B=5, S=7, Y=9)))
        self.refused("cell g pin B: not connected", design(g=cell("$_AND_", A=4, Y=9)))
        self.refused("cell g pin B: undriven in the design (x)", design(g=cell("$_AND_", A=4, B="x", Y=9)))
        self.refused("cell g: reads the clock clk", design(g=cell("$_AND_", A=2, B=5, Y=9)))
        self.refused("cell g: reads the undriven net 10", design(g=cell("$_AND_", A=10, B=5, Y=9)))
        self.refused("cell f pin D: a constant 0", design(f=cell("$_DFF_P_", C=2, D="0", Q=9)))
        self.refused("cell f pin D: reads rst_n, which is always 1", design(f=cell("$_DFF_P_", C=2, D=3, Q=9)))
        self.refused("net y is driven twice", design(g=cell("$_AND_", A=4, B=5, Y=6)))
        self.refused("net in[5] is driven twice", design(g=cell("$_AND_", A=4, B=7, Y=5)))
        self.refused("flip-flops have several clocks, or both edges of one", design(f=cell("$_DFF_N_", C=2, D=5, Q=9)))
        self.refused("the clock $auto$9 is no input port", design(ff=cell("$_DFF_P_", C=8, D=5, Q=7)))
        self.refused("the reset $auto$9 is no input port, nor held by a synchronizer (hold its ports: --hold PIN=0)",
                     design(ff=cell("$_DFF_PP0_", C=2, R=8, D=5, Q=7), **{"u#1": cell("$_AND_", A=4, B=5, Y=8)}))

    def test_loops_are_refused(self) -> None:
        self.refused("NET: loop at $auto$9", design(**{"u#1": cell("$_AND_", A=4, B=8, Y=8)}))

    def test_names_are_bytes(self) -> None:
        text = design()
        text["modules"]["top"]["ports"]["\u20ac"] = text["modules"]["top"]["ports"].pop("y")
        self.refused("a name has what is no byte: '\\u20ac'", text)
        text["modules"]["top"]["ports"]["a\nb" * 100] = text["modules"]["top"]["ports"].pop("\u20ac")
        self.refused("a name is empty or too long: " + ("a\\nb" * 14)[:53], text)

    def test_a_port_both_ways_is_refused(self) -> None:
        text = design()
        text["modules"]["top"]["ports"]["b"] = port("inout", 4)
        self.refused("port b: neither input nor output", text)


def failing_at(call: int, real: Any) -> Any:
    """The real function, but its call of this number fails as on a full disk."""
    count = itertools.count(1)

    def replaced(*words: Any) -> Any:
        if next(count) == call:
            raise OSError(28, "No space left on device")
        return real(*words)

    return replaced
