"""pdfgen-sdf, on the small files of sdf_cases.py, and on what they don't have."""
from __future__ import annotations

import itertools
import re
from typing import Tuple

import sdf_cases
from sdf_cases import CASES, DESIGN, GRAMMAR, MAP, NET, Refusal, cell, checks, file
from support import ToolTest, lines
from pdfgen_tools.cli.sdf import main
from pdfgen_tools.sdf.conditions import ConditionReader

SMALL_NET = lines("INPUT(a)", "OUTPUT(y)", "q = DFF(n)", "n = NOT(a)", "y = AND(q, n)")
SMALL_MAP = lines("pdfgen map 2", "what,name,line,value", "clock,clk,,falling", "input,a,a,", "output,y,y,", "flip_flop,f,q,", "gate,u1,n,A",
                  "gate,u2,y,A B", "constant,z,,1", "still,u3,,A B", "settled,s,,1")


class Sdf(ToolTest):
    def words(self, text: str, corner: str = "max", net: str = NET, map_text: str = MAP) -> Tuple[str, ...]:
        return (self.write("sdf", text), self.write("net", net), self.write("map", map_text), self.path("delays"), "--corner", corner)

    def refuse_text(self, refusal: Refusal) -> None:
        self.refuse(main, refusal.line, *self.words(file(refusal.text, refusal.header)), "--rise-fall")

    def test_two_delays_of_each_pin(self) -> None:
        for name, case in CASES.items():
            with self.subTest(name):
                told = {**sdf_cases.UNTOLD, **case.told}
                said = self.call(main, *self.words(file(case.text, case.header), case.corner), "--rise-fall")
                rows = self.read("delays").splitlines()
                self.assertEqual(rows[:2], ["gate,pin,rise,fall", "*,*,1000000,1000000"])
                self.assertEqual(set(rows[2:]), {f"{pin}," + ",".join("1000000" if value is None else str(value) for value in values)
                                                 for pin, values in told.items()})
                forgotten, edges = 11 - len(told), sum(None in values for values in told.values())
                self.assertRegex(said, rf"\Apins 11 forgotten {forgotten} edges {edges} wires [0-9]+ of 10 read [0-9]+ ignored [^\n]+\n\Z")
                self.assertTrue(said.endswith((case.ignored or "ignored 0") + "\n"), said)

    def test_one_delay_is_the_greater(self) -> None:
        for name, case in CASES.items():
            with self.subTest(name):
                told = {**sdf_cases.UNTOLD, **case.told}
                self.call(main, *self.words(file(case.text, case.header), case.corner))
                self.assertEqual(set(self.read("delays").splitlines()), {"gate,pin,delay", "*,*,1000000"} | {
                    f"{pin},{max(rise, fall)}" for pin, (rise, fall) in told.items() if rise is not None and fall is not None})

    def test_what_is_not_of_the_grammar(self) -> None:
        for name, refusal in GRAMMAR.items():
            with self.subTest(name):
                self.refuse_text(refusal)

    def test_what_is_not_of_the_netlist(self) -> None:
        for name, refusal in DESIGN.items():
            with self.subTest(name):
                self.refuse_text(refusal)

    def test_all_is_counted(self) -> None:
        text = file(cell("", "(INTERCONNECT a u1/A (1))", "(INTERCONNECT clk f/C (0))", "(INTERCONNECT rst f/R (5))", "(PORT u1/A (2))")
                    + cell("u1", "(IOPATH A Y (1) (2) (3))") + cell("u2", "(IOPATH A Y () (2))", "(IOPATH A Y (RETAIN (1)) () (2))")
                    + checks("(SETUP D C (1))", "(HOLD D C (1))", "(WIDTH C (1))", "(WIDTH C (2))"), "(DIVIDER /) (TIMESCALE 1ps)")
        self.assertEqual(self.call(main, *self.words(text)), (
            "pins 11 forgotten 6 edges 1 wires 1 of 10 read 7 ignored 6 (HOLD 1, RETAIN 1, WIDTH 2, resets 1, values for z 1)\n"))

    def test_units(self) -> None:
        text = file(cell("u1", "(IOPATH A Y (30.001) (30))"), "(TIMESCALE 1ps)")
        for unit, rise, fall in (("1", 30, 31), ("3", 10, 11), ("10", 3, 4), ("31", 1, 1)):
            self.call(main, *self.words(text), "--rise-fall", "--unit", unit)
            self.assertIn(f"n,0,{rise},{fall}\n", self.read("delays"))

    def test_the_words(self) -> None:
        words = self.words(file(cell("u1", "(IOPATH A Y (1))"), ""))
        self.refuse(main, "words: the following arguments are required: --corner", *words[:4], status=2)
        self.refuse(main, "words: --unit is at least 1", *words, "--unit", "0", status=2)
        self.refuse(main, f"{words[1]}: would overwrite another file of this call", *words[:3], words[1], *words[4:])

    def test_what_net_has_no_pin_for(self) -> None:
        wires = ("(INTERCONNECT u1/Y f/D (4))", "(INTERCONNECT u2/Y y (5))", "(INTERCONNECT clk f/C (6))")
        begin, paths = "SDF line 2: cell ", cell("u1", "(IOPATH A Y (1))")
        for text, kind, line in (
                (cell("f", "(IOPATH (negedge C) Q (2))"), "flip-flops", "f: a clock-to-Q time of 2: NET has no buffer for it "
                 "(--flip-flop-delays of pdfgen-from-yosys; --leave-out flip-flops)"),
                (checks("(SETUP D (negedge C) (3))"), "flip-flops", "f: a setup time of 3: NET has no buffer for it "
                 "(--flip-flop-delays of pdfgen-from-yosys; --leave-out flip-flops)"),
                (cell("", wires[0]), "flip-flops", "-: a wire to f/D of 4: NET has no buffer for it "
                 "(--flip-flop-delays of pdfgen-from-yosys; --leave-out flip-flops)"),
                (cell("", wires[1]), "output-wires", "-: a wire to y of 5: NET has no buffer for it "
                 "(--output-delays of pdfgen-from-yosys; --leave-out output-wires)"),
                (cell("", wires[2]), "clock-wires", "-: a wire of the clock to f/C of 6: NET has no clock (--leave-out clock-wires)")):
            words = self.words(file(text + paths, "(DIVIDER /)"), net=SMALL_NET, map_text=SMALL_MAP)
            self.refuse(main, begin + line, *words)
            self.refuse(main, begin + line, *words, *(word for other in ("flip-flops", "output-wires", "clock-wires") if other != kind
                                                     for word in ("--leave-out", other)))
            self.assertIn(f"ignored 1 (left out: {kind} 1)\n", self.call(main, *words, "--unit", "1000", "--leave-out", kind))
            none = re.sub(r"\([2-6]\)", "(0.0:0.0:0.0)", text) + paths
            words = self.words(file(none, "(DIVIDER /)"), net=SMALL_NET, map_text=SMALL_MAP)
            self.assertIn("read 2 ignored 0\n", self.call(main, *words, "--unit", "1000"))

    def test_another_edge_of_the_clock(self) -> None:
        text = file(cell("f", "(IOPATH (posedge C) Q (0))"), "")
        self.refuse(main, "SDF line 2: cell f: (posedge C), and the flip-flop takes its data at the falling edge",
                    *self.words(text, net=SMALL_NET, map_text=SMALL_MAP))

    def test_what_net_does_not_have(self) -> None:
        text = file(cell("u3", "(IOPATH A Y (1))") + cell("s", "(IOPATH (posedge C) Q (1))") + cell("u1", "(IOPATH A Y (1))")
                    + cell("", "(INTERCONNECT s/Q u3/A (1))", "(INTERCONNECT u3/Y z (2))") + checks("(SETUP D C (0))").replace("f)", "s)"),
                    "(DIVIDER /) (TIMESCALE 1ps)")
        self.assertEqual(self.call(main, *self.words(text, net=SMALL_NET, map_text=SMALL_MAP)), (
            "pins 3 forgotten 2 edges 0 wires 0 of 3 read 1 ignored 5 (cells that NET doesn't have 4, outputs that are constant 1)\n"))

    def test_pins_at_a_constant(self) -> None:
        map_text = SMALL_MAP.replace("gate,u1,n,A\n", "gate,u1,n,A\nstill,u1,,B\n").replace("still,u3,,A B\n", "")
        text = file(cell("u1", "(IOPATH B Y (9))", "(COND B (IOPATH A Y (1)))", "(COND !B (IOPATH A Y (2)))", kind="$_NAND_")
                    + cell("", "(INTERCONNECT a u1/B (9))"), "(DIVIDER /) (TIMESCALE 1ps)")
        self.assertEqual(self.call(main, *self.words(text, net=SMALL_NET, map_text=map_text)), (
            "pins 3 forgotten 2 edges 0 wires 0 of 3 read 2 ignored 2 (pins at a constant 2)\n"))
        self.assertIn("n,0,2\n", self.read("delays"))

    def test_conditions_of_each_kind_of_gate(self) -> None:
        """B is 0 under the first condition, 1 under the second: which of the output's edges counts says the gate."""
        entries = cell("u1", "(COND !B (IOPATH A Y (1) (2)))", "(COND B (IOPATH A Y (3) (4)))")
        for kind, rise, fall in (("XOR", 4, 3), ("XNOR", 3, 4), ("AND", 3, 4), ("NAND", 4, 3), ("OR", 1, 2), ("NOR", 2, 1)):
            net = lines("INPUT(a)", "INPUT(b)", "OUTPUT(y)", f"y = {kind}(a, b)")
            map_text = lines("pdfgen map 2", "what,name,line,value", "input,a,a,", "input,b,b,", "output,y,y,", "gate,u1,y,A B")
            self.call(main, *self.words(file(entries, "(TIMESCALE 1ps)"), net=net, map_text=map_text), "--rise-fall")
            self.assertIn(f"y,0,{rise},{fall}\n", self.read("delays"), kind)

    def test_operators_of_conditions(self) -> None:
        """At which values of A, B and C these hold, 000 to 111."""
        for text, holds in (
                ("A", "00001111"), ("!A", "11110000"), ("~A", "11110000"), ("A&&B", "00000011"), ("A||B", "00111111"), ("A&B", "00000011"),
                ("A|B", "00111111"), ("A^B", "00111100"), ("A~^B", "11000011"), ("A^~B", "11000011"), ("A==B", "11000011"), ("A!=B", "00111100"),
                ("A===1'b1", "00001111"), ("A!==1'B1", "11110000"), ("A==0", "11110000"), ("A||B&&C", "00011111"), ("(A||B)&&C", "00010101"),
                ("A|B^C&A", "00111111"), ("A^B|C", "01111101"), ("A&B==C", "00001001"), ("!A==B", "00111100"), ("{A,B}==2'b01", "00110000"),
                ("{A,B}==2", "00001100"), ("{A,{B,C}}==3'o6", "00000010"), ("{A,B}==2'd1", "00110000"), ("{A,B,C}==3'h5", "00000100"),
                ("&{A,B}", "00000011"), ("~&{A,B}", "11111100"), ("|{A,B}", "00111111"), ("~|{A,B}", "11000000"), ("^{A,B,C}", "01101001"),
                ("~^{A,B}", "11000011"), ("^~{A,B}", "11000011"), ("~{A,B}==2'b10", "00110000"), ("A?B:C", "01010011"), ("A?1:B?0:C", "01001111")):
            condition = ConditionReader(text, 0).read()
            found = "".join(str(int(condition.holds(dict(zip("ABC", values))))) for values in itertools.product((0, 1), repeat=3))
            self.assertEqual(found, holds, text)

    def test_names_with_any_bytes(self) -> None:
        net = lines("INPUT(a%23b[3])", "OUTPUT(y)", "y = BUFF(a%23b[3])")
        map_text = lines("pdfgen map 2", "what,name,line,value", "input,a%23b[3],a%23b[3],", "output,y,y,", "gate,$abc$1.u/1%25[2],y,A")
        text = file(cell("", "(INTERCONNECT a\\#b[3] $abc\\$1.u\\/1\\%[2].A (1))", "(PORT $abc$1\\.u\\/1\\%\\[2\\].A (3))")
                    + cell("\\$abc$1.u\\/1\\%[2]", "(IOPATH A Y (2))"), "(TIMESCALE 1ps)")
        self.assertEqual(self.call(main, *self.words(text, net=net, map_text=map_text)), (
            "pins 1 forgotten 0 edges 0 wires 1 of 1 read 3 ignored 0\n"))
        self.assertIn("y,0,5\n", self.read("delays"))

    def test_maps_of_other_netlists(self) -> None:
        text = file(cell("u1", "(IOPATH A Y (1))"), "")
        self.refuse(main, "MAP line 1: not pdfgen map 2", *self.words(text, map_text="u1\n"))
        self.refuse(main, "MAP: its gates aren't those of NET", *self.words(text, map_text=MAP.replace("gate,u1,n,A", "gate,u1,m,A")))
