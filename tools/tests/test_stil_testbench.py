"""The testbench that pdfgen-stil writes beside STIL, as text: Icarus plays it in tests_with_packages/test_stil_in_icarus.py."""
from __future__ import annotations

from support import lines
from stil_support import StilTest
from pdfgen_tools.cli.stil import main

BROADSIDE = ("--mode", "broadside", "--time", "7", "--unit", "10", "--slow", "1000")
MAP = lines("pdfgen map 2", "what,name,line,value", "clock,ck,,falling", "held,up[0],,1", "constant,low[0],,1", "input,up[1],a,", "input,down[0],b,",
            "input,down[1],c,", "output,low[1],y,", "output,out%28put%29,z,", "flip_flop,p,p,", "flip_flop,q,q,", "bus,up,,0:1", "bus,down,,1:0",
            "bus,low,,1:0")


class Testbench(StilTest):
    def written(self) -> str:
        net = lines("INPUT(a)", "INPUT(b)", "INPUT(c)", "OUTPUT(y)", "OUTPUT(z)", "p = DFF(y)", "q = DFF(z)", "y = AND(a, q)", "z = OR(b, p, c)")
        report = lines("1,rise,1,a,y:0,robust,1,-,-", "1,fall,1,a,y:0,untestable,-,-,1")
        files = self.files(net, "p\nq\n", lines("1 1 rise robust 00011 10001 10"), report)
        self.call(main, *files, *BROADSIDE, "--map", self.write("map", MAP), "--testbench", self.path("testbench"), "--module", "chip", "--strobe", "5")
        return self.read("testbench")

    def test_ranges_have_their_own_order(self) -> None:
        """Inputs are ck, scan_enable, up[0], up[1], down[0], down[1] and scan_in1, outputs low[1], out(put) and scan_out1."""
        self.assertIn("\\chip  chip (.\\up ({in[2], in[3]}), .\\down ({in[5], in[4]}), .\\low ({out[0], open_2[1]}), .\\ck (in[0]), "
                      ".\\scan_enable (in[1]), .\\scan_in1 (in[6]), .\\out(put) (out[1]), .\\scan_out1 (out[2]));", self.written())

    def test_a_cycle_at_speed(self) -> None:
        """70 ps: the outputs are compared 5 ps before the falling edge, with which the inputs change."""
        text = self.written()
        task = text[text.index("  task table_at_speed;"):]
        self.assertEqual(task[:task.index("  endtask")], lines(
            "  task table_at_speed;", "    begin", "      #0;", "      in[0] = pulse ? 1'b1 : 1'b1;", "      #0;", "      in[2:2] = letters[2:2];",
            "      in[1:1] = letters[1:1];", "      in[6:6] = letters[6:6];", "      #30;", "      for (at = 0; at <= 2; at = at + 1) compare(at);", "      #5;",
            "      in[0] = pulse ? 1'b0 : 1'b1;", "      #0;", "      in[3:5] = letters[3:5];", "      #17;", "      in[0] = pulse ? 1'b1 : 1'b1;", "      #18;",
            "      cycle = cycle + 1;", "    end", "  endtask")[:-len("  endtask\n")])

    def test_the_clock_changes_before_inputs_and_behind_comparisons(self) -> None:
        net = lines("INPUT(a)", "OUTPUT(y)", "q = DFF(y)", "y = BUFF(a)")
        files = self.files(net, "q\n", lines("1 1 rise robust 00 10 1"), lines("1,rise,1,a,y:0,robust,1,-,-", "1,fall,1,a,y:0,untestable,-,-,1"))
        self.call(main, *files, *BROADSIDE, "--testbench", self.path("testbench"), "--module", "chip")
        at_edge = lines("      #35;", "      for (at = 0; at <= 1; at = at + 1) compare(at);", "      in[0] = pulse ? 1'b1 : 1'b0;", "      #0;",
                        "      in[2:2] = letters[2:2];")
        self.assertIn(at_edge, self.read("testbench"))

    def test_names_with_blanks_are_none_of_verilog(self) -> None:
        net = lines("INPUT(a)", "OUTPUT(y)", "q = DFF(y)", "y = BUFF(a)")
        files = self.files(net, "q\n", lines("1 1 rise robust 00 10 1"), lines("1,rise,1,a,y:0,robust,1,-,-", "1,fall,1,a,y:0,untestable,-,-,1"))
        rows = lines("pdfgen map 2", "what,name,line,value", "clock,ck,,rising", "input,a%20,a,", "output,y,y,", "flip_flop,q,q,")
        self.refuse(main, "port a : a name with a blank is none of Verilog", *files, *BROADSIDE, "--map", self.write("map", rows), "--testbench",
                    self.path("testbench"), "--module", "chip")

    def test_words_go_together(self) -> None:
        files = self.broadside()
        for words in (("--testbench", self.path("testbench")), ("--module", "chip"), ("--testbench", self.path("testbench"), "--module", "a chip")):
            self.refuse(main, "words: --testbench and --module go together, and a module's name has no blanks", *files, *BROADSIDE, *words, status=2)
