"""pdfgen-stil, on runs worked out by hand: what it writes, what it refuses, and what a good chip does with it."""
from __future__ import annotations

import pathlib

from support import EXAMPLES, REPORT_HEADER, lines
from stil_support import SKEWED_TESTS, Launch, StilTest, chip
from pdfgen_tools.cli.stil import main

BROADSIDE = ("--mode", "broadside", "--time", "5")
SKEWED = ("--mode", "skewed", "--time", "5")
MAP_HEAD = lines("pdfgen map 2", "what,name,line,value")


class PdfgenStil(StilTest):
    def test_skewed_load(self) -> None:
        files = self.skewed()
        self.assertEqual(self.call(main, *files, *SKEWED), "tests 3 chains 1 cells 2\n")
        for call in ('"test 1": Call load_unload { "scan_in1"=11; "scan_out1"=XX; }', '"test 2": Call load_unload { "scan_in1"=01; "scan_out1"=LL; }',
                     '"test 3": Call load_unload { "scan_in1"=10; "scan_out1"=HH; }', 'Call load_unload { "scan_in1"=00; "scan_out1"=LL; }'):
            self.assertIn(call, self.read("stil"))
        player = self.played(chip(self.circuit(files), ["q1 q2"]), 3 * 3)
        self.assertEqual(self.launches(player), [Launch("11", "01", 5, ()), Launch("10", "11", 5, ()), Launch("01", "10", 5, ())])

    def test_broadside(self) -> None:
        files = self.broadside()
        self.assertEqual(self.call(main, *files, *BROADSIDE, "--unit", "10"), "tests 2 chains 1 cells 1\n")
        player = self.played(chip(self.circuit(files), ["q"]), 2 * 2)
        self.assertEqual(self.launches(player), [Launch("11", "01", 50, ()), Launch("01", "10", 50, ())])

    def test_only_ends_of_served_paths_are_compared(self) -> None:
        net = lines("INPUT(a)", "OUTPUT(y)", "OUTPUT(z)", "q = DFF(z)", "y = BUFF(a)", "z = BUFF(a)")
        files = self.files(net, "q\n", lines("1 1 rise robust 00 10 11"), lines("1,rise,1,a,y:0,robust,1,-,-", "1,fall,1,a,y:0,untestable,-,-,1"))
        self.call(main, *files, *BROADSIDE)
        self.assertIn("outputs=HX;", self.read("stil"))
        self.assertIn('"scan_out1"=X;', self.read("stil"))
        self.call(main, *files, *BROADSIDE, "--unmasked")
        self.assertIn("outputs=HH;", self.read("stil"))
        self.played(chip(self.circuit(files), ["q"]), 3)

    def test_chains_of_different_lengths(self) -> None:
        net = lines("OUTPUT(d)", "q1 = DFF(d)", "q2 = DFF(d)", "q3 = DFF(d)", "d = AND(q1, q2, q3)")
        files = self.files(net, "q3\n\nq1\nq2\n", lines("1 1 fall robust 111 011 0"),
                           lines("1,rise,1,q1,d:0,untestable,-,-,1", "1,fall,1,q1,d:0,robust,1,-,-"))
        self.call(main, *files, *SKEWED)
        self.assertIn('"scan_in1"=01; "scan_in2"=11;', self.read("stil"))
        self.assertIn('"scan_out1"=LX; "scan_out2"=LL;', self.read("stil"))
        player = self.played(chip(self.circuit(files), ["q3", "q1 q2"]), 4)
        self.assertEqual(self.launches(player), [Launch("111", "011", 5, ())])

    def test_pairs_of_other_modes_are_refused(self) -> None:
        files = self.skewed()
        self.refuse(main, "test 1: no pair of mode broadside, at flip-flop q1 (of enhanced scan?)", *files, *BROADSIDE)
        self.write("tests", SKEWED_TESTS.replace("10 11 1", "00 11 1"))
        self.refuse(main, "test 2: no pair of mode skewed, at flip-flop q2 (of enhanced scan?)", *files, *SKEWED)
        self.write("tests", SKEWED_TESTS.replace("10 11 1", "10 11 0"))
        self.refuse(main, "test 2: expects wrong bits", *files, *SKEWED)

    def test_bad_chains_are_refused(self) -> None:
        files = self.skewed()
        for reason, text in (("SCAN: missing q2", "q1\n"), ("SCAN line 2: unknown d", "q1\nd\nq2\n"), ("SCAN line 2: twice q1", "q1\nq1\nq2\n"),
                             ("SCAN line 1: unknown ", "\nq1\nq2\n"), ("SCAN line 3: unknown ", "q1\nq2\n\n"), ("SCAN line 2: no LF at its end", "q1\nq2"),
                             ("SCAN line 1: unknown q1\\r", "q1\r\nq2\r\n")):
            self.write("scan", text)
            self.refuse(main, reason, *files, *SKEWED)

    def test_a_bad_map_is_refused(self) -> None:
        rows = MAP_HEAD + lines("clock,ck,,falling", "held,r,,1", "input,a,a,", "output,d,d,", "flip_flop,f,q,")
        files = [*self.broadside(), *BROADSIDE, "--map", self.write("map", rows)]
        self.assertEqual(self.call(main, *files), "tests 2 chains 1 cells 1\n")
        pathlib.Path(files[4]).unlink()
        for reason, old, new in (("MAP: not one clock", "clock,ck,,falling\n", ""), ("MAP line 4: unknown hold", "held", "hold"),
                                 ("MAP line 5: twice r", "held,r,,1", "held,r,,1\nheld,r,,0"), ("MAP: z isn't of NET", "output,d,d", "output,z,z"),
                                 ("MAP: its inputs or outputs aren't those of NET", "input,a,a,\n", ""),
                                 ("MAP: its inputs or outputs aren't those of NET", "input,a,a", "input,a,d"),
                                 ("MAP: its inputs or outputs aren't those of NET", "output,d,d,\n", ""), ("MAP line 6: not four fields", "d,d,", "d,d")):
            self.write("map", rows.replace(old, new))
            self.refuse(main, reason, *files)

    def test_a_bad_report_is_refused(self) -> None:
        files = self.broadside()
        self.write("report", self.read("report").replace("1,a,d:0", "1,q,d:0"))
        self.refuse(main, "path 1 WrongPath", *files, *BROADSIDE)

    def test_a_report_of_another_run_is_refused(self) -> None:
        files = self.broadside()
        report = lines(REPORT_HEADER, "1,rise,1,q,d:1,untestable,-,-,1", "1,fall,1,q,d:1,nonrobust,1,2,-", "2,rise,1,a,d:0,untestable,-,-,3",
                       "2,fall,1,a,d:0,robust,2,-,-")
        self.write("report", report)
        self.refuse(main, "test 1: no test of path 1, fall, that REPORT lists (of another run?)", *files, *BROADSIDE)

    def test_an_input_is_not_overwritten(self) -> None:
        *files, _ = self.broadside()
        for name in files[1:]:
            held = pathlib.Path(name).read_text()
            self.refuse(main, f"{name}: would overwrite another file of this call", *files, name, *BROADSIDE)
            self.assertEqual(pathlib.Path(name).read_text(), held)

    def test_a_netlist_without_flip_flops_is_refused(self) -> None:
        files = self.broadside()
        files[0] = str(EXAMPLES / "hazard.bench")
        self.write("scan", "")
        self.write("tests", lines("pdfgen tests 1", "sources a", "observed y"))
        self.write("report", lines(REPORT_HEADER))
        self.refuse(main, "NET: no flip-flop on a chain, so nothing to load", *files, *BROADSIDE)

    def test_words_are_refused(self) -> None:
        files = self.broadside()
        for line, words in (("words: a period is at least 4 ps", ("--time", "3")), ("words: --time is at most 9999999999", ("--time", "10000000000")),
                            ("words: a period is at most 10000000000000 ps", ("--time", "9999999999", "--unit", "10000")),
                            ("words: --strobe is at least 0, and less than half of the period at speed", ("--time", "8", "--strobe", "4")),
                            ("words: argument --hold: a=2 is no PIN=0 or PIN=1", ("--time", "8", "--hold", "a=2"))):
            self.refuse(main, line, *files, "--mode", "broadside", *words, status=2)

    def test_words_of_a_file(self) -> None:
        files = self.broadside()
        self.call(main, *files, *BROADSIDE, "--scan-in=si", "--scan-out=so")
        text = self.read("stil")
        self.call(main, *files, *BROADSIDE, "@" + self.write("words", "--scan-in=si\n--scan-out\nso\n"))
        self.assertEqual(self.read("stil"), text)
        self.refuse(main, f"{self.path('other')}: No such file or directory", *files, *BROADSIDE, "@" + self.path("other"), status=5)
