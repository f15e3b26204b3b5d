"""pdfgen-explain, on a replay worked out by hand: under delays of 5 units at pin 0 of y and else 1, y has 1, 0 at 3 units."""
from __future__ import annotations

from support import EXAMPLES, REPORT_HEADER, ToolTest, called, hazard_files, lines
from pdfgen_tools.cli.explain import main


class Explain(ToolTest):
    def test_a_wrong_bit_is_told(self) -> None:
        replay = self.write("replay", lines("1 1 differs", "2 0 same"))
        told = lines("test 1: path 1, fall, nonrobust, from a to y, 5 units by REPORT", "  wrong at y (output): 1, not 0; the path's end")
        files = hazard_files(self)
        self.assertEqual(self.call(main, *files, replay, "--wrong"), told)
        told += lines("test 2: path 2, rise, nonrobust, from a to y, 2 units by REPORT", "  all right")
        self.assertEqual(self.call(main, *files, replay), told)

    def test_other_bits_are_not_the_paths(self) -> None:
        net = self.write("net", lines("INPUT(a)", "OUTPUT(y)", "q = DFF(z)", "y = BUFF(a)", "z = BUFF(a)"))
        report = self.write("report", lines(REPORT_HEADER, "1,rise,1,a,y:0,robust,1,-,-", "1,fall,1,a,y:0,untestable,-,-,1"))
        tests = self.write("tests", lines("pdfgen tests 1", "sources a q", "observed y z", "1 1 rise robust 00 10 11"))
        replay = self.write("replay", lines("1 10 differs met"))
        self.assertEqual(self.call(main, net, tests, report, replay), lines(
            "test 1: path 1, rise, robust, from a to y, 1 units by REPORT; the path isn't late by its delays",
            "  wrong at z (flip-flop q): 0, not 1; not this path's end"))

    def test_lengths_under_the_delays_of_the_replay(self) -> None:
        files = [*hazard_files(self), self.write("replay", lines("1 1 differs", "2 0 same")), "--delays"]
        told = self.call(main, *files, str(EXAMPLES / "hazard.csv"))
        self.assertIn("from a to y, 5 units by REPORT, 5 by DELAYS\n", told)
        self.assertIn("from a to y, 2 units by REPORT, 2 by DELAYS\n", told)
        two = self.write("delays", lines("gate,pin,rise,fall", "*,*,1,1", "y,0,3,5"))  # a ends at 0 under test 1
        self.assertEqual(self.call(main, *files, two), told)

    def test_a_report_of_other_delays_is_told(self) -> None:
        files = [*hazard_files(self), self.write("replay", lines("1 1 differs", "2 0 same")), "--delays"]
        status, out, err = called(main, [*files, self.write("delays", lines("gate,pin,delay", "y,*,7"))])
        self.assertEqual(status, 0)
        self.assertIn("5 units by REPORT, 7 by DELAYS\n", out)
        self.assertIn("2 units by REPORT, 8 by DELAYS\n", out)
        self.assertEqual(err, "pdfgen-explain: warning: REPORT was made under other delays: 4 of its 4 faults have another length under DELAYS\n")

    def test_another_report_is_refused(self) -> None:
        files = [*hazard_files(self), self.write("replay", lines("1 1 differs", "2 0 same"))]
        report = self.read("report")
        for reason, old, new in (("path 1 WrongPath", "5,a,y:0", "5,a,y:1"), ("REPORT line 3 malformed", "1,fall", "1,rise"),
                                 ("test 2: REPORT lists no nonrobust fault 2 rise", "y:1,nonrobust,2,3,-", "y:1,untestable,-,-,3"),
                                 ("test 1: no test of path 1, fall, that REPORT lists (of another run?)", "5,a,y:0", "5,a,m:0 y:1")):
            self.write("report", report.replace(old, new))
            self.refuse(main, reason, *files)

    def test_a_replay_of_other_tests_is_refused(self) -> None:
        files = hazard_files(self)
        for reason, text in (("REPLAY line 2: missing", "1 1 differs\n"), ("REPLAY line 1: same isn't so, by TESTS", "1 1 same\n2 0 same\n"),
                             ("REPLAY line 1: not of test 1", "1 11 differs\n2 0 same\n"),
                             ("REPLAY line 3: not of test 3", "1 0 same\n2 0 same\n3 0 same\n")):
            self.refuse(main, reason, *files, self.write("replay", text))
