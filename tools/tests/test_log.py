"""pdfgen-log, on fail lists worked out by hand."""
from __future__ import annotations

from typing import List, Tuple

from support import lines
from stil_support import StilTest
from pdfgen_tools.cli import log, stil

HEAD = "cycle,pin,value"
SKEWED = ("--mode", "skewed", "--time", "50")


class PdfgenLog(StilTest):
    def session(self, *words: str) -> List[str]:
        """Three tests of a chain of two: each takes six cycles, the load shifts in the second and third. What a test sampled comes out in
        cycles 7 and 8, 13 and 14, 19 and 20, q2 first; the output is compared in cycles 5, 11 and 17."""
        files = self.skewed()
        self.call(stil.main, *files, *SKEWED, "--unit", "10", *words)
        return [files[0], files[2], files[3], files[4]]

    def test_what_a_fail_is_of(self) -> None:
        files = self.session("--unmasked")
        said = self.call(log.main, *files, self.write("fails", lines(HEAD, "14,scan_out1,0", "5,d,1", "20,scan_out1,X")))
        self.assertEqual(said, lines(
            "test 2, cycle 14, pin scan_out1: 0, not 1; chain1 position 1 of 2, flip-flop q1", "  path 2, rise, robust, 1 units from q2 to d",
            "test 1, cycle 5, pin d: 1, not 0; output d", "  path 1, fall, robust, 1 units from q1 to d",
            "test 3, cycle 20, pin scan_out1: X, not 0; chain1 position 1 of 2, flip-flop q1", "  path 2, fall, nonrobust, 1 units from q2 to d"))
        again = self.call(log.main, *files, self.write("fails", lines(HEAD, "15,scan_out1,0", "", "6,d,1", "21,scan_out1,X")), "--first-cycle", "1")
        self.assertEqual(again, said)

    def test_a_log_for_bounds(self) -> None:
        files = self.session("--unmasked")
        fails = self.write("fails", lines(HEAD, "11,d,0"))
        said = self.call(log.main, *files, fails, "--log", self.path("log"))
        self.assertEqual(said.splitlines()[-1], "log: pass 2 fail 1 left out 0 masked, 0 behind the last cycle")
        self.assertEqual(self.read("log"), lines("test,time,result", "1,50,pass", "2,50,fail", "3,50,pass"))
        self.call(log.main, *files, fails, "--log", self.path("log"), "--time", "40", "--last-cycle", "19")
        self.assertEqual(self.read("log"), lines("test,time,result", "1,40,pass", "2,40,fail"))
        self.call(log.main, *files, fails, "--log", self.path("log"), "--time", "40", "--last-cycle", "20", "--first-cycle", "0")
        self.assertEqual(self.read("log"), lines("test,time,result", "1,40,pass", "2,40,fail", "3,40,pass"))

    def test_masked_tests_are_left_out(self) -> None:
        net = lines("INPUT(a)", "OUTPUT(y)", "OUTPUT(z)", "q = DFF(z)", "y = BUFF(a)", "z = BUFF(a)")
        files = self.files(net, "q\n", lines("1 1 rise robust 00 10 11"), lines("1,rise,1,a,y:0,robust,1,-,-", "1,fall,1,a,y:0,untestable,-,-,1"))
        fails = self.write("fails", lines(HEAD))
        cases: List[Tuple[List[str], List[str], str]] = [
            ([], [], "pass 0 fail 0 left out 1 masked"), (["--unmasked"], ["1,5,pass"], "pass 1 fail 0 left out 0 masked"),
            (["--unmasked", "--mask-outputs", "--leave-out"], [], "pass 0 fail 0 left out 0 masked")]
        for words, rows, counts in cases:
            self.call(stil.main, *files, "--mode", "broadside", "--time", "5", *words)
            said = self.call(log.main, files[0], files[2], files[3], files[4], fails, "--log", self.path("log"))
            self.assertEqual(said, f"log: {counts}, 0 behind the last cycle\n")
            self.assertEqual(self.read("log"), lines("test,time,result", *rows))

    def test_fails_that_are_none_are_refused(self) -> None:
        files = self.session()
        for line, row in (("FAILS row 2: nothing is compared at scan_out1 in this cycle (counted from 0 or 1?)", "6,scan_out1,1"),
                          ("FAILS row 2: nothing is compared at d in this cycle (counted from 0 or 1?)", "4,d,1"),
                          ("FAILS row 2: nothing is compared at e in this cycle (counted from 0 or 1?)", "5,e,1"),
                          ("FAILS row 2: nothing is compared at d in this cycle (counted from 0 or 1?)", "999,d,1"),
                          ("FAILS row 2: d is to have 0 in this cycle, so that is no fail", "5,d,L"),
                          ("FAILS row 2: not a cycle from 0 on, a pin, and 0, 1, Z or X", "5,d"),
                          ("FAILS row 2: not a cycle from 0 on, a pin, and 0, 1, Z or X", "-1,d,1"),
                          ("FAILS row 2: not a cycle from 0 on, a pin, and 0, 1, Z or X", "5,d,2")):
            self.refuse(log.main, line, *files, self.write("fails", lines(HEAD, row)))
        self.refuse(log.main, "FAILS row 1: not cycle,pin,value", *files, self.write("fails", "cycle;pin;value\n"))

    def test_stil_of_another_run_is_refused(self) -> None:
        files = [*self.session(), self.write("fails", lines(HEAD))]
        text = self.read("stil")
        for line, old, new in (("STIL: test 1 loads other bits than in TESTS (of another run?)", '"scan_in1"=11;', '"scan_in1"=10;'),
                               ("STIL: TESTS has no test 4", '"test 3"', '"test 4"'), ("STIL: no note of its mode", "Ann {* mode skewed *}", ""),
                               ("STIL: no flip-flop q9 in NET (of another run, or with another MAP?)", '"q1" "q2"', '"q9" "q2"'),
                               ("STIL line 5: no block ann of those that pdfgen-stil writes", "Ann {* compared", "ann {* compared")):
            self.write("stil", text.replace(old, new))
            self.refuse(log.main, line, *files)

    def test_inversions_and_flip_flops_on_no_chain(self) -> None:
        """u is on no chain, and the chain inverts in front of q and behind it; only test 1 is left."""
        net = lines("INPUT(a)", "INPUT(b)", "OUTPUT(y)", "u = DFF(b)", "q = DFF(y)", "y = AND(a, u)")
        report = lines("1,rise,1,a,y:0,robust,1,-,-", "1,fall,1,a,y:0,robust,2,-,-", "2,rise,1,u,y:1,robust,3,-,-", "2,fall,1,u,y:1,untestable,-,-,1")
        files = self.files(net, "q\n", lines("1 1 rise robust 0100 1110 11", "2 1 fall robust 1110 0111 01", "3 2 rise robust 1100 1110 11"), report)
        self.call(stil.main, *files, "--mode", "broadside", "--time", "5", "--unscanned", "u", "--inverted", "q", "--inverted-out", "scan_out1", "--leave-out")
        fails = self.write("fails", lines(HEAD, "6,scan_out1,1", "4,y,0"))
        said = self.call(log.main, files[0], files[2], files[3], files[4], fails, "--log", self.path("log"))
        self.assertEqual(said, lines(
            "test 1, cycle 6, pin scan_out1: 1, not 0; chain1 position 1 of 1, flip-flop q", "  path 1, rise, robust, 1 units from a to y",
            "test 1, cycle 4, pin y: 0, not 1; output y", "  path 1, rise, robust, 1 units from a to y",
            "log: pass 0 fail 1 left out 0 masked, 0 behind the last cycle"))
