"""pdfgen-check-tests, on runs worked out by hand."""
from __future__ import annotations

from support import EXAMPLES, REPORT_HEADER, ToolTest, hazard_files, lines
from pdfgen_tools.cli.check_tests import main


class CheckTests(ToolTest):
    def test_a_good_run_is_good(self) -> None:
        self.assertEqual(self.call(main, *hazard_files(self)), "good\n")

    def test_each_flaw_has_its_line(self) -> None:
        net, tests, report = hazard_files(self)
        good = self.read("tests")
        for reason, old, new in (
                ("TESTS line 4 malformed", "1 1 fall", "1 01 fall"), ("TESTS line 1 malformed", "tests 1", "tests 2"),
                ("TESTS line 3 malformed", "observed y", "observed m"), ("TESTS line 6 malformed", "0 1 0\n", "0 1 0\n\n"),
                ("TESTS line 5 malformed", "0 1 0\n", "0 1 0"), ("TESTS line 4 malformed", "1 0 0", "1 00 0"),
                ("count 2 WrongCount", "2 2 rise nonrobust 0 1 0\n", ""), ("fault 2 BadTest", "1 1 fall", "1 2 fall"),
                ("fault 2 BadTest", "1 0 0", "0 0 0"), ("fault 2 BadTest", "fall nonrobust", "fall robust"),
                ("fault 3 WrongExpected", "0 1 0", "0 1 1")):
            self.write("tests", good.replace(old, new))
            self.refuse(main, reason, net, tests, report)

    def test_a_robust_pair_is_no_nonrobust_test(self) -> None:
        report = self.write("report", lines(REPORT_HEADER, "1,rise,1,a,y:0,nonrobust,1,1,-", "1,fall,1,a,y:0,robust,2,-,-"))
        tests = self.write("tests", lines("pdfgen tests 1", "sources a", "observed y", "1 1 rise nonrobust 0 1 1", "2 1 fall robust 1 0 0"))
        net = self.write("net", lines("INPUT(a)", "OUTPUT(y)", "y = BUFF(a)"))
        self.refuse(main, "fault 1 BadTest", net, tests, report)

    def test_the_mode_counts(self) -> None:
        report = self.write("report", lines(
            REPORT_HEADER, "1,rise,1,a,d:0,untestable,-,-,1", "1,fall,1,a,d:0,robust,1,-,-", "2,rise,1,q,d:1,untestable,-,-,2",
            "2,fall,1,q,d:1,nonrobust,2,3,-"))
        text = lines("pdfgen tests 1", "sources a q", "observed d", "1 1 fall robust 11 01 0", "2 2 fall nonrobust 01 10 0")
        tests, net = self.write("tests", text), str(EXAMPLES / "feedback.bench")
        self.assertEqual(self.call(main, net, tests, report, "--mode", "broadside"), "good\n")
        self.write("tests", text.replace("11 01 0", "10 01 0"))
        self.refuse(main, "fault 2 BadTest", net, tests, report, "--mode", "broadside")

    def test_chains_link_flip_flops_in_mode_skewed(self) -> None:
        net = self.write("net", lines("OUTPUT(d)", "q1 = DFF(d)", "q2 = DFF(d)", "d = AND(q1, q2)"))
        report = self.write("report", lines(
            REPORT_HEADER, "1,rise,1,q1,d:0,untestable,-,-,1", "1,fall,1,q1,d:0,robust,1,-,-", "2,rise,1,q2,d:1,robust,2,-,-",
            "2,fall,1,q2,d:1,nonrobust,3,2,-"))
        tests = self.write("tests", lines("pdfgen tests 1", "sources q1 q2", "observed d", "1 1 fall robust 11 01 0", "2 2 rise robust 10 11 1",
                                          "3 2 fall nonrobust 01 10 0"))
        scan = self.write("scan", "q1\nq2\n")
        self.assertEqual(self.call(main, net, tests, report, "--mode", "skewed", "--scan", scan), "good\n")
        self.write("scan", "q2\nq1\n")
        self.refuse(main, "fault 2 BadTest", net, tests, report, "--mode", "skewed", "--scan", scan)
