"""pdfgen-chart draws with matplotlib."""
from __future__ import annotations

from packages import REPORT_HEADER, ToolTest, hazard_files, lines
from pdfgen_tools.cli.chart import main


class Chart(ToolTest):
    def test_pictures_are_written(self) -> None:
        net, _, report = hazard_files(self)
        for name, head in (("chart.png", "\x89PNG"), ("chart.svg", "<?xml"), ("chart.pdf", "%PDF")):
            self.assertEqual(self.call(main, net, report, self.path(name)), "")
            self.assertTrue(self.read(name).startswith(head))

    def test_names_are_drawn_as_they_are(self) -> None:
        net = self.write("net", lines("INPUT(a)", "OUTPUT($x_{$y)", "$x_{$y = BUFF(a)"))
        report = self.write("report", lines(REPORT_HEADER, "1,rise,1,a,$x_{$y:0,robust,1,-,-", "1,fall,1,a,$x_{$y:0,robust,2,-,-"))
        self.call(main, net, report, self.path("chart.svg"))
        self.assertTrue("<!-- $x_{$y -->" in self.read("chart.svg"))
