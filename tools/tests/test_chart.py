"""pdfgen-chart refuses what isn't to be drawn; tests_with_packages has what it draws."""
from __future__ import annotations

from support import ToolTest, hazard_files
from pdfgen_tools.cli.chart import main


class Chart(ToolTest):
    def test_a_bad_report_is_refused(self) -> None:
        net, _, report = hazard_files(self)
        self.write("report", self.read("report").replace("5,a,y:0", "5,a,y:2"))
        self.refuse(main, "REPORT line 2 malformed", net, report, self.path("chart.png"))
        self.write("report", self.read("report").replace("5,a,y:2", "5,a,y:1"))
        self.refuse(main, "path 1 WrongPath", net, report, self.path("chart.png"))

    def test_another_kind_of_file_is_refused(self) -> None:
        net, _, report = hazard_files(self)
        for name in ("chart.txt", "png"):
            self.refuse(main, "words: PICTURE ends in .png, .svg or .pdf", net, report, name, status=2)
