"""pdfgen-page in headless Chromium: what is shown, and how long 10,000 paths take."""
from __future__ import annotations

import html
import pathlib
import random
import re
import subprocess
import sys
from typing import List

from packages import ROOT, ToolTest, called, gate_split_files, hazard_files, lines
from pdfgen_tools.bench import circuit_of
from pdfgen_tools.cli import from_yosys
from pdfgen_tools.cli.page import main

sys.path.insert(0, str(ROOT / "bench"))
import tools_cases  # type: ignore[import]
MILLISECONDS_AT_MOST = 3000
PROOFS = lines("pdfgen proofs 1", "1 refutes nonrobust rise 1 1 V0 X H0 X V0 X X", "2 refutes robust fall 1 1 X", "3 spent robust rise 2 2 V0 O X",
               "4 refutes nonrobust fall 2 0 X")


def opened(page: pathlib.Path, words: str = "") -> str:
    """The page's document as Chromium has it once all scripts have run."""
    call = ["chromium", "--headless", "--no-sandbox", "--disable-gpu", "--dump-dom", f"file://{page}{words}"]
    return subprocess.run(call, stdout=subprocess.PIPE, stderr=subprocess.DEVNULL, text=True, timeout=300).stdout


def detail(document: str) -> str:
    """The text of the part on one fault."""
    part = document[document.index('id="detail"'):document.index('<script type="application/json"')]
    return html.unescape(re.sub(r"\s*\n\s*", "\n", re.sub(r"(<[^>]*>)+", "\n", part)))


def large_run(folder: pathlib.Path, gates: int, count: int) -> List[str]:
    """NET, TESTS, REPORT and PROOFS of so many paths, with proofs that speak of them."""
    chance = random.Random(1)
    (folder / "json").write_text(tools_cases.yosys_json(gates, gates // 10))
    assert called(from_yosys.main, [str(folder / name) for name in ("json", "net", "map")])[0] == 0
    net = (folder / "net").read_text()
    tests, report, _ = tools_cases.run_of(circuit_of(net), count)
    rows, proofs = report.splitlines(), ["pdfgen proofs 3"]
    for at, row in enumerate(rows[1:], 1):
        fields = row.split(",")
        place, kind = (8, "nonrobust") if fields[5] == "untestable" else (7, "robust")
        if fields[5] != "robust":
            steps = len(fields[4].split(" "))
            fields[place] = str(len(proofs))
            tree = chance.choice(("X", "X", "V3 X V7 X X", "H2 V5 X X V6 V9 X X X"))
            proofs.append(f"{len(proofs)} refutes {kind} {fields[1]} {fields[0]} {chance.randint(1, steps)} {tree}")
        rows[at] = ",".join(fields)
    return [net, tests, lines(*rows), lines(*proofs)]


class Page(ToolTest):
    def page(self, words: str = "") -> str:
        """The page of a small run, opened."""
        net, tests, report = hazard_files(self)
        self.call(main, net, tests, report, self.write("proofs", PROOFS), self.path("page.html"), "--title", "</script><b>run \u20ac")
        return opened(self.folder / "page.html", words)

    def test_all_faults_are_listed(self) -> None:
        document = self.page("#sort=-length")
        rows = re.findall(r'data-fault="([0-9]+)"', document)
        self.assertEqual(rows, ["1", "2", "3", "4"])
        self.assertIn("<title>pdfgen: &lt;/script&gt;&lt;b&gt;run \u20ac</title>", document)
        self.assertIn("4 of 4 faults", document)
        self.assertRegex(document, r'data-ready="[0-9]+"')
        self.assertNotIn("http:", document.replace("http://www.w3.org/2000/svg", ""))

    def test_words_filter_and_sort(self) -> None:
        self.assertEqual(re.findall(r'data-fault="([0-9]+)"', self.page("#verdict=untestable&sort=-fault")), ["1", "4"])
        self.assertEqual(re.findall(r'data-fault="([0-9]+)"', self.page("#text=M&sort=length")), ["3", "4"])

    def test_a_fault_its_values_and_its_proof(self) -> None:
        told = detail(self.page("#fault=2"))
        self.assertIn("Fault 2: path 1, fall", told)
        self.assertIn("\na\nsource\n1 \u2192 0\ny\nAND, pin 0\n0 \u2192 0, may pulse\nm at pin 1\n: 0 \u2192 1\n", told)
        self.assertIn("\nTest 1\nchange\na 1 \u2192 0\n", told)
        self.assertIn("\nProof 2\nIt excludes every robust test, of this path and of each that begins with the first 1 steps of path 1", told)
        told = detail(self.page("#fault=1"))
        self.assertIn("where a ends at 0: no pair is left\nwhere a ends at 1:\nwhere a is steady: no pair is left\nwhere a is not steady:\n"
                      "where a ends at 0: no pair is left\nwhere a ends at 1: no pair is left\n", told)
        self.assertIn("5 units, 1 steps", told)
        self.assertIn("The search for a robust test spent its budget of 1 splits", detail(self.page("#fault=3")))
        self.assertIn("each that begins with the source of path 2", detail(self.page("#fault=4")))

    def test_splits_at_lines_of_gates(self) -> None:
        self.call(main, *gate_split_files(self), self.path("page.html"))
        told = detail(opened(self.folder / "page.html", "#fault=1"))
        self.assertIn("the links of the mode being kept: 3 cases are split:", told)
        self.assertIn("where u begins at 0: no pair is left\nwhere u begins at 1:\nwhere v ends at 0: no pair is left\nwhere v ends at 1:\n"
                      "where a is steady: no pair is left\nwhere a is not steady: no pair is left\n", told)
        self.assertIn("where g ends at 0: no pair is left\nwhere g ends at 1: no pair is left\n", detail(opened(self.folder / "page.html", "#fault=2")))

    def test_10000_paths(self) -> None:
        names = [self.write(name, text) for name, text in zip(("n", "t", "r", "p"), large_run(self.folder, 15000, 10000))]
        self.assertIn("paths 10000", self.call(main, *names, self.path("page.html")))
        found = re.search(r'data-ready="([0-9]+)"', opened(self.folder / "page.html", "#fault=17"))
        self.assertIsNotNone(found)
        self.assertLess(int(found[1]) if found else 0, MILLISECONDS_AT_MOST)
