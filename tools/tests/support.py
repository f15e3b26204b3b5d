"""How the tests call the tools: in this process, in a folder of their own; every refusal has to be one line on err and a status."""
from __future__ import annotations

import contextlib
import io
import pathlib
import sys
import tempfile
import unittest
from typing import Callable, Sequence, Tuple

TOOLS = pathlib.Path(__file__).resolve().parent.parent
ROOT = TOOLS.parent
EXAMPLES = ROOT / "examples"
sys.path.insert(0, str(TOOLS / "src"))

REPORT_HEADER = "path,direction,length,source,steps,verdict,test,robust_proof,nonrobust_proof"
Main = Callable[[Sequence[str]], int]


def lines(*texts: str) -> str:
    return "".join(text + "\n" for text in texts)


def called(main: Main, words: Sequence[str]) -> Tuple[int, str, str]:
    """A call's status, and what it printed on out and err."""
    out, err = io.StringIO(), io.StringIO()
    with contextlib.redirect_stdout(out), contextlib.redirect_stderr(err):
        status = main(words)
    return status, out.getvalue(), err.getvalue()


class ToolTest(unittest.TestCase):
    def setUp(self) -> None:
        folder = tempfile.TemporaryDirectory(prefix="pdfgen-tools-")
        self.addCleanup(folder.cleanup)
        self.folder = pathlib.Path(folder.name)

    def write(self, name: str, text: str) -> str:
        (self.folder / name).write_bytes(text.encode("latin-1"))
        return str(self.folder / name)

    def read(self, name: str) -> str:
        return (self.folder / name).read_bytes().decode("latin-1")

    def path(self, name: str) -> str:
        return str(self.folder / name)

    def call(self, main: Main, *words: str) -> str:
        """What a tool prints. It has to end with 0 and say nothing on err."""
        status, out, err = called(main, words)
        self.assertEqual((status, err), (0, ""))
        return out

    def refuse(self, main: Main, line: str, *words: str, status: int = 1) -> None:
        """The tool has to refuse these words with this line on err (its name left out), this status, and nothing on out or in the folder."""
        before = sorted(self.folder.iterdir())
        ended, out, err = called(main, words)
        self.assertRegex(err, r"\Apdfgen-[a-z-]+: [^\n]+\n\Z")
        self.assertEqual((ended, out, err.split(": ", 1)[1]), (status, "", line + "\n"))
        self.assertEqual(sorted(self.folder.iterdir()), before)


def gate_split_files(test: ToolTest) -> Tuple[str, str, str, str]:
    """A run of one path, through y, with proofs of version 5 that split at lines of gates: g, a side pin of y, and u and v, which are none. They
    needn't refute, since a page doesn't judge them."""
    net = test.write("net", lines("INPUT(a)", "INPUT(b)", "INPUT(c)", "OUTPUT(y)", "u = XOR(b, c)", "v = XNOR(b, c)", "g = NOR(u, v)", "y = AND(a, g)"))
    report = test.write("report", lines(REPORT_HEADER, "1,rise,9,a,y:0,untestable,-,-,1", "1,fall,9,a,y:0,untestable,-,-,2"))
    tests = test.write("tests", lines("pdfgen tests 1", "sources a b c", "observed y"))
    proofs = test.write("proofs", lines("pdfgen proofs 5", "1 refutes nonrobust rise 1 1 F3 X V4 X H0 X X", "2 refutes nonrobust fall 1 1 V5 X X"))
    return net, tests, report, proofs


def hazard_files(test: ToolTest) -> Tuple[str, str, str]:
    """The netlist y = AND(a, m) with m = NOT(a), and a run of it with a delay of 5 units at pin 0 of y."""
    report = test.write("report", lines(
        REPORT_HEADER, "1,rise,5,a,y:0,untestable,-,-,1", "1,fall,5,a,y:0,nonrobust,1,2,-", "2,rise,2,a,m:0 y:1,nonrobust,2,3,-",
        "2,fall,2,a,m:0 y:1,untestable,-,-,4"))
    tests = test.write("tests", lines("pdfgen tests 1", "sources a", "observed y", "1 1 fall nonrobust 1 0 0", "2 2 rise nonrobust 0 1 0"))
    return str(EXAMPLES / "hazard.bench"), tests, report
