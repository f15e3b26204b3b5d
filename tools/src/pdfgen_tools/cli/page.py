"""Writes a run as one HTML page: verdicts by length and by the path's end, all faults to sort and filter, and of each its path with side inputs,
the values under both vectors, and its proof in words.

    pdfgen-page NET TESTS REPORT PROOFS HTML [--title TEXT]

The three files have to be of one run, TESTS all of it, not those that `compact` kept. The page needs no network and no other file. Behind its
name in the browser, #fault=F opens fault F, and #verdict=untestable, #text=count or #sort=-length set what is shown; several are joined by &."""
from __future__ import annotations

import pathlib
from typing import Optional, Sequence

from pdfgen_tools.bench import circuit_of
from pdfgen_tools.errors import Files, Words, run
from pdfgen_tools.judging import refuse_other_than_paths
from pdfgen_tools.page import data
from pdfgen_tools.proofs import proofs_of
from pdfgen_tools.run_files import faults_of, tests_of

TOOL = "pdfgen-page"
PAGE = pathlib.Path(data.__file__).with_name("page.html")
PLACE = "{{data}}"


class Call:
    """The words of a call."""

    def __init__(self, words: Sequence[str]) -> None:
        parser = Words(TOOL, __doc__)
        parser.files("NET", "TESTS", "REPORT", "PROOFS", "HTML")
        parser.add_argument("--title", metavar="TEXT", help="the page's heading, the name of REPORT if not told otherwise")
        found = parser.parse_args(words)
        self.net: str = found.net
        self.tests: str = found.tests
        self.report: str = found.report
        self.proofs: str = found.proofs
        self.html: str = found.html
        self.title: str = found.title if found.title is not None else pathlib.Path(found.report).name


def work(words: Sequence[str], files: Files) -> None:
    call = Call(words)
    circuit = circuit_of(files.read(call.net))
    tests = tests_of(files.read(call.tests), circuit)
    faults = faults_of(files.read(call.report), circuit)
    refuse_other_than_paths(faults, circuit)
    told = data.Run(circuit, tests, faults, proofs_of(files.read(call.proofs), circuit))
    data.refuse_other_runs(told)
    text = data.data_of(told, call.title).replace("<", "\\u003c")  # nothing in it ends the page's script
    page = PAGE.read_text(encoding="ascii")
    files.write((call.html, page.replace(PLACE, text)))
    print(f"paths {len(faults) // 2} tests {len(tests)} proofs {len(told.proofs.proofs)}")


def main(words: Optional[Sequence[str]] = None) -> int:
    """Does a call of pdfgen-page with these words (those of the command line if None), and answers its status."""
    return run(TOOL, work, words)
