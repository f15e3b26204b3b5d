"""Judges TESTS against NET and REPORT by the definitions of docs/model.md, sharing no code with pdfgen.

    pdfgen-check-tests NET TESTS REPORT [--mode enhanced|broadside|skewed] [--scan SCAN]

Prints `good`, or on err what is wrong first, in the words of `pdfgen check`: TESTS line N malformed; count 2 WrongCount; fault F BadTest;
fault F WrongExpected. Of REPORT it takes the verdicts and the paths as they stand, and asks only that these are paths; it doesn't look at
PROOFS and DELAYS. Where a run is good but for its tests, it answers as `pdfgen check` does."""
from __future__ import annotations

from typing import Dict, Iterator, List, Optional, Sequence, Tuple

from pdfgen_tools.bench import Circuit, circuit_of
from pdfgen_tools.errors import Files, Refused, Words, run
from pdfgen_tools.judging import MODES, JudgedPairs, batches, links_of, refuse_other_than_paths
from pdfgen_tools.run_files import Fault, Test, chains_of, faults_of, tests_of

TOOL = "pdfgen-check-tests"


class Call:
    """The words of a call."""

    def __init__(self, words: Sequence[str]) -> None:
        parser = Words(TOOL, __doc__)
        parser.files("NET", "TESTS", "REPORT")
        parser.add_argument("--mode", choices=MODES, default="enhanced")
        parser.add_argument("--scan", metavar="SCAN", help="the scan chains, in mode skewed")
        found = parser.parse_args(words)
        self.net: str = found.net
        self.tests: str = found.tests
        self.report: str = found.report
        self.mode: str = found.mode
        self.scan: Optional[str] = found.scan
        if (self.mode == "skewed") != (self.scan is not None):
            parser.error("--mode skewed needs --scan, and no other mode takes it")


def flaws(faults: Sequence[Tuple[int, Fault]], pairs: JudgedPairs, tests: Sequence[Test], call: Call, chains: List[List[int]]) -> Iterator[str]:
    """What is wrong with the tests that these verdicts name, in their order: one test each, numbered as the pairs are."""
    broken = pairs.broken_links(links_of(call.mode, pairs.circuit, chains))
    expected = pairs.values_after(pairs.circuit.observed)
    for number, ((at, fault), test) in enumerate(zip(faults, tests)):
        named = (test.path, test.direction, test.kind) == (fault.path, fault.direction, fault.verdict)
        robust, meets = (pairs.meets(fault, kind) >> number & 1 for kind in ("robust", fault.verdict))
        if not named or broken[number] is not None or not meets or (fault.verdict == "nonrobust" and robust):
            yield f"fault {at} BadTest"
        elif test.expected != expected[number]:
            yield f"fault {at} WrongExpected"


def work(words: Sequence[str], files: Files) -> None:
    call = Call(words)
    circuit = circuit_of(files.read(call.net))
    chains = chains_of(files.read(call.scan), circuit) if call.scan is not None else []
    tests = tests_of(files.read(call.tests), circuit)
    faults = faults_of(files.read(call.report), circuit)
    refuse_other_than_paths(faults, circuit)
    tested = [(at, fault) for at, fault in enumerate(faults, 1) if fault.test is not None]
    if len(tested) != len(tests):
        raise Refused("count 2 WrongCount")
    for some, pairs in batches(circuit, tests):
        begin = some[0].number - 1
        for flaw in flaws(tested[begin:begin + len(some)], pairs, some, call, chains):
            raise Refused(flaw)
    print("good")


def main(words: Optional[Sequence[str]] = None) -> int:
    """Does a call of pdfgen-check-tests with these words (those of the command line if None), and answers its status."""
    return run(TOOL, work, words)
