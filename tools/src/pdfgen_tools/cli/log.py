"""Reads a tester's fail list: which test each failing bit is of, which flip-flop or output, and the faults that it speaks of.

    pdfgen-log NET TESTS REPORT STIL FAILS [--map MAP] [--first-cycle 0|1] [--log LOG [--time T] [--last-cycle N]]

STIL is what pdfgen-stil wrote of TESTS, with the same MAP. FAILS is csv with the heading cycle,pin,value and a row for each failing bit: the
cycle, counted from 0 (or from 1), the pin, and what the chip had there: 0 or 1, Z or X. For each row, in their order, is printed what it is
of, and the listed paths that the test serves and that end there: one of them, or another that ends there, was late.

LOG is for `pdfgen bounds`: a row with `pass` for each test of which all bits were right, at the period of STIL in delay units, or at T where
the tester took another one; with `fail` for each other. `pass` says there that all observed lines were right: so tests that compare fewer of
them are left out, and those that compare some behind cycle N, where the tester's list ends. How many are left out is printed."""
from __future__ import annotations

from typing import Dict, List, Optional, Sequence, Set, Tuple

from pdfgen_tools.bench import Circuit, circuit_of
from pdfgen_tools.errors import Files, Refused, Words, run
from pdfgen_tools.judging import refuse_other_than_paths
from pdfgen_tools.names import map_of
from pdfgen_tools.run_files import Fault, Test, end_of, faults_of, tests_of
from pdfgen_tools.stil.applied import AppliedPairs, Given
from pdfgen_tools.stil.fails import Played, Reading, Session, fails_of, note
from pdfgen_tools.stil.reading import program_of

TOOL = "pdfgen-log"
TIME_AT_MOST = 9999999999  # as of bounds


class Call:
    """The words of a call."""

    def __init__(self, words: Sequence[str]) -> None:
        parser = Words(TOOL, __doc__)
        parser.files("NET", "TESTS", "REPORT", "STIL", "FAILS")
        parser.add_argument("--map", metavar="MAP")
        parser.add_argument("--first-cycle", type=int, choices=(0, 1), default=0, help="how the tester counts, 0 if not told otherwise")
        parser.add_argument("--log", metavar="LOG", help="writes a log for pdfgen bounds")
        parser.add_argument("--time", type=int, metavar="T", help="delay units from launch to sample, where the tester took others than STIL")
        parser.add_argument("--last-cycle", type=int, metavar="N", help="the last cycle of which FAILS has all fails")
        found = parser.parse_args(words)
        self.net: str = found.net
        self.tests: str = found.tests
        self.report: str = found.report
        self.stil: str = found.stil
        self.fails: str = found.fails
        self.map: Optional[str] = found.map
        self.first_cycle: int = found.first_cycle
        self.log: Optional[str] = found.log
        self.time: Optional[int] = found.time
        self.last_cycle: Optional[int] = found.last_cycle
        if self.log is None and (self.time is not None or self.last_cycle is not None):
            parser.error("--time and --last-cycle are of --log")
        if self.time is not None and not 1 <= self.time <= TIME_AT_MOST:
            parser.error(f"--time is from 1 to {TIME_AT_MOST}")


class Diagnosis:
    """The faults that failing bits speak of."""

    def __init__(self, circuit: Circuit, session: Session, mode: str, tests: Sequence[Test], faults: Sequence[Fault]) -> None:
        self.circuit, self.session, self.mode, self.faults = circuit, session, mode, faults
        self.listed = {test.number: test for test in tests}
        self.faults_at: Dict[int, List[Fault]] = {}
        for fault in faults:
            self.faults_at.setdefault(end_of(fault, circuit), []).append(fault)
        chains = session.chains()
        scanned = {cell.line for chain in chains for cell in chain.cells}
        self.given = Given({}, frozenset(flip_flop.line for flip_flop in circuit.flip_flops if flip_flop.line not in scanned), chains)
        self.pairs_of: Dict[int, AppliedPairs] = {}

    def pairs(self, test: Played) -> AppliedPairs:
        """The values under a test as the tester gives it."""
        if test.number not in self.pairs_of:
            self.pairs_of[test.number] = AppliedPairs(self.circuit, self.given, self.mode, [self.session.applied(test, self.listed[test.number])])
        return self.pairs_of[test.number]

    def lines(self, reading: Reading) -> List[str]:
        """What is printed of a fail."""
        name = self.circuit.names[reading.line]
        where = f"output {reading.fail.pin}"
        if reading.chain is not None:
            cell = reading.chain.cells[reading.position - 1].name
            where = f"{reading.chain.name} position {reading.position} of {len(reading.chain.cells)}, flip-flop {cell}"
        told = [f"test {reading.test.number}, cycle {reading.fail.cycle}, pin {reading.fail.pin}: {reading.fail.value}, not {reading.expected}; {where}"]
        pairs = self.pairs(reading.test)
        for fault in self.faults_at.get(reading.line, []):
            if pairs.serves(fault):
                told.append(f"  path {fault.path}, {fault.direction}, {fault.verdict}, {fault.length} units from {self.circuit.names[fault.source]} to {name}")
        return told if len(told) > 1 else [*told, f"  no listed path that the test serves ends at {name}"]


def period_in_units(session: Session, time: Optional[int]) -> int:
    """The time from launch to sample in delay units, rounded up."""
    if time is not None:
        return time
    unit = note(session.program, "unit ([1-9][0-9]{0,12}) ps")
    periods = [table.period for table in session.program.tables if table.name == "at_speed"]
    if unit is None or len(periods) != 1:
        raise Refused("STIL: no note of its delay unit, or no table at_speed (--time T)")
    units = -(-periods[0] // int(unit))
    if units > TIME_AT_MOST:
        raise Refused(f"STIL: its period is over {TIME_AT_MOST} units")
    return units


def log_of(session: Session, failing: Set[int], time: int, last_cycle: Optional[int]) -> Tuple[str, str]:
    """The text of a log, and how many tests it has."""
    rows, counts = ["test,time,result"], {"pass": 0, "fail": 0, "masked": 0, "behind": 0}
    for test in session.tests:
        last = max(test.capture, test.unload + max(map(len, test.unloaded.values()), default=0) - 1)
        if test.number in failing:
            result = "fail"
        elif last_cycle is not None and last > last_cycle:
            result = "behind"
        else:
            result = "pass" if session.compares_all(test) else "masked"
        counts[result] += 1
        if result in ("pass", "fail"):
            rows.append(f"{test.number},{time},{result}")
    told = f"log: pass {counts['pass']} fail {counts['fail']} left out {counts['masked']} masked, {counts['behind']} behind the last cycle"
    return "".join(row + "\n" for row in rows), told


def refuse_other_tests(session: Session, tests: Sequence[Test]) -> None:
    """Refuses a file that plays other tests than these."""
    listed = {test.number: test for test in tests}
    scanned = [cell.line for chain in session.chains() for cell in chain.cells]
    for test in session.tests:
        if test.number not in listed:
            raise Refused(f"STIL: TESTS has no test {test.number}")
        first = session.applied(test, listed[test.number]).first
        if any(first[line] != listed[test.number].first[line] for line in scanned):
            raise Refused(f"STIL: test {test.number} loads other bits than in TESTS (of another run?)")


def work(words: Sequence[str], files: Files) -> None:
    call = Call(words)
    circuit = circuit_of(files.read(call.net))
    tests = tests_of(files.read(call.tests), circuit)
    faults = faults_of(files.read(call.report), circuit)
    refuse_other_than_paths(faults, circuit)
    session = Session(program_of(files.read(call.stil)), circuit, map_of(files.read(call.map)) if call.map is not None else None)
    mode = note(session.program, "mode (broadside|skewed)")
    if mode is None:
        raise Refused("STIL: no note of its mode")
    refuse_other_tests(session, tests)
    readings = [session.read_fail(fail) for fail in fails_of(files.read(call.fails), call.first_cycle)]
    diagnosis = Diagnosis(circuit, session, mode, tests, faults)
    told = [line for reading in readings for line in diagnosis.lines(reading)]
    if call.log is not None:
        last_cycle = None if call.last_cycle is None else call.last_cycle - call.first_cycle
        failing = {reading.test.number for reading in readings}
        text, summary = log_of(session, failing, period_in_units(session, call.time), last_cycle)
        files.write((call.log, text))
        told.append(summary)
    for line in told:
        print(line)


def main(words: Optional[Sequence[str]] = None) -> int:
    """Does a call of pdfgen-log with these words (those of the command line if None), and answers its status."""
    return run(TOOL, work, words)
