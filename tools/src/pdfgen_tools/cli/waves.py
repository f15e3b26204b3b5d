"""Writes the waves of a test as VCD: of the path's lines and of its side inputs, with the launch and the sample marked.

    pdfgen-waves NET DELAYS TESTS REPORT VCD --test N --time T [--unit PS] [--all]

DELAYS has one delay for each pin, as of `pdfgen replay`, or a rise and a fall delay, as of `pdfgen rfreplay`. N is the number of the test in
TESTS, T the time from launch to sample, in delay units of PS picoseconds (1 if not told otherwise). With --all the other lines are told, too.

VCD has the scopes marks (launch, sample), path (its lines, from the source), side_inputs and, with --all, others. Before the launch
stands a tenth of the time. Prints what the replay prints of this test at this time."""
from __future__ import annotations

from typing import Dict, List, Optional, Sequence

from pdfgen_tools.bench import Circuit, circuit_of
from pdfgen_tools.delays import Delays, delays_of
from pdfgen_tools.errors import Files, Refused, Words, run
from pdfgen_tools.judging import JudgedPairs, refuse_other_than_paths
from pdfgen_tools.run_files import Fault, Test, faults_of, tests_of
from pdfgen_tools.vcd import Scope, Signal, vcd_text
from pdfgen_tools.waves import Wave, waves_of

TOOL = "pdfgen-waves"
TIME_AT_MOST = 9999999999  # as of replay
UNIT_AT_MOST = 1000000


class Call:
    """The words of a call."""

    def __init__(self, words: Sequence[str]) -> None:
        parser = Words(TOOL, __doc__)
        parser.files("NET", "DELAYS", "TESTS", "REPORT", "VCD")
        parser.add_argument("--test", type=int, required=True, metavar="N", help="which test of TESTS")
        parser.add_argument("--time", type=int, required=True, metavar="T", help="delay units from launch to sample")
        parser.add_argument("--unit", type=int, default=1, metavar="PS", help="picoseconds of a delay unit")
        parser.add_argument("--all", action="store_true", help="the other lines, too")
        found = parser.parse_args(words)
        self.net: str = found.net
        self.delays: str = found.delays
        self.tests: str = found.tests
        self.report: str = found.report
        self.vcd: str = found.vcd
        self.test: int = found.test
        self.time: int = found.time
        self.unit: int = found.unit
        self.all: bool = found.all
        if not 0 <= self.time <= TIME_AT_MOST:
            parser.error(f"--time is 0 to {TIME_AT_MOST}")
        if not 1 <= self.unit <= UNIT_AT_MOST:
            parser.error(f"--unit is 1 to {UNIT_AT_MOST}")


def path_lines(fault: Fault, circuit: Circuit) -> List[int]:
    """The lines of a path, from its source."""
    return [fault.source, *(circuit.source_count + step.gate for step in fault.steps)]


def side_lines(fault: Fault, circuit: Circuit) -> List[int]:
    """The lines of a path's side inputs, in its order, each once."""
    sides = (line for step in fault.steps for pin, line in enumerate(circuit.gates[step.gate].pins) if pin != step.pin)
    return list(dict.fromkeys(sides))


def scopes_of(fault: Fault, circuit: Circuit, with_others: bool) -> List[Scope]:
    """What is told, and under which names. Waves have the numbers of lines; behind these stand the marks."""
    path, sides = path_lines(fault, circuit), side_lines(fault, circuit)
    count = len(circuit.names)
    scopes = [Scope("marks", [Signal("launch", count), Signal("sample", count + 1)])]
    told = [("path", path), ("side_inputs", sides)]
    if with_others:
        told.append(("others", [line for line in range(count) if line not in {*path, *sides}]))
    return scopes + [Scope(name, [Signal(circuit.names[line], line) for line in lines]) for name, lines in told]


def replayed(test: Test, fault: Fault, circuit: Circuit, delays: Delays, waves: Sequence[Wave], time: int) -> str:
    """What replay prints of a test, or rfreplay where there are two delays."""
    bits = "".join(str(waves[line].at(time)) for line in circuit.observed)
    told = f"{test.number} {bits} {'same' if bits == test.expected else 'differs'}"
    if not delays.are_two:
        return told
    pair = JudgedPairs(circuit, [(test.first, test.second)])
    if not pair.meets(fault, "robust"):
        return told + " none"
    return told + (" late" if delays.final_length(fault.steps, circuit, pair.after, 0) > time else " met")


def work(words: Sequence[str], files: Files) -> None:
    call = Call(words)
    circuit = circuit_of(files.read(call.net))
    delays = delays_of(files.read(call.delays), circuit)
    tests = tests_of(files.read(call.tests), circuit)
    faults = faults_of(files.read(call.report), circuit)
    refuse_other_than_paths(faults, circuit)
    if not 1 <= call.test <= len(tests):
        raise Refused(f"TESTS has no test {call.test}")
    test = tests[call.test - 1]
    fault = next((fault for fault in faults if (fault.path, fault.direction) == (test.path, test.direction)), None)
    if fault is None:
        raise Refused(f"test {test.number}: REPORT lists no path {test.path}")
    waves = waves_of(circuit, delays, test.first, test.second)
    end = max([call.time, *(wave.changes[-1] for wave in waves if wave.changes)])
    told: Dict[int, Wave] = dict(enumerate([*waves, Wave(0, [0]), Wave(0, [call.time])]))
    title = (f"test {test.number}: path {test.path}, {test.direction}, {test.kind}, from {circuit.names[fault.source]} to "
             f"{circuit.names[path_lines(fault, circuit)[-1]]}")
    before = max(1, call.time // 10)
    files.write((call.vcd, vcd_text(title, scopes_of(fault, circuit, call.all), told, before, end + before, call.unit)))
    print(replayed(test, fault, circuit, delays, waves, call.time))


def main(words: Optional[Sequence[str]] = None) -> int:
    """Does a call of pdfgen-waves with these words (those of the command line if None), and answers its status."""
    return run(TOOL, work, words)
