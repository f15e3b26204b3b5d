"""Says of each test what a replay printed: its path, the path's end, which bits were wrong, and whose they are.

    pdfgen-explain NET TESTS REPORT REPLAY [--delays DELAYS] [--wrong]

REPLAY is what `pdfgen replay` or `pdfgen rfreplay` printed for these TESTS. A wrong bit other than the path's end says nothing of this
path: another one, from the same source or from one that changes with it, was late. With --wrong only tests with a wrong bit are told.

REPORT's lengths are those of the delays of its own run. With --delays, the DELAYS of the replay, the length under these is told beside (where
they are two a pin, for the final values), and a line on err warns where REPORT was made under others: then it may list other paths. A
REPORT of whose paths the tests are no tests is refused."""
from __future__ import annotations

import re
from typing import Dict, Iterator, List, NamedTuple, Optional, Sequence, Tuple

from pdfgen_tools.bench import Circuit, circuit_of
from pdfgen_tools.delays import Delays, delays_of
from pdfgen_tools.errors import Files, Refused, Words, run, warn
from pdfgen_tools.judging import batches, refuse_other_than_paths
from pdfgen_tools.run_files import Fault, Test, end_of, faults_of, tests_of

TOOL = "pdfgen-explain"
SAMPLE = re.compile("([0-9]+) ([01]+) (same|differs)(?: (late|met|none))?")
LATE_WORDS = {"late": "; the path is late by its delays", "met": "; the path isn't late by its delays", "none": "", None: ""}


class Call:
    """The words of a call."""

    def __init__(self, words: Sequence[str]) -> None:
        parser = Words(TOOL, __doc__)
        parser.files("NET", "TESTS", "REPORT", "REPLAY")
        parser.add_argument("--delays", metavar="DELAYS", help="the delays of the replay")
        parser.add_argument("--wrong", action="store_true", help="only tests with a wrong bit")
        found = parser.parse_args(words)
        self.net: str = found.net
        self.tests: str = found.tests
        self.report: str = found.report
        self.replay: str = found.replay
        self.delays: Optional[str] = found.delays
        self.wrong: bool = found.wrong


class Sample(NamedTuple):
    """What the observed lines had, a letter each, and the word of rfreplay."""
    bits: str
    word: Optional[str]


def samples_of(text: str, tests: Sequence[Test]) -> List[Sample]:
    """What was sampled under each test."""
    samples: List[Sample] = []
    for number, line in enumerate(text.splitlines(), 1):
        found = SAMPLE.fullmatch(line)
        if not found or number > len(tests) or found[1] != str(number) or len(found[2]) != len(tests[number - 1].expected):
            raise Refused(f"REPLAY line {number}: not of test {number}")
        if (found[2] == tests[number - 1].expected) != (found[3] == "same"):
            raise Refused(f"REPLAY line {number}: {found[3]} isn't so, by TESTS")
        samples.append(Sample(found[2], found[4]))
    if len(samples) < len(tests):
        raise Refused(f"REPLAY line {len(samples) + 1}: missing")
    return samples


def owners(line: int, circuit: Circuit) -> str:
    """Who observes a line: an output, flip-flops."""
    names = ["output"] if line in circuit.outputs else []
    return ", ".join(names + [f"flip-flop {circuit.names[state]}" for state, data in circuit.flip_flops if data == line])


def explained(test: Test, sample: Sample, fault: Fault, circuit: Circuit, length: Optional[int]) -> Iterator[str]:
    """The lines on one test. length: that of its path under the delays of the replay."""
    end = end_of(fault, circuit)
    told = "" if length is None else f", {length} by DELAYS"
    yield (f"test {test.number}: path {test.path}, {test.direction}, {test.kind}, from {circuit.names[fault.source]} to "
           f"{circuit.names[end]}, {fault.length} units by REPORT{told}{LATE_WORDS[sample.word]}")
    wrong = [at for at, bit in enumerate(sample.bits) if bit != test.expected[at]]
    for at in wrong:
        line = circuit.observed[at]
        whose = "the path's end" if line == end else "not this path's end"
        yield f"  wrong at {circuit.names[line]} ({owners(line, circuit)}): {sample.bits[at]}, not {test.expected[at]}; {whose}"
    if not wrong:
        yield "  all right"


def refuse_unlisted(tests: Sequence[Test], faults: Dict[Tuple[int, str], Fault]) -> None:
    """Refuses a test for a fault that has no such verdict."""
    for test in tests:
        fault = faults.get((test.path, test.direction))
        if fault is None or fault.verdict != test.kind:
            raise Refused(f"test {test.number}: REPORT lists no {test.kind} fault {test.path} {test.direction}")


def told_tests(call: Call, circuit: Circuit, tests: Sequence[Test], samples: Sequence[Sample], faults: Dict[Tuple[int, str], Fault],
               delays: Optional[Delays]) -> Iterator[str]:
    """All lines of a call."""
    for some, pairs in batches(circuit, tests):
        for number, test in enumerate(some):
            fault, sample = faults[test.path, test.direction], samples[test.number - 1]
            if not pairs.meets(fault, test.kind) >> number & 1:
                raise Refused(f"test {test.number}: no test of path {test.path}, {test.direction}, that REPORT lists (of another run?)")
            length = None if delays is None else delays.final_length(fault.steps, circuit, pairs.after, number)
            if not call.wrong or sample.bits != test.expected:
                yield from explained(test, sample, fault, circuit, length)


def warn_of_other_delays(faults: Sequence[Fault], delays: Delays) -> None:
    """Warns where REPORT's lengths aren't those of the delays."""
    others = sum(fault.length != delays.greatest_length(fault.steps) for fault in faults)
    if others:
        warn(TOOL, f"REPORT was made under other delays: {others} of its {len(faults)} faults have another length under DELAYS")


def work(words: Sequence[str], files: Files) -> None:
    call = Call(words)
    circuit = circuit_of(files.read(call.net))
    tests = tests_of(files.read(call.tests), circuit)
    listed = faults_of(files.read(call.report), circuit)
    refuse_other_than_paths(listed, circuit)
    samples = samples_of(files.read(call.replay), tests)
    delays = None if call.delays is None else delays_of(files.read(call.delays), circuit)
    faults = {(fault.path, fault.direction): fault for fault in listed}
    refuse_unlisted(tests, faults)
    lines = list(told_tests(call, circuit, tests, samples, faults, delays))
    if delays is not None:
        warn_of_other_delays(listed, delays)
    print("".join(line + "\n" for line in lines), end="")


def main(words: Optional[Sequence[str]] = None) -> int:
    """Does a call of pdfgen-explain with these words (those of the command line if None), and answers its status."""
    return run(TOOL, work, words)
