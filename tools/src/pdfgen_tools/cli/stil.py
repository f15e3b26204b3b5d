"""Writes a STIL file that applies tests by scan: each chain is loaded, the pair is launched and captured at speed, each chain is unloaded.

    pdfgen-stil NET SCAN TESTS REPORT STIL --mode broadside|skewed --time T [--map MAP] [..]

SCAN has the flip-flops in the order of their chains: a name a line, the scan-in side first, an empty line between two chains. From launch to
sample take T delay units of PS picoseconds each (--unit, 1 if not told otherwise). MAP, of pdfgen-from-yosys, tells the ports' names, the
clock, and inputs to be held; without it ports are named as in NET. A word @FILE stands for the words in FILE, one a line.

Compared are the end of a test's path and those of the other paths that it serves, by REPORT and docs/model.md: other bits may be late
though these paths are not. --unmasked compares all. Refused is a pair that the mode can't launch, as most of enhanced scan, and an input
that nothing in NET reads and no word holds. So is a test whose path needs another value of a held pin, or one of a flip-flop on no chain,
or ends where nothing is compared; with --leave-out such tests are left out, and their numbers are printed.

A file of --setup has a line for each cycle before the first load: how many times (1 if not told), values of pins as PIN=0, which stay until
told otherwise, and CLOCK=P where the clock pulses: `10 rst_n=0 clk=P`. Names there are spelled as in MAP."""
from __future__ import annotations

import os
import re
from typing import Dict, Iterable, List, Optional, Sequence

from pdfgen_tools.bench import circuit_of
from pdfgen_tools.errors import Files, Refused, Words, run
from pdfgen_tools.judging import refuse_other_than_paths
from pdfgen_tools.names import map_of, unescaped
from pdfgen_tools.run_files import chains_of, faults_of, tests_of
from pdfgen_tools.stil.applied import Judge
from pdfgen_tools.stil.building import Builder, SetUp, Timing
from pdfgen_tools.stil.chip import Chip, ChipWords, chip_of, pin_and_value, refuse_read_enables, word_as_bytes
from pdfgen_tools.stil.testbench import Bench
from pdfgen_tools.stil.text import stil_lines

TOOL = "pdfgen-stil"
EDGE_AT_LEAST = 4
TIME_AT_MOST = 9999999999  # as of replay
PERIOD_AT_MOST = 10**13
CYCLES_AT_MOST = 1000000
NUMBERS_TOLD = 20


class Call:
    """The words of a call."""

    def __init__(self, words: Sequence[str], files: Files) -> None:
        parser = Words(TOOL, __doc__)
        parser.files("NET", "SCAN", "TESTS", "REPORT", "STIL")
        parser.add_argument("--mode", choices=("broadside", "skewed"), required=True)
        parser.add_argument("--time", type=int, required=True, metavar="T", help="delay units from launch to sample")
        parser.add_argument("--unit", type=int, default=1, metavar="PS", help="picoseconds of a delay unit")
        parser.add_argument("--slow", type=int, default=100000, metavar="PS", help="period of a slow cycle, 100000 if not told otherwise")
        parser.add_argument("--strobe", type=int, default=0, metavar="PS", help="outputs are compared so long before the sampling edge")
        parser.add_argument("--map", metavar="MAP")
        parser.add_argument("--clock", type=word_as_bytes, metavar="PIN", help="the clock where there is no MAP, `clock` if not told otherwise")
        parser.add_argument("--hold", type=pin_and_value, action="append", default=[], metavar="PIN=VALUE",
                            help="an input pin that keeps 0 or 1, of NET or not")
        parser.add_argument("--scan-enable", type=pin_and_value, action="append", default=[], metavar="PIN=VALUE",
                            help="a scan enable and its value while chains shift, scan_enable=1 if none is told")
        parser.add_argument("--scan-in", type=word_as_bytes, action="append", default=[], metavar="PIN",
                            help="the scan input of each chain in turn, scan_in1 and so on if none is told; an input of NET may be one")
        parser.add_argument("--scan-out", type=word_as_bytes, action="append", default=[], metavar="PIN", help="the same of scan outputs")
        parser.add_argument("--inverted", action="append", default=[], metavar="FLIP_FLOP", help="its chain inverts in front of this flip-flop")
        parser.add_argument("--inverted-out", type=word_as_bytes, action="append", default=[], metavar="PIN",
                            help="its chain inverts in front of this scan output")
        parser.add_argument("--unscanned", action="append", default=[], metavar="FLIP_FLOP",
                            help="a flip-flop on no chain: SCAN has it alone between empty lines, or not at all")
        parser.add_argument("--setup", metavar="FILE", help="cycles before the first load")
        parser.add_argument("--unmasked", action="store_true", help="compare all observed lines")
        parser.add_argument("--mask-outputs", action="store_true", help="compare flip-flops alone")
        parser.add_argument("--leave-out", action="store_true", help="leave out tests that this chip can't be given, or that show nothing there")
        parser.add_argument("--testbench", metavar="VERILOG", help="a testbench that plays the same on the chip's module")
        parser.add_argument("--module", metavar="NAME", help="the chip's module")
        found = parser.parse_args(words_of_files(words, files))
        self.net: str = found.net
        self.scan: str = found.scan
        self.tests: str = found.tests
        self.report: str = found.report
        self.stil: str = found.stil
        self.mode: str = found.mode
        self.unit: int = found.unit
        self.timing = Timing(found.slow, found.time * found.unit, found.strobe)
        self.map: Optional[str] = found.map
        self.setup: Optional[str] = found.setup
        self.unmasked: bool = found.unmasked
        self.mask_outputs: bool = found.mask_outputs
        self.leave_out: bool = found.leave_out
        self.testbench: Optional[str] = found.testbench
        self.module: str = word_as_bytes(found.module or "")
        self.chip = ChipWords(found.clock, found.hold, found.scan_enable, found.scan_in, found.scan_out, found.inverted, found.inverted_out,
                              found.unscanned)
        if found.unit < 1 or min(self.timing.at_speed, found.slow) < EDGE_AT_LEAST:
            parser.error(f"a period is at least {EDGE_AT_LEAST} ps")
        if found.time > TIME_AT_MOST:
            parser.error(f"--time is at most {TIME_AT_MOST}")
        if max(self.timing.at_speed, found.slow) > PERIOD_AT_MOST:
            parser.error(f"a period is at most {PERIOD_AT_MOST} ps")
        if (found.testbench is None) != (found.module is None) or (found.module is not None and not re.fullmatch("[!-~]+", found.module)):
            parser.error("--testbench and --module go together, and a module's name has no blanks")
        if not 0 <= found.strobe < self.timing.at_speed // 2:
            parser.error("--strobe is at least 0, and less than half of the period at speed")


def words_of_files(words: Sequence[str], files: Files) -> List[str]:
    """The words of a call, those that stand in files among them."""
    found: List[str] = []
    for word in words:
        if word.startswith("@"):
            found += [os.fsdecode(line.encode("latin-1")) for line in files.read(word[1:]).split("\n") if line]
        else:
            found.append(word)
    return found


def set_ups_of(text: str, chip: Chip) -> List[SetUp]:
    """The cycles of a file of --setup."""
    *lines, rest = text.split("\n")
    if rest:
        raise Refused("SETUP: its last line has no end")
    inputs = {pin.name for pin in chip.inputs}.union(chip.held, (enable.name for enable in chip.enables), (chain.scan_in for chain in chip.chains))
    set_ups = [set_up_of(number, line, chip.clock, inputs) for number, line in enumerate(lines, 1)]
    if sum(set_up.times for set_up in set_ups) > CYCLES_AT_MOST:
        raise Refused(f"SETUP: more than {CYCLES_AT_MOST} cycles")
    return set_ups


def set_up_of(number: int, line: str, clock: str, inputs: "set[str]") -> SetUp:
    """A line's cycles."""
    times, values, pulses = 1, {}, False
    for place, word in enumerate(line.split(" ")):
        name, _, value = word.rpartition("=")
        name = unescaped(name)
        if place == 0 and re.fullmatch("[1-9][0-9]{0,6}", word):
            times = int(word)
        elif name == clock and value in ("0", "P"):
            pulses = value == "P"
        elif name in inputs and name not in values and value in ("0", "1"):
            values[name] = int(value)
        else:
            raise Refused(f"SETUP line {number}: {word} is neither an input pin and its value nor {clock}=P")
    return SetUp(times, values, pulses)


def numbers_text(numbers: Sequence[int]) -> str:
    """Numbers of tests in words."""
    told = " ".join(map(str, numbers[:NUMBERS_TOLD]))
    return told + (f" and {len(numbers) - NUMBERS_TOLD} more" if len(numbers) > NUMBERS_TOLD else "")


def refuse_left_out(refused: Dict[str, List[int]], leave_out: bool) -> None:
    """Refuses tests that the chip can't be given, unless they may be left out."""
    for reason, numbers in refused.items():
        if not leave_out:
            raise Refused(f"tests {numbers_text(numbers)}: {reason} (--leave-out)")


def text_of(lines: Iterable[str]) -> str:
    return "".join(line + "\n" for line in lines)


def notes_of(call: Call, chip: Chip) -> List[str]:
    """What pdfgen-log needs to know of the call."""
    masked = "all observed lines" if call.unmasked and not call.mask_outputs and not chip.unscanned else "some observed lines"
    return [f"mode {call.mode}", f"unit {call.unit} ps", f"compared {masked}"]


def work(words: Sequence[str], files: Files) -> None:
    call = Call(words, files)
    circuit = circuit_of(files.read(call.net))
    chains = chains_of(files.read(call.scan), circuit, call.chip.unscanned)
    tests = tests_of(files.read(call.tests), circuit)
    faults = faults_of(files.read(call.report), circuit)
    refuse_other_than_paths(faults, circuit)
    map_ = map_of(files.read(call.map)) if call.map is not None else None
    chip = chip_of(circuit, map_, chains, call.chip)
    if call.mode == "skewed":
        refuse_read_enables(circuit, chip)
    set_ups = set_ups_of(files.read(call.setup), chip) if call.setup is not None else []
    judge = Judge(circuit, chip, call.mode, faults, call.unmasked, call.mask_outputs)
    builder = Builder(circuit, chip, call.mode)
    program = builder.program(f"path delay tests, mode {call.mode}", notes_of(call, chip), call.timing, set_ups, judge.batches(tests))
    refuse_left_out(judge.refused, call.leave_out)
    outputs = [(call.stil, text_of(stil_lines(program)))]
    if call.testbench is not None:
        outputs.append((call.testbench, text_of(Bench(program, call.module, map_.buses if map_ else []).lines())))
    files.write(*outputs)
    left_out = sum(map(len, judge.refused.values()))
    print(f"tests {len(tests) - left_out} chains {len(chip.chains)} cells {sum(len(chain.cells) for chain in chip.chains)}")
    for reason, numbers in judge.refused.items():
        print(f"left out {' '.join(map(str, numbers))}: {reason}")


def main(words: Optional[Sequence[str]] = None) -> int:
    """Does a call of pdfgen-stil with these words (those of the command line if None), and answers its status."""
    return run(TOOL, work, words)
