"""STIL of two designs from Verilog, played by its testbench in Icarus on the mapped design with scan chains and delays in it; and what
pdfgen-log says of a chip with one slow gate."""
from __future__ import annotations

import csv
import pathlib
import re
from typing import List, NamedTuple, Sequence

from packages import ToolTest, mapped, printed
from runs import run_of
from scan_insertion import Insertion, Plan, library
from pdfgen_tools.bench import Circuit, circuit_of
from pdfgen_tools.cli import from_yosys, log, stil
from pdfgen_tools.names import Map, map_of, unescaped

DESIGNS = pathlib.Path(__file__).resolve().parent / "designs"
GATE_PICOSECONDS, CLOCK_TO_Q_PICOSECONDS = 10, 20


class Said(NamedTuple):
    """What the testbench printed."""
    compared: int
    wrong: int


class Icarus(ToolTest):
    def design(self, top: str, *words: str) -> str:
        """Maps a design, and answers its JSON. NET and MAP are in the folder."""
        text = mapped(self.folder, (DESIGNS / f"{top}.v").read_text(), top)
        self.call(from_yosys.main, self.write("json", text), self.path("net"), self.path("map"), *words)
        return text

    def chains(self, found: Map, count: int, without: Sequence[str] = ()) -> List[List[str]]:
        """The flip-flops in so many chains of different lengths, by NET's names."""
        lines = [flip_flop.line for flip_flop in found.flip_flops if flip_flop.line not in without]
        return [lines[at::count + 1] + (lines[count::count + 1] if at == 0 else []) for at in range(count)]

    def write_scan(self, chains: Sequence[Sequence[str]]) -> None:
        self.write("scan", "\n".join("".join(name + "\n" for name in chain) for chain in chains))

    def played(self, text: str, top: str, plan: Plan, slow_cell: str = "") -> Said:
        """Plays the testbench on the design with scan, one cell of it slow."""
        self.write("scanned.json", Insertion(text, top).insert(plan))
        printed(["yosys", "-q", "-p", "read_json scanned.json; write_verilog -noattr -noexpr scanned.v"], self.folder)
        self.write("library.v", library(GATE_PICOSECONDS, CLOCK_TO_Q_PICOSECONDS))
        slow = f"defparam pdfgen_testbench.chip.{slow_cell}.D = 50000;" if slow_cell else ""
        self.write("slow.v", f"module slow; {slow} endmodule\n")
        printed(["iverilog", "-g2005", "-o", "bench", "-s", "pdfgen_testbench", "-s", "slow", "testbench.v", "scanned.v", "library.v", "slow.v"], self.folder)
        said = printed(["vvp", "-n", "bench", "+fails=fails.csv"], self.folder)
        found = re.fullmatch("cycles [0-9]+ compared ([0-9]+) wrong ([0-9]+)\n(?:.*finish.*\n)?", said)
        assert found is not None, said
        return Said(int(found[1]), int(found[2]))

    def depth(self, circuit: Circuit) -> int:
        """The levels of a circuit."""
        levels = [0] * len(circuit.names)
        for number in circuit.order:
            levels[circuit.source_count + number] = 1 + max(levels[line] for line in circuit.gates[number].pins)
        return max(levels)

    def period(self, circuit: Circuit) -> str:
        """Time enough for each path, through the flip-flop in front of it and a multiplexer behind it."""
        return str(self.depth(circuit) * GATE_PICOSECONDS + CLOCK_TO_Q_PICOSECONDS + 2 * GATE_PICOSECONDS)

    def test_shared_ports_inversions_and_a_flip_flop_on_no_chain(self) -> None:
        text = self.design("mixer")
        circuit, found = circuit_of(self.read("net")), map_of(self.read("map"))
        cell_of = {flip_flop.line: unescaped(flip_flop.name) for flip_flop in found.flip_flops}
        chains = self.chains(found, 2, ["twin_b"])
        inverted = [chains[0][0], chains[0][5], chains[1][3]]
        plan = Plan([[cell_of[name] for name in chain] for chain in chains], ("shift_n", 0), ["up[2]", "si"], ["check[3]", "so"],
                    [cell_of[name] for name in inverted], ["so"])
        self.write_scan(chains)
        run = run_of(circuit, "broadside", [], 30)
        self.write("tests", run.tests)
        self.write("report", run.report)
        words = [*map(self.path, ("net", "scan", "tests", "report", "stil")), "--mode", "broadside", "--map", self.path("map"), "--unmasked",
                 "--unscanned", "twin_b", "--leave-out", "--scan-enable", "shift_n=0", "--scan-in", "up[2]", "--scan-in", "si", "--scan-out", "check[3]",
                 "--scan-out", "so", "--inverted-out", "so", "--testbench", self.path("testbench.v"), "--module", "mixer"]
        words += [word for name in inverted for word in ("--inverted", name)]
        said = self.call(stil.main, *words, "--time", self.period(circuit))
        tests = int(said.split(" ")[1])
        self.assertGreater(tests, 20)
        played = self.played(text, "mixer", plan)
        self.assertEqual(played.wrong, 0)
        unknown = tests * (len(found.outputs) + len(circuit.flip_flops) - 1) - played.compared  # what twin_b makes unknown
        self.assertTrue(0 <= unknown <= 2 * tests, unknown)
        self.call(stil.main, *words, "--time", "150")
        self.assertGreater(self.played(text, "mixer", plan).wrong, 0)

    def test_falling_edges_and_a_slow_gate(self) -> None:
        text = self.design("lanes")
        circuit, found = circuit_of(self.read("net")), map_of(self.read("map"))
        cell_of = {flip_flop.line: unescaped(flip_flop.name) for flip_flop in found.flip_flops}
        chains = self.chains(found, 7)
        plan = Plan([[cell_of[name] for name in chain] for chain in chains], ("scan_enable", 1), [f"scan_in{place}" for place in range(1, 8)],
                    [f"scan_out{place}" for place in range(1, 8)])
        self.write_scan(chains)
        run = run_of(circuit, "skewed", [[circuit.line_of[name] for name in chain] for chain in chains], 40)
        self.write("tests", run.tests)
        self.write("report", run.report)
        words = [*map(self.path, ("net", "scan", "tests", "report", "stil")), "--mode", "skewed", "--map", self.path("map"), "--time",
                 self.period(circuit), "--testbench", self.path("testbench.v"), "--module", "lanes"]
        self.call(stil.main, *words, "--unmasked")
        self.assertEqual(self.played(text, "lanes", plan), (40 * (len(found.outputs) + len(circuit.flip_flops)), 0))
        files = [self.path(name) for name in ("net", "tests", "report", "stil", "fails.csv")]
        log_words = [*files, "--map", self.path("map"), "--log", self.path("log")]
        self.assertEqual(self.call(log.main, *log_words), "log: pass 40 fail 0 left out 0 masked, 0 behind the last cycle\n")
        self.slow_gates(text, circuit, found, plan, log_words)

    def slow_gates(self, text: str, circuit: Circuit, found: Map, plan: Plan, words: Sequence[str]) -> None:
        """The last gate of a robust test's path is slow: the path is late, and pdfgen-log names it at its end."""
        cell_of = {cell.line: unescaped(cell.name) for cell in found.gates}
        rows = [row for row in csv.reader(self.read("report").splitlines()) if row[5] == "robust"]
        self.assertGreater(len(rows), 5)
        for row in rows[:2]:
            end = row[4].split(" ")[-1].rpartition(":")[0]
            self.assertGreater(self.played(text, "lanes", plan, cell_of[end]).wrong, 0)
            said = self.call(log.main, *words)
            self.assertRegex(said, f"\ntest {row[6]}, .*\n(  .*\n)*  path {row[0]}, {row[1]}, robust, |^test {row[6]}, .*\n(  .*\n)*  path {row[0]}, {row[1]}, robust, ")
            self.assertIn(f"\n{row[6]},", self.read("log"))
