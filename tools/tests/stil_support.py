"""Runs for the tests of STIL, worked out by hand, and chips to play them on: a chip is told by the test, not taken from the file."""
from __future__ import annotations

import pathlib
from typing import Dict, List, Mapping, NamedTuple, Optional, Sequence, Tuple

from support import EXAMPLES, REPORT_HEADER, ToolTest, lines
from pdfgen_tools.bench import Circuit, circuit_of
from pdfgen_tools.stil.chip import ScanCell, ScanChain
from pdfgen_tools.stil.playing import Edge, GoodChip, Player, Strobe
from pdfgen_tools.stil.reading import program_of

SKEWED_TESTS = lines("pdfgen tests 1", "sources q1 q2", "observed d", "1 1 fall robust 11 01 0", "2 2 rise robust 10 11 1", "3 2 fall nonrobust 01 10 0")


class Launch(NamedTuple):
    """Two edges at speed: what the sources have around the first one, how long after it the second one comes, when inputs change between."""
    before: str
    after: str
    time: int
    changed: Tuple[int, ...]


def chip(circuit: Circuit, chains: Sequence[str], clock: str = "clock", rising: bool = True, enables: Optional[Mapping[str, int]] = None,
         resets: Optional[Mapping[str, int]] = None, inputs: Optional[Mapping[str, str]] = None, outputs: Optional[Mapping[str, str]] = None,
         scan_ins: Sequence[str] = (), scan_outs: Sequence[str] = (), pins: Sequence[str] = ()) -> GoodChip:
    """A chip. chains: flip-flops from the scan-in side, with ! for an inversion. inputs, outputs: names in NET of pins that have others.
    pins: inputs that NET doesn't have."""
    scan_ins = scan_ins or [f"scan_in{place}" for place in range(1, len(chains) + 1)]
    scan_outs = scan_outs or [f"scan_out{place}" for place in range(1, len(chains) + 1)]
    enables = enables or {"scan_enable": 1}
    input_lines = {pin: circuit.line_of[line] for pin, line in (inputs or {circuit.names[line]: circuit.names[line] for line in circuit.inputs}).items()}
    output_lines = {pin: circuit.line_of[line] for pin, line in (outputs or {circuit.names[line]: circuit.names[line] for line in circuit.outputs}).items()}
    scan_chains = [ScanChain(*cells_of(circuit, text), scan_in, scan_out) for text, scan_in, scan_out in zip(chains, scan_ins, scan_outs)]
    all_pins = dict.fromkeys([clock, *enables, *(resets or {}), *input_lines, *scan_ins, *pins])
    return GoodChip(circuit, clock, rising, list(all_pins), input_lines, output_lines, enables, scan_chains, resets or {})


def cells_of(circuit: Circuit, text: str) -> Tuple[Tuple[ScanCell, ...], bool]:
    """The cells of a chain, and whether an inversion stands behind them."""
    words, cells = text.split(), []
    for at, word in enumerate(words):
        if word != "!":
            cells.append(ScanCell(circuit.line_of[word], word, words[at - 1:at] == ["!"]))
    return tuple(cells), words[-1] == "!"


class StilTest(ToolTest):
    def skewed(self) -> List[str]:
        """Two flip-flops, one behind the other in a chain, that both take their AND."""
        report = lines(REPORT_HEADER, "1,rise,1,q1,d:0,untestable,-,-,1", "1,fall,1,q1,d:0,robust,1,-,-", "2,rise,1,q2,d:1,robust,2,-,-",
                       "2,fall,1,q2,d:1,nonrobust,3,2,-")
        net = lines("OUTPUT(d)", "q1 = DFF(d)", "q2 = DFF(d)", "d = AND(q1, q2)")
        return [self.write("net", net), self.write("scan", "q1\nq2\n"), self.write("tests", SKEWED_TESTS), self.write("report", report),
                self.path("stil")]

    def broadside(self) -> List[str]:
        """A flip-flop that takes AND of itself and an input."""
        report = lines(REPORT_HEADER, "1,rise,1,a,d:0,untestable,-,-,1", "1,fall,1,a,d:0,robust,1,-,-", "2,rise,1,q,d:1,untestable,-,-,2",
                       "2,fall,1,q,d:1,nonrobust,2,3,-")
        tests = lines("pdfgen tests 1", "sources a q", "observed d", "1 1 fall robust 11 01 0", "2 2 fall nonrobust 01 10 0")
        return [str(EXAMPLES / "feedback.bench"), self.write("scan", "q\n"), self.write("tests", tests), self.write("report", report),
                self.path("stil")]

    def files(self, net: str, scan: str, tests: str, report: str) -> List[str]:
        """A run of its own. tests: its lines behind their headings; report: those behind its header."""
        circuit = circuit_of(net)
        head = lines("pdfgen tests 1", "sources " + " ".join(circuit.names[:circuit.source_count]),
                     "observed " + " ".join(circuit.names[line] for line in circuit.observed))
        return [self.write("net", net), self.write("scan", scan), self.write("tests", head + tests), self.write("report", REPORT_HEADER + "\n" + report),
                self.path("stil")]

    def circuit(self, files: Sequence[str]) -> Circuit:
        return circuit_of(pathlib.Path(files[0]).read_text(encoding="latin-1"))

    def played(self, on: GoodChip, compared: int) -> Player:
        """Plays what was written: every pin has a value in every cycle, and all compared bits, so many, are right."""
        player = Player(program_of(self.read("stil")), on).play()
        self.assertEqual(player.floating, {})
        self.assertEqual([strobe for strobe in player.strobes if not strobe.is_right], [])
        self.assertEqual(len(player.strobes), compared)
        return player

    def launches(self, player: Player) -> List[Launch]:
        """The launches at speed. Each has two edges, and outputs are strobed at speed behind the first one alone."""
        at_speed = [edge for edge in player.edges if edge.table == "at_speed"]
        self.assertEqual(len(at_speed) % 2, 0)
        return [Launch(text_of(one.before), text_of(one.after), two.at - one.at, two.changed) for one, two in zip(at_speed[::2], at_speed[1::2])]

    def strobes_at_speed(self, player: Player) -> List[Strobe]:
        """The strobes between the two edges of launches, and at the second one."""
        launching = [edge.at for edge in player.edges if edge.table == "at_speed"][::2]
        return [strobe for strobe in player.strobes if strobe.at - strobe.since in launching]


def text_of(bits: Sequence[Optional[int]]) -> str:
    """Bits as letters, X where one is unknown."""
    return "".join("X" if bit is None else str(bit) for bit in bits)
