"""Writes a .bench netlist for pdfgen from a design that yosys has mapped to simple gates, and a map of its names.

    pdfgen-from-yosys JSON NET MAP [--top NAME] [--flip-flop-delays] [--output-delays] [--hold PIN=VALUE ..]

JSON is what `write_json` of yosys writes behind a script like examples/chip/map.ys. Flip-flops have one clock, an input port, all at the
same edge; of `$_DFF_?_` and `$_DFF_???_` initial values are passed over. Clock and resets are left out of NET, and outputs that are constant.

Resets are held inactive: input ports, or the port in front of a reset synchronizer, whose flip-flops are settled then, and no lines of NET.
--hold holds a further input port, such as a test mode, at 0 or 1, and may be repeated. A gate that reads what never changes becomes a
simpler one, and MAP names the pins that it lost.

Names are those of ports, else of nets: bit 3 of count is `count[3]`; a byte that NET can't have is written as % and two hexadecimal digits.
With --flip-flop-delays each flip-flop q has a buffer behind it (`q%clock_to_q`) and one at its data line (`q%setup`), to carry these times;
with --output-delays each output port y has one in front of it (`y%output`), for the wire to it. Prints how many there are of each kind."""
from __future__ import annotations

from typing import Dict, Optional, Sequence

from pdfgen_tools.bench import circuit_of
from pdfgen_tools.errors import Files, Words, run
from pdfgen_tools.names import Map, text_of
from pdfgen_tools.yosys.json_file import module_of
from pdfgen_tools.yosys.netlist import Buffers, Design, Writer

TOOL = "pdfgen-from-yosys"


class Call:
    """The words of a call."""

    def __init__(self, words: Sequence[str]) -> None:
        parser = Words(TOOL, __doc__)
        parser.files("JSON", "NET", "MAP")
        parser.add_argument("--top", metavar="NAME", help="the module, if JSON has several and none is marked as top")
        parser.add_argument("--flip-flop-delays", action="store_true", help="buffers for clock-to-Q and setup times")
        parser.add_argument("--output-delays", action="store_true", help="buffers for the wires to output ports")
        parser.add_argument("--hold", metavar="PIN=VALUE", action="append", default=[], help="an input port that the tester holds at 0 or 1")
        found = parser.parse_args(words)
        self.json: str = found.json
        self.net: str = found.net
        self.map: str = found.map
        self.top: Optional[str] = found.top
        self.buffers = Buffers(found.flip_flop_delays, found.output_delays)
        self.held: Dict[str, int] = {}
        for word in found.hold:
            pin, _, value = word.rpartition("=")
            if not pin or value not in ("0", "1") or pin in self.held:
                parser.error(f"--hold {word}: not PIN=0 or PIN=1, or twice")
            self.held[pin] = int(value)


def counts(map_: Map) -> str:
    """How many there are of each kind."""
    counted = {"inputs": len(map_.inputs), "outputs": len(map_.outputs), "flip_flops": len(map_.flip_flops), "gates": len(map_.gates),
               "held": len(map_.held), "settled": len(map_.settled), "constant": len(map_.constants),
               "still_pins": sum(len(cell.pins) for cell in map_.stills)}
    return " ".join(f"{kind} {count}" for kind, count in counted.items())


def work(words: Sequence[str], files: Files) -> None:
    call = Call(words)
    design = Design(module_of(files.read(call.json), call.top), call.held)
    writer = Writer(design, call.buffers)
    netlist = writer.netlist()
    if not design.is_loop_free():
        circuit_of(netlist)  # refuses a loop, unless what never changes cuts it
    files.write((call.net, netlist), (call.map, text_of(writer.map)))
    print(counts(writer.map))


def main(words: Optional[Sequence[str]] = None) -> int:
    """Does a call of pdfgen-from-yosys with these words (those of the command line if None), and answers its status."""
    return run(TOOL, work, words)
