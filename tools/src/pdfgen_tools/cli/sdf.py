"""Writes a delay file for pdfgen from SDF (IEEE 1497), for a netlist and its map that pdfgen-from-yosys wrote.

    pdfgen-sdf SDF NET MAP DELAYS --corner min|typ|max [--unit PS] [--rise-fall] [--leave-out KIND]..

Reads IOPATH, INTERCONNECT and PORT of DELAY, with COND, CONDELSE and edges, and SETUP and SETUPHOLD of TIMINGCHECK. A later entry stands in
the place of an earlier one; INCREMENT is added to it. A unit is PS picoseconds (1 if not told otherwise), rounded up. A wire's delay is added
to that of the pin at its end. What isn't of SDF's grammar, or of this netlist, is refused.
Without --rise-fall a pin has one delay, the greater of its two. With it, the file is one of rfreplay: SDF tells delays by the transition
of a gate's output, pdfgen by that of the line that the pin reads, so they change places at inverting gates; at XOR and XNOR, where either
may come, a pin has the greater one, but where SDF tells the edge of the pin or the value of the other one.

Delays that NET has no pin for are refused, but where they are 0 or left out: clock-to-Q, setup times and wires to flip-flops where NET has no
buffers for them (--leave-out flip-flops), wires to outputs (output-wires) and of the clock (clock-wires).

The first row gives all pins 1,000,000 units: a pin, or an edge of one, that SDF forgets makes its paths the longest. The line that is printed
tells how many these are, how many wires SDF tells of how many, how many entries were read, and how many, or parts of entries, were ignored,
by reason."""
from __future__ import annotations

import contextlib
import gc
from decimal import ROUND_CEILING
from typing import Iterator, List, NamedTuple, Optional, Sequence

from pdfgen_tools.bench import Circuit, circuit_of
from pdfgen_tools.delays import GREATEST_DELAY
from pdfgen_tools.errors import Files, Refused, Words, run
from pdfgen_tools.names import fit, map_of
from pdfgen_tools.sdf.annotation import CORNERS, LEFT_OUT, Annotation
from pdfgen_tools.sdf.design import Design
from pdfgen_tools.sdf.reader import read
from pdfgen_tools.sdf.tables import Delay, exactly

TOOL = "pdfgen-sdf"
FORGOTTEN = GREATEST_DELAY  # units of a pin that SDF doesn't tell
FEMTOSECONDS = 1000  # of a picosecond


class Call:
    """The words of a call."""

    def __init__(self, words: Sequence[str]) -> None:
        parser = Words(TOOL, __doc__)
        parser.files("SDF", "NET", "MAP", "DELAYS")
        parser.add_argument("--corner", choices=CORNERS, required=True)
        parser.add_argument("--unit", type=int, default=1, metavar="PS", help="picoseconds of a delay unit")
        parser.add_argument("--rise-fall", action="store_true", help="two delays for each pin")
        parser.add_argument("--leave-out", choices=LEFT_OUT, action="append", default=[], help="delays that NET has no pin for")
        found = parser.parse_args(words)
        self.sdf: str = found.sdf
        self.net: str = found.net
        self.map: str = found.map
        self.delays: str = found.delays
        self.corner: str = found.corner
        self.unit: int = found.unit
        self.rise_fall: bool = found.rise_fall
        self.left_out: List[str] = found.leave_out
        if self.unit < 1:
            parser.error("--unit is at least 1")


class Rows(NamedTuple):
    """rows: of DELAYS, with their titles. told, pins, edges: how many pins SDF tells, how many it forgets, and of how many one edge."""
    rows: List[str]
    told: int
    pins: int
    edges: int


def units_of(delay: Delay, femtoseconds: int, unit: int) -> Optional[int]:
    """Whole units, rounded up. Rounding up to femtoseconds first makes no difference, as a unit has a whole number of them."""
    if delay is None:
        return None
    return -(-int((delay * femtoseconds).to_integral_value(ROUND_CEILING)) // (unit * FEMTOSECONDS))


def rows_of(circuit: Circuit, annotation: Annotation, femtoseconds: int, call: Call) -> Rows:
    """The rows of DELAYS. A pin has none where none of its edges is told, and, of one delay, where one isn't."""
    rows = ["gate,pin,rise,fall", f"*,*,{FORGOTTEN},{FORGOTTEN}"] if call.rise_fall else ["gate,pin,delay", f"*,*,{FORGOTTEN}"]
    told = pins = edges = 0
    for (gate, pin), *delays in annotation.delays():
        name = circuit.names[circuit.source_count + gate]
        rise, fall = (units_of(delay, femtoseconds, call.unit) for delay in delays)
        most = max(rise or 0, fall or 0)
        if most > FORGOTTEN:
            raise Refused(f"SDF: pin {pin} of {name}: {most} units, over {FORGOTTEN} (--unit)")
        if rise is None and fall is None:
            pins += 1
            continue
        told += 1
        edges += rise is None or fall is None
        if call.rise_fall:
            rows.append(f"{name},{pin},{FORGOTTEN if rise is None else rise},{FORGOTTEN if fall is None else fall}")
        elif rise is not None and fall is not None:
            rows.append(f"{name},{pin},{most}")
    return Rows(rows, told, pins, edges)


@contextlib.contextmanager
def without_collection() -> Iterator[None]:
    """Inside, nothing looks for cycles to free: millions of entries are made, none of them in a cycle, and the looks take a third of the time."""
    gc.disable()
    try:
        yield
    finally:
        gc.enable()


def work(words: Sequence[str], files: Files) -> None:
    with without_collection():
        write_delays(Call(words), files)


def write_delays(call: Call, files: Files) -> None:
    """Does a call: reads its files, writes DELAYS, and prints what was read."""
    circuit = circuit_of(files.read(call.net))
    map_ = map_of(files.read(call.map))
    fit(map_, circuit)
    design = Design(circuit, map_)
    file, refuse_at = read(files.read(call.sdf))
    annotation = Annotation(design, call.corner, call.left_out, file.divider, refuse_at)
    with exactly():
        annotation.take(file)
        found = rows_of(circuit, annotation, file.femtoseconds, call)
    if circuit.gates and not annotation.paths and not annotation.setups:
        raise Refused("SDF: no delay of any pin")
    files.write((call.delays, "".join(row + "\n" for row in found.rows)))
    ignored = ", ".join(f"{reason} {count}" for reason, count in sorted(annotation.ignored.items()))
    print(f"pins {found.told + found.pins} forgotten {found.pins} edges {found.edges} wires {len(annotation.wires)} of {design.wire_count} "
          f"read {annotation.read} ignored {sum(annotation.ignored.values())}" + (f" ({ignored})" if ignored else ""))


def main(words: Optional[Sequence[str]] = None) -> int:
    """Does a call of pdfgen-sdf with these words (those of the command line if None), and answers its status."""
    return run(TOOL, work, words)
