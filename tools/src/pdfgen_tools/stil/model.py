"""A STIL file (IEEE 1450) as data: what text.py spells, reading.py reads, playing.py plays and testbench.py turns into Verilog.

All times are in picoseconds. Signals and groups share one namespace, as STIL asks: a vector may name either."""
from __future__ import annotations

import re
from typing import Dict, Iterable, List, Mapping, NamedTuple, Tuple, Union

from pdfgen_tools.errors import Refused

DRIVEN, COMPARED = "UDZ", "HLX"  # events: an input goes up, down or off; an output is compared with high or low, or no longer
UNSPELLED = re.compile("[\"'\x00-\x1f\x7f]")  # what no name in double quotes, which an expression may hold in single ones, can have


class Signal(NamedTuple):
    """A pin of the chip. is_input: the tester drives it, else it compares it. scan: ScanIn, ScanOut or nothing."""
    name: str
    is_input: bool
    scan: str


class Group(NamedTuple):
    """A name for signals, in whose order a vector gives their letters."""
    name: str
    members: Tuple[str, ...]


class Event(NamedTuple):
    """What happens to a signal so long after its cycle begins: one of DRIVEN or COMPARED. X: nothing is compared from here on."""
    at: int
    does: str


class Waveform(NamedTuple):
    """What a letter means for a signal, or for each of a group: events in the order of time."""
    of: str
    letter: str
    events: Tuple[Event, ...]


class WaveformTable(NamedTuple):
    name: str
    period: int
    waveforms: Tuple[Waveform, ...]


class Cell(NamedTuple):
    """A flip-flop of a chain. inverted: whether an inversion stands in front of it."""
    name: str
    inverted: bool


class Chain(NamedTuple):
    """A scan chain, its cells from the scan-in side. inverted_out: whether an inversion stands behind the last one."""
    name: str
    cells: Tuple[Cell, ...]
    inverted_out: bool
    scan_in: str
    scan_out: str
    clock: str


class SetTable(NamedTuple):
    """W: the table of all cycles from here on."""
    name: str


class Vector(NamedTuple):
    """V: a cycle. values: letters of signals or groups; what isn't named keeps its letters. `#` is the next one that the call gives."""
    values: Mapping[str, str]


class Shift(NamedTuple):
    """A vector that is repeated until the letters of the call are used up."""
    vector: Vector


class Call(NamedTuple):
    """A procedure is played, with these letters for the `#` of signals. label: empty, or the name of this place."""
    label: str
    procedure: str
    values: Mapping[str, str]


Statement = Union[SetTable, Vector, Shift, Call]


class Program(NamedTuple):
    """A file. notes: annotations, a line of text each."""
    title: str
    notes: Tuple[str, ...]
    signals: Tuple[Signal, ...]
    groups: Tuple[Group, ...]
    chains: Tuple[Chain, ...]
    tables: Tuple[WaveformTable, ...]
    procedures: Mapping[str, Tuple[Statement, ...]]
    pattern: Tuple[Statement, ...]


class Namespace:
    """The names of signals and groups. A signal is called as the chip's pin, or refused; a group gets a name that is free."""

    def __init__(self) -> None:
        self.owners: Dict[str, str] = {}

    def signal(self, name: str, what: str) -> str:
        """The name of a pin. what: whose it is, as `output y`. Refused where another pin has it, or STIL can't spell it."""
        if not name or UNSPELLED.search(name):
            raise Refused(f"{what}: a name with a quote or a control character, or an empty one, has no place in STIL")
        if name in self.owners:
            raise Refused(f"{what}: {self.owners[name]} has this name, too")
        self.owners[name] = what
        return name

    def group(self, wanted: str) -> str:
        """The wanted name, or where something has it, with _2, _3 and so on behind it."""
        name, count = wanted, 1
        while name in self.owners:
            count += 1
            name = f"{wanted}_{count}"
        self.owners[name] = f"group {name}"
        return name


def cell_names(names: Iterable[Tuple[str, str]]) -> List[str]:
    """Names of cells, by pairs of what the design calls them and what NET does: the design's name, or NET's where two cells would have one
    name, or STIL can't spell it. NET's names differ, and have neither blanks nor double quotes."""
    pairs = list(names)
    counts: Dict[str, int] = {}
    for design, net in pairs:
        for name in {design, net}:
            counts[name] = counts.get(name, 0) + 1
    return [net if counts[design] > 1 or not design or UNSPELLED.search(design) else design for design, net in pairs]


def quoted(name: str) -> str:
    """A name as STIL spells it."""
    return f'"{name}"'
