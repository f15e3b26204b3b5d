"""What an SDF file (IEEE 1497) says, entry by entry: the types that reading gives and annotation takes.

Names stand as the file spells them. An `at` is where the thing stands in the file's text."""
from __future__ import annotations

import enum
from typing import Iterator, List, NamedTuple, Optional, Sequence, Tuple

from pdfgen_tools.sdf.conditions import Condition


class Edge(enum.IntEnum):
    """A transition of a line."""
    RISE = 0
    FALL = 1


BOTH = (Edge.RISE, Edge.FALL)


class Triple(NamedTuple):
    """The numbers of (min:typ:max), as spelled, nothing where one is missing. A single number stands three times."""
    minimum: str
    typical: str
    maximum: str


Value = Optional[Triple]  # None is (), which leaves a delay as it is


class PortSpec(NamedTuple):
    """A port of a cell, and which of its transitions are meant: `(posedge C)` is C, rising. word: how the file tells them, nothing for both."""
    name: str
    edges: Tuple[Edge, ...]
    word: str


class Path(NamedTuple):
    """An IOPATH: from an input of a cell to an output. values: for 01, 10, and more that no line of two values takes. condition: that of
    COND. is_else: behind CONDELSE. is_increment: added to what stood before."""
    at: int
    source: PortSpec
    sink: str
    values: Sequence[Value]
    condition: Optional[Condition]
    is_else: bool
    is_increment: bool


class Wire(NamedTuple):
    """An INTERCONNECT, or a PORT, which has no source (nothing)."""
    at: int
    source: str
    sink: str
    values: Sequence[Value]
    is_increment: bool


class Check(NamedTuple):
    """A SETUP or a SETUPHOLD: how long before the clock's edge the data has to stand. condition: what its conditions spell, all together."""
    at: int
    data: PortSpec
    clock: PortSpec
    setup: Value
    condition: str


class Cell(NamedTuple):
    """A CELL. instance: nothing for the whole design. passed_over: words of what stands in it and is no matter of delays of a
    netlist's pins, each as often as it stands there."""
    at: int
    kind: str
    instance: str
    paths: List[Path]
    wires: List[Wire]
    checks: List[Check]
    passed_over: List[str]


class DelayFile(NamedTuple):
    """A file's header, and its cells, which are read one by one. femtoseconds: what one unit of its numbers is."""
    divider: str
    femtoseconds: int
    cells: Iterator[Cell]
