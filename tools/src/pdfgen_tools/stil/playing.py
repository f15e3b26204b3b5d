"""Plays a STIL program on a chip without delays: what a tester and a good chip do with it, event by event.

At one time outputs are compared first; then, if the clock's active edge comes, flip-flops take what they read; and then inputs change. So a
strobe behind the edge sees what the edge made, and an input that changes before the edge is taken in by it."""
from __future__ import annotations

from itertools import groupby
from typing import Dict, List, Mapping, NamedTuple, Optional, Sequence, Tuple

from pdfgen_tools.bench import Circuit, Known
from pdfgen_tools.errors import Refused
from pdfgen_tools.stil.chip import ScanChain
from pdfgen_tools.stil.cycles import Cycle, Moment, Waves, cycles_of
from pdfgen_tools.stil.model import Program

Bit = Optional[int]  # None is unknown
FORCED: Mapping[str, Bit] = {"D": 0, "U": 1, "Z": None}


class GoodChip(NamedTuple):
    """A chip as it is, not as a STIL file says. pins: all its inputs; those that no vector gives a value float. inputs, outputs: lines of
    NET by pins. enables: scan enables and their values while chains shift. resets: pins and the values at which all flip-flops become 0."""
    circuit: Circuit
    clock: str
    rising: bool
    pins: Sequence[str]
    inputs: Mapping[str, int]
    outputs: Mapping[str, int]
    enables: Mapping[str, int]
    chains: Sequence[ScanChain]
    resets: Mapping[str, int]


class Edge(NamedTuple):
    """An active edge of the clock. table: of its cycle. before, after: what the sources have right before and right after it.
    changed: when inputs changed since the edge before it, counted back from this one, greatest first; 0 is together with it."""
    at: int
    table: str
    before: Tuple[Bit, ...]
    after: Tuple[Bit, ...]
    changed: Tuple[int, ...]


class Strobe(NamedTuple):
    """A comparison. since: the time since the last active edge. cycle: its number. is_right: whether the chip has what is expected."""
    at: int
    since: int
    cycle: int
    pin: str
    expected: str
    value: Bit

    @property
    def is_right(self) -> bool:
        return self.value == {"L": 0, "H": 1}[self.expected]


class Player:
    """edges: all active edges of the clock. strobes: all comparisons. floating: pins that had no value in some cycle."""

    def __init__(self, program: Program, chip: GoodChip) -> None:
        self.program, self.chip, self.waves = program, chip, Waves(program)
        self.drives: Dict[str, Bit] = {pin: None for pin in chip.pins}
        self.state: Dict[int, Bit] = {flip_flop.line: None for flip_flop in chip.circuit.flip_flops}
        self.edges: List[Edge] = []
        self.strobes: List[Strobe] = []
        self.floating: Dict[str, int] = {}
        self.changes: List[int] = []
        self.values: Optional[List[Bit]] = None  # of all lines, where nothing has changed since they were computed

    def play(self) -> Player:
        """Plays all cycles."""
        for cycle in cycles_of(self.program):
            for pin in self.chip.pins:
                if pin not in cycle.letters:
                    self.floating.setdefault(pin, cycle.number)
            for _, moments in groupby(self.waves.moments(cycle), key=lambda moment: moment.at):
                self.play_moments(cycle, list(moments))
        return self

    def play_moments(self, cycle: Cycle, moments: Sequence[Moment]) -> None:
        """What happens at one time."""
        for moment in moments:
            if moment.does in "LH":
                self.compare(cycle, moment)
        drives = {moment.pin: FORCED[moment.does] for moment in moments if moment.does in FORCED}
        for pin in drives:
            if pin not in self.drives:
                raise Refused(f"STIL: {pin} is no input of the chip")
        is_edge = self.is_edge(drives)
        before = self.sources()
        taken = self.taken() if is_edge else self.state
        changed = [pin for pin, value in drives.items() if pin in self.chip.inputs and self.drives[pin] != value]
        self.changes += [moments[0].at] * len(changed)
        if is_edge or any(self.drives[pin] != value for pin, value in drives.items()):
            self.values = None
        self.drives.update(drives)
        in_reset = any(self.drives[pin] == value for pin, value in self.chip.resets.items())
        self.state = dict.fromkeys(self.state, 0) if in_reset else dict(taken)
        if is_edge:
            at = moments[0].at
            self.edges.append(Edge(at, cycle.table.name, before, self.sources(), tuple(at - change for change in self.changes)))
            self.changes = []

    def is_edge(self, drives: Mapping[str, Bit]) -> bool:
        """Whether the clock becomes active by these drives."""
        active = int(self.chip.rising)
        return self.chip.clock in drives and drives[self.chip.clock] == active and self.drives[self.chip.clock] == 1 - active

    def sources(self) -> Tuple[Bit, ...]:
        """What the sources have: inputs, then flip-flops."""
        pin_of = {line: pin for pin, line in self.chip.inputs.items()}
        inputs = [self.drives[pin_of[line]] for line in self.chip.circuit.inputs]
        return (*inputs, *(self.state[flip_flop.line] for flip_flop in self.chip.circuit.flip_flops))

    def lines(self) -> List[Bit]:
        """What all lines have."""
        if self.values is None:
            known = self.chip.circuit.known_values([Known(int(bit == 0), int(bit == 1)) for bit in self.sources()], 1)
            self.values = [None if not value.zeros | value.ones else value.ones for value in known]
        return self.values

    def taken(self) -> Dict[int, Bit]:
        """What flip-flops take at an edge: their chains shift, or each takes its data line."""
        shifting = [self.drives[pin] == value for pin, value in self.chip.enables.items()]
        in_chains = {cell.line for chain in self.chip.chains for cell in chain.cells}
        by_data = [flip_flop for flip_flop in self.chip.circuit.flip_flops if flip_flop.line not in in_chains or not all(shifting)]
        lines = self.lines() if by_data else []
        taken = {flip_flop.line: lines[flip_flop.data] for flip_flop in by_data}
        if all(shifting):
            for chain in self.chip.chains:
                taken.update(self.shifted(chain))
        elif any(shifting):
            taken = dict.fromkeys(taken)
        return taken

    def shifted(self, chain: ScanChain) -> Dict[int, Bit]:
        """What the cells of a chain take as it shifts."""
        entering = [self.drives[chain.scan_in], *(self.state[cell.line] for cell in chain.cells[:-1])]
        return {cell.line: turned(bit, cell.inverted) for cell, bit in zip(chain.cells, entering)}

    def compare(self, cycle: Cycle, moment: Moment) -> None:
        """A strobe of an output: what scan shows while chains shift, else what NET's line has."""
        value: Bit = None
        shifting = all(self.drives[pin] == value for pin, value in self.chip.enables.items())
        scan_outs = {chain.scan_out: chain for chain in self.chip.chains}
        if moment.pin in scan_outs and (shifting or moment.pin not in self.chip.outputs):
            chain = scan_outs[moment.pin]
            value = turned(self.state[chain.cells[-1].line], chain.inverted_out)
        elif moment.pin in self.chip.outputs:
            value = self.lines()[self.chip.outputs[moment.pin]]
        else:
            raise Refused(f"STIL: {moment.pin} is no output of the chip")
        last = self.edges[-1].at if self.edges else 0
        self.strobes.append(Strobe(moment.at, moment.at - last, cycle.number, moment.pin, moment.does, value))


def turned(bit: Bit, inverted: bool) -> Bit:
    """A bit behind an inversion, or without one."""
    return bit if bit is None else bit ^ inverted
