"""Delays of pins as entries tell them one after the other: a later entry stands in the place of an earlier one, INCREMENT is added to it,
and an entry without a condition stands in the place of those with one.

SDF tells a delay by the transition of a gate's output, pdfgen by that of the line that the pin reads: which goes with which says the gate."""
from __future__ import annotations

import decimal
import itertools
from decimal import Decimal
from typing import ContextManager, Dict, Iterable, Iterator, List, Mapping, Optional, Sequence, Set, Tuple

from pdfgen_tools.bench import INVERTING
from pdfgen_tools.sdf.conditions import Condition
from pdfgen_tools.sdf.entries import BOTH, Edge, Path

Delay = Optional[Decimal]  # None where none is told
DIGITS = 400  # more than any sum of numbers that the reader takes has


def exactly() -> ContextManager[decimal.Context]:
    """Where sums are exact: delays are added inside of this."""
    return decimal.localcontext(decimal.Context(prec=DIGITS, traps=[decimal.Inexact, decimal.InvalidOperation]))


class NothingToAddTo(Exception):
    """An INCREMENT where no delay stands before it."""


class PathDelays:
    """The delays of a cell from an input to its output: a number for each edge of the input with each of the output that it may cause.

    always: those of entries without a condition. otherwise: those of CONDELSE. conditional: those under conditions, by their texts."""
    __slots__ = ("always", "otherwise", "conditional")

    def __init__(self) -> None:
        self.always: List[Delay] = [None] * 4
        self.otherwise: Optional[List[Delay]] = None
        self.conditional: Dict[str, Tuple[Condition, List[Delay]]] = {}

    def take(self, path: Path, values: Sequence[Delay]) -> None:
        """Takes in an entry with these values for a rise and a fall of the output. NothingToAddTo where it can't be added."""
        for edge in path.source.edges:
            for out, value in enumerate(values):
                if value is None:
                    continue
                at = 2 * edge + out
                if path.condition is not None or path.is_else:
                    self.take_special(path, at, value)
                elif path.is_increment:
                    self.add(at, value)
                else:
                    self.always[at] = value
                    if self.conditional or self.otherwise:
                        self.drop_special(at)

    def special(self) -> List[List[Delay]]:
        """The numbers of CONDELSE and of conditions."""
        tables = [table for _, table in self.conditional.values()]
        return tables if self.otherwise is None else [self.otherwise, *tables]

    def drop_special(self, at: int) -> None:
        """Leaves no number of CONDELSE and of conditions for these edges."""
        for table in self.special():
            table[at] = None

    def take_special(self, path: Path, at: int, value: Decimal) -> None:
        """Takes in a number of CONDELSE or of a condition. One that it has to be added to may be that of entries without."""
        if path.condition is not None:
            _, table = self.conditional.setdefault(path.condition.text, (path.condition, [None] * 4))
        else:
            table = self.otherwise = self.otherwise or [None] * 4
        if path.is_increment:
            value = sum_of(self.always[at] if table[at] is None else table[at], value)
        table[at] = value

    def add(self, at: int, value: Decimal) -> None:
        """Adds to all numbers that are there."""
        found = [table for table in [self.always, *self.special()] if table[at] is not None]
        if not found:
            raise NothingToAddTo
        for table in found:
            table[at] = sum_of(table[at], value)

    def told(self) -> Iterator[Delay]:
        """All numbers that are there."""
        return itertools.chain.from_iterable([self.always, *self.special()])

    def ports(self) -> Set[str]:
        """What the conditions read."""
        return {port for condition, _ in self.conditional.values() for port in condition.ports}

    def delays(self, kind: str, pin: str, sides: Sequence[str]) -> List[Delay]:
        """How long a rise and a fall of this pin take to show at the output of a gate of this kind: the longest over all values of its other
        pins at which they do, and of the other ports that conditions read. None where one of them has no delay."""
        if self.conditional or self.otherwise:
            return [self.conditional_delay(kind, edge, pin, sides) for edge in BOTH]
        rise_rise, rise_fall, fall_rise, fall_fall = self.always
        if kind in ("XOR", "XNOR") and sides:
            return [longest((rise_rise, rise_fall)), longest((fall_rise, fall_fall))]
        return [rise_fall, fall_rise] if kind in INVERTING else [rise_rise, fall_fall]

    def conditional_delay(self, kind: str, edge: Edge, pin: str, sides: Sequence[str]) -> Delay:
        """The same of one edge, where there are conditions."""
        others = sorted(self.ports() - {pin, *sides})
        return longest(self.delay_at(2 * edge + out, {pin: 1 - edge, **values, **dict(zip(others, other_values))})
                       for values, out in side_values(kind, edge, sides) for other_values in itertools.product((0, 1), repeat=len(others)))

    def delay_at(self, at: int, values: Mapping[str, int]) -> Delay:
        """The delay where the ports have these values: the longest of those whose conditions hold, else that of CONDELSE, else the one
        without a condition."""
        held = [table[at] for condition, table in self.conditional.values() if table[at] is not None and condition.holds(values)]
        if held:
            return longest(held)
        return self.always[at] if self.otherwise is None or self.otherwise[at] is None else self.otherwise[at]


class SetupTimes:
    """How long before the clock's edge the data of a flip-flop has to stand, by the edge of the data, for each text of a condition."""

    def __init__(self) -> None:
        self.found: Dict[str, List[Delay]] = {}

    def take(self, edges: Sequence[Edge], value: Decimal, condition: str) -> None:
        if not condition:
            for times in self.found.values():
                for edge in edges:
                    times[edge] = None
        times = self.found.setdefault(condition, [None, None])
        for edge in edges:
            times[edge] = value

    def time(self, edge: Edge) -> Delay:
        """The longest over all conditions."""
        return longest(times[edge] for times in self.found.values() if times[edge] is not None)


class WireDelays:
    """The delays of a wire, by the transition of its line."""
    __slots__ = ("found",)

    def __init__(self) -> None:
        self.found: List[Delay] = [None, None]

    def take(self, values: Sequence[Delay], is_increment: bool) -> None:
        for edge in BOTH:
            value = values[edge]
            if value is not None:
                self.found[edge] = sum_of(self.found[edge], value) if is_increment else value


def sum_of(before: Delay, value: Decimal) -> Decimal:
    if before is None:
        raise NothingToAddTo
    return before + value


def longest(delays: Iterable[Delay]) -> Delay:
    """The greatest of these, None where there are none, or where one isn't told."""
    most: Delay = None
    for delay in delays:
        if delay is None:
            return None
        if most is None or delay > most:
            most = delay
    return most


def side_values(kind: str, edge: Edge, sides: Sequence[str]) -> Iterator[Tuple[Dict[str, int], Edge]]:
    """The values of the other pins at which an edge of a pin shows at the output, and the edge that it has there."""
    if kind not in ("XOR", "XNOR"):
        side = 1 if kind in ("AND", "NAND") else 0
        yield dict.fromkeys(sides, side), BOTH[1 - edge] if kind in INVERTING else edge
        return
    for values in itertools.product((0, 1), repeat=len(sides)):
        turned = (sum(values) + (kind == "XNOR")) % 2
        yield dict(zip(sides, values)), BOTH[edge ^ turned]
