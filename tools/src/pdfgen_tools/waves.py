"""The waves of all lines under a pair of vectors and the delays of pins (docs/model.md, 'Delays and waves' and 'Rise and fall delays').

Written from the documents alone: it shares no code with the program."""
from __future__ import annotations

import bisect
import heapq
from typing import Iterable, List, NamedTuple, Sequence, Tuple

from pdfgen_tools.bench import CONTROLLING, INVERTING, Circuit, Gate
from pdfgen_tools.delays import Delays, PinDelay
from pdfgen_tools.errors import Refused

CHANGES_OF_LINE, CHANGES_OF_ALL = 65536, 16777216  # as of replay


class Wave(NamedTuple):
    """first: the value before all changes. changes: the times at which it takes the other value, ascending."""
    first: int
    changes: Sequence[int]

    def at(self, time: int) -> int:
        """The value at a time."""
        return (self.first + bisect.bisect_right(self.changes, time)) % 2

    def last(self) -> int:
        """The value behind all changes."""
        return (self.first + len(self.changes)) % 2


def shown(wave: Wave, delay: PinDelay) -> Wave:
    """What a pin shows of its line's wave: each rise later by the one delay, each fall by the other, and no pulse that this swallows."""
    kept: List[int] = []
    for number, change in enumerate(wave.changes, 1):
        time = change + delay.to((wave.first + number) % 2)
        if kept and kept[-1] >= time:  # the pulse between them is no longer than the difference of the delays
            kept.pop()
        else:
            kept.append(time)
    return Wave(wave.first, kept)


def gate_value(gate: Gate, pins: Sequence[int]) -> int:
    """The value of a gate at these values of its pins."""
    if gate.kind in CONTROLLING:
        controlling = CONTROLLING[gate.kind]
        value = controlling if controlling in pins else 1 - controlling
    else:
        value = sum(pins) % 2
    return 1 - value if gate.kind in INVERTING else value


def changes_of_pins(waves: Sequence[Wave]) -> Iterable[Tuple[int, int]]:
    """The changes of all pins in the order of time: pairs of a time and a pin."""
    return heapq.merge(*([(time, pin) for time in wave.changes] for pin, wave in enumerate(waves)))


def driven(gate: Gate, waves: Sequence[Wave]) -> Wave:
    """The wave of a gate whose pins show these."""
    pins = [wave.first for wave in waves]
    first = value = gate_value(gate, pins)
    changes: List[int] = []
    for time, pin in changes_of_pins(waves):
        pins[pin] ^= 1
        if gate_value(gate, pins) != value:
            value ^= 1
            if changes and changes[-1] == time:  # another pin has changed at the same time
                changes.pop()
            else:
                changes.append(time)
    return Wave(first, changes)


def waves_of(circuit: Circuit, delays: Delays, first: str, second: str) -> List[Wave]:
    """The waves of all lines where the sources take the second vector at time 0. Refused where a line changes too often."""
    waves = [Wave(int(one), [0] if one != two else []) for one, two in zip(first, second)] + [Wave(0, [])] * len(circuit.gates)
    total = 0
    for number in circuit.order:
        gate, line = circuit.gates[number], circuit.source_count + number
        waves[line] = driven(gate, [shown(waves[read], delay) for read, delay in zip(gate.pins, delays.of_gate[number])])
        total += len(waves[line].changes)
        if len(waves[line].changes) > CHANGES_OF_LINE or total > CHANGES_OF_ALL:
            raise Refused(f"line {circuit.names[line]} changes too often")
    return waves
