"""The cycles that a tester plays of a STIL program: which pin has which letter in which, and what happens when.

A procedure begins with no letters and no table, and what calls it goes on with those that it had. A shift is repeated as long as the call
gives letters, the same number for each pin that takes some."""
from __future__ import annotations

from typing import Dict, Iterator, List, Mapping, NamedTuple, Optional, Tuple

from pdfgen_tools.errors import Refused
from pdfgen_tools.stil.model import Call, Event, Program, SetTable, Shift, Statement, Vector, WaveformTable


class Cycle(NamedTuple):
    """number: counted from 0. begins: in picoseconds, from the first cycle on. letters: of every pin that has one. label: of the last call
    that has one. call, shift: in which call it is (None outside of one), and in which repetition of a shift there (None outside)."""
    number: int
    begins: int
    table: WaveformTable
    letters: Mapping[str, str]
    label: str
    call: Optional[Call]
    shift: Optional[int]


class Moment(NamedTuple):
    """What happens to a pin at a time."""
    at: int
    pin: str
    does: str


class Expansion:
    """Goes through a program's pattern and keeps what pins have."""

    def __init__(self, program: Program) -> None:
        self.program = program
        self.pins_of: Dict[str, Tuple[str, ...]] = {signal.name: (signal.name,) for signal in program.signals}
        self.pins_of.update((group.name, group.members) for group in program.groups)
        declared = {signal.name for signal in program.signals}
        for group in program.groups:
            if not declared.issuperset(group.members):
                raise Refused(f"STIL: group {group.name} has other members than signals")
        self.tables = {table.name: table for table in program.tables}
        self.number, self.time, self.label = 0, 0, ""
        self.table: Optional[WaveformTable] = None
        self.letters: Dict[str, str] = {}

    def cycles(self) -> Iterator[Cycle]:
        """All cycles of the pattern, in their order."""
        for statement in self.program.pattern:
            if isinstance(statement, Call):
                yield from self.called(statement)
            else:
                yield from self.played(statement, None)

    def called(self, call: Call) -> Iterator[Cycle]:
        """The cycles of a procedure."""
        if call.procedure not in self.program.procedures:
            raise Refused(f"STIL: no procedure {call.procedure}")
        self.label = call.label or self.label
        kept = self.table, self.letters
        self.table, self.letters = None, {}
        for statement in self.program.procedures[call.procedure]:
            yield from self.played(statement, call)
        self.table, self.letters = kept

    def played(self, statement: Statement, call: Optional[Call]) -> Iterator[Cycle]:
        """The cycles of a statement that is no call."""
        if isinstance(statement, SetTable):
            if statement.name not in self.tables:
                raise Refused(f"STIL: no table {statement.name}")
            self.table = self.tables[statement.name]
        elif isinstance(statement, Vector):
            yield self.cycle(statement, call, None)
        elif isinstance(statement, Shift) and call is not None:
            for repetition in range(repetitions_of(statement, call)):
                yield self.cycle(statement.vector, call, repetition)
        else:
            raise Refused("STIL: a shift outside of a procedure, or a call inside of one")

    def cycle(self, vector: Vector, call: Optional[Call], repetition: Optional[int]) -> Cycle:
        """One cycle: letters of the vector, over those that pins have."""
        if self.table is None:
            raise Refused(f"STIL: cycle {self.number} has no table")
        self.letters = {**self.letters, **self.letters_of(vector, call, repetition)}
        cycle = Cycle(self.number, self.time, self.table, self.letters, self.label, call, repetition)
        self.number, self.time = self.number + 1, self.time + self.table.period
        return cycle

    def letters_of(self, vector: Vector, call: Optional[Call], repetition: Optional[int]) -> Dict[str, str]:
        """What a vector gives to pins. `#` is the call's letter of this repetition."""
        given: Dict[str, str] = {}
        for name, letters in vector.values.items():
            pins = self.pins_of.get(name, ())
            if len(pins) != len(letters) or given.keys() & set(pins):
                raise Refused(f"STIL: cycle {self.number}: {name} is none, has another number of pins, or has two letters")
            given.update(zip(pins, letters))
        for pin in [pin for pin, letter in given.items() if letter == "#"]:
            if call is None or repetition is None:
                raise Refused(f"STIL: cycle {self.number}: no call gives a letter to {pin}")
            given[pin] = call.values[pin][repetition]
        return given


def repetitions_of(shift: Shift, call: Call) -> int:
    """How many times a shift is repeated."""
    takers = [name for name, letters in shift.vector.values.items() if letters == "#"]
    if sorted(takers) != sorted(call.values):
        raise Refused("STIL: a call gives letters to other pins than the shift takes")
    lengths = {len(call.values[name]) for name in takers}
    if len(lengths) != 1:
        raise Refused("STIL: a call gives pins different numbers of letters")
    return lengths.pop()


def cycles_of(program: Program) -> Iterator[Cycle]:
    """The cycles of a program; Refused where a name in it is of nothing, or letters don't fit their pins."""
    return Expansion(program).cycles()


class Waves:
    """What happens in cycles, by their tables."""

    def __init__(self, program: Program) -> None:
        members = {group.name: group.members for group in program.groups}
        self.events: Dict[Tuple[str, str, str], Tuple[Event, ...]] = {}
        for table in program.tables:
            for waveform in table.waveforms:
                for pin in members.get(waveform.of, (waveform.of,)):
                    if self.events.setdefault((table.name, pin, waveform.letter), waveform.events) is not waveform.events:
                        raise Refused(f"STIL: table {table.name} has two waveforms for {waveform.letter} of {pin}")

    def moments(self, cycle: Cycle) -> List[Moment]:
        """What happens in a cycle, in the order of time."""
        moments = []
        for pin, letter in cycle.letters.items():
            events = self.events.get((cycle.table.name, pin, letter))
            if events is None:
                raise Refused(f"STIL: table {cycle.table.name} has no waveform for {letter} of {pin}")
            moments += [Moment(cycle.begins + event.at, pin, event.does) for event in events]
        return sorted(moments)
