"""Makes the STIL program that gives tests to a chip: each chain is loaded, the pair is launched and captured at speed, and each chain is
unloaded while the next test is loaded.

Two waveform tables: slow, to shift and to settle, and at_speed, whose period is the time from launch to sample. In both the clock's active
edge comes half a period after the cycle begins; in at_speed the inputs change at this same moment, and the outputs are strobed then, or as
much earlier as the words say. Each test's first vector, and that of load_unload, gives every pin a value, whatever a procedure keeps."""
from __future__ import annotations

from typing import Dict, Iterable, Iterator, List, Mapping, NamedTuple, Sequence, Tuple

from pdfgen_tools.bench import Circuit, Known
from pdfgen_tools.stil.applied import AppliedTests, bits_of, row_of, transposed
from pdfgen_tools.stil.chip import Chip, ScanChain
from pdfgen_tools.stil.model import (Call, Cell, Chain, Event, Group, Program, SetTable, Shift, Signal, Statement, Vector, Waveform,
                                     WaveformTable)

SLOW, AT_SPEED = "slow", "at_speed"
LOAD_UNLOAD = "load_unload"
LABEL = "test "  # in front of a test's number


class Timing(NamedTuple):
    """Periods in picoseconds. strobe: how long before the sampling edge outputs are compared."""
    slow: int
    at_speed: int
    strobe: int


class SetUp(NamedTuple):
    """A cycle before the first load, so many times: values of pins, which they keep for the cycles behind it, and whether the clock pulses."""
    times: int
    values: Mapping[str, int]
    pulses: bool


class Builder:
    """Makes the parts of a program for a chip. idle: the letter of each pin but the clock where nothing else is said."""

    def __init__(self, circuit: Circuit, chip: Chip, mode: str) -> None:
        self.circuit, self.chip, self.mode = circuit, chip, mode
        self.length = max(len(chain.cells) for chain in chip.chains)
        self.data_of = dict(circuit.flip_flops)
        members = {"inputs": [pin.name for pin in chip.moved_inputs()], "outputs": [pin.name for pin in chip.outputs], "held": list(chip.fixed()),
                   "scan_enables": [enable.name for enable in chip.enables], "scan_ins": chip.own_scan_ins(), "scan_outs": chip.own_scan_outs()}
        self.groups = {what: Group(chip.group_names[what], tuple(pins)) for what, pins in members.items() if pins}
        self.idle = {name: "0" for what in ("inputs", "scan_ins") for name in members[what]}
        self.idle.update((name, str(value)) for name, value in chip.fixed().items())
        self.idle.update((name, "X") for what in ("outputs", "scan_outs") for name in members[what])

    def program(self, title: str, notes: Sequence[str], timing: Timing, set_ups: Sequence[SetUp], batches: Iterable[AppliedTests]) -> Program:
        """The whole program."""
        pattern = [*self.set_up(set_ups), *self.tests(batches)]
        return Program(title, tuple(notes), self.signals(), tuple(self.groups.values()), tuple(self.chains()), self.tables(timing),
                       {LOAD_UNLOAD: self.load_unload()}, tuple(pattern))

    def signals(self) -> Tuple[Signal, ...]:
        """All pins, inputs first."""
        scan_ins = {chain.scan_in for chain in self.chip.chains}
        scan_outs = {chain.scan_out for chain in self.chip.chains}
        inputs = [self.chip.clock, *self.pins("scan_enables"), *self.pins("held"), *self.pins("inputs"), *self.pins("scan_ins")]
        outputs = [*self.pins("outputs"), *self.pins("scan_outs")]
        return (*(Signal(name, True, "ScanIn" if name in scan_ins else "") for name in inputs),
                *(Signal(name, False, "ScanOut" if name in scan_outs else "") for name in outputs))

    def pins(self, what: str) -> Tuple[str, ...]:
        return self.groups[what].members if what in self.groups else ()

    def chains(self) -> Iterator[Chain]:
        for place, chain in enumerate(self.chip.chains, 1):
            cells = tuple(Cell(cell.name, cell.inverted) for cell in chain.cells)
            yield Chain(f"chain{place}", cells, chain.inverted_out, chain.scan_in, chain.scan_out, self.chip.clock)

    def tables(self, timing: Timing) -> Tuple[WaveformTable, WaveformTable]:
        launch = timing.at_speed // 2
        return self.table(SLOW, timing.slow, 0, timing.slow * 2 // 5), self.table(AT_SPEED, timing.at_speed, launch, launch - timing.strobe)

    def table(self, name: str, period: int, inputs_at: int, strobe_at: int) -> WaveformTable:
        """A table in which inputs change, and outputs are compared, so long after a cycle begins."""
        idle, active = ("D", "U") if self.chip.rising else ("U", "D")
        pulse = (Event(0, idle), Event(period // 2, active), Event(period * 3 // 4, idle))
        waveforms = [Waveform(self.chip.clock, "0", pulse[:1]), Waveform(self.chip.clock, "P", pulse)]
        for what, group in self.groups.items():
            if what in ("outputs", "scan_outs"):
                waveforms += [Waveform(group.name, letter, (Event(0, "X"), Event(strobe_at, letter))) for letter in "LH"]
                waveforms.append(Waveform(group.name, "X", (Event(0, "X"),)))
            else:
                at = inputs_at if what == "inputs" else 0
                waveforms += [Waveform(group.name, letter, (Event(at, does),)) for letter, does in zip("01", "DU")]
        return WaveformTable(name, period, tuple(waveforms))

    def load_unload(self) -> Tuple[Statement, ...]:
        """How all chains are unloaded and loaded at once, a bit a cycle."""
        bits = {port: "#" for chain in self.chip.chains for port in (chain.scan_in, chain.scan_out)}
        return SetTable(SLOW), Vector(self.all_pins(self.enabled(True))), Shift(Vector({self.chip.clock: "P", **bits}))

    def enabled(self, shifting: bool) -> Dict[str, str]:
        """The values of the scan enables while the chains shift, or while they don't."""
        return {enable.name: str(enable.shifting if shifting else 1 - enable.shifting) for enable in self.chip.enables}

    def all_pins(self, letters: Mapping[str, str], clock: str = "0") -> Dict[str, str]:
        """Letters for all pins: those that aren't idle are told."""
        return {self.chip.clock: clock, **{group.name: "".join(letters.get(name) or self.idle[name] for name in group.members)
                                           for group in self.groups.values()}}

    def set_up(self, set_ups: Sequence[SetUp]) -> List[Statement]:
        """The cycles before the first load. Where the chip has resets of its own, they end with pulses enough to let go of these."""
        letters = self.enabled(False)
        statements: List[Statement] = [SetTable(SLOW)]
        cycles = [*set_ups, *([SetUp(self.chip.settling, self.chip.fixed(), True)] if self.chip.settling else [])]
        for times, values, pulses in cycles:
            letters.update((name, str(value)) for name, value in values.items())
            statements += times * [Vector(self.all_pins(letters, "P" if pulses else "0"))]
        return statements if cycles else []

    def tests(self, batches: Iterable[AppliedTests]) -> Iterator[Statement]:
        """The vectors of all tests: each load unloads what the test before it has captured."""
        unload = {chain.scan_out: "X" * self.length for chain in self.chip.chains}
        for batch in batches:
            loads, unloads = self.loads(batch), self.unloads(batch)
            inputs = [self.of_pins("inputs", values, batch) for values in (batch.pairs.before, batch.pairs.after)]
            launching, strobes = self.launching(batch), self.strobes(batch)
            for at in batch.kept:
                load = {chain.scan_in: strings[at] for chain, strings in zip(self.chip.chains, loads)}
                yield Call(f"{LABEL}{batch.pairs.tests[at].number}", LOAD_UNLOAD, {**load, **unload})
                yield from self.launch_and_capture(inputs[0][at], inputs[1][at], launching[at], strobes[at])
                unload = {chain.scan_out: strings[at] for chain, strings in zip(self.chip.chains, unloads)}
        yield Call("", LOAD_UNLOAD, {**{chain.scan_in: "0" * self.length for chain in self.chip.chains}, **unload})

    def loads(self, batch: AppliedTests) -> List[Sequence[str]]:
        """For each chain what is shifted in, of each test, the first bit first: a shorter chain begins later."""
        return [transposed(["0" * batch.pairs.count] * (self.length - len(chain.cells))
                           + [row_of(self.at_scan_in(chain, place, batch.pairs.before[chain.cells[place].line], batch), batch.pairs.count)
                              for place in reversed(range(len(chain.cells)))], batch.pairs.count) for chain in self.chip.chains]

    def at_scan_in(self, chain: ScanChain, place: int, value: Known, batch: AppliedTests) -> int:
        """What a chain's scan input has where the cell at a place is to get a value."""
        is_inverted = sum(cell.inverted for cell in chain.cells[:place + 1]) % 2
        return value.zeros if is_inverted else value.ones

    def unloads(self, batch: AppliedTests) -> List[Sequence[str]]:
        """For each chain what comes out when it has captured, of each test, the first bit first: a shorter chain ends earlier."""
        return [transposed([self.at_scan_out(chain, place, batch) for place in reversed(range(len(chain.cells)))]
                           + ["X" * batch.pairs.count] * (self.length - len(chain.cells)), batch.pairs.count) for chain in self.chip.chains]

    def at_scan_out(self, chain: ScanChain, place: int, batch: AppliedTests) -> str:
        """What comes out of the cell at a place, under each test."""
        line = self.data_of[chain.cells[place].line]
        is_inverted = (sum(cell.inverted for cell in chain.cells[place + 1:]) + chain.inverted_out) % 2
        value = batch.pairs.after[line]
        return bits_of(Known(value.ones, value.zeros) if is_inverted else value, batch.compared.get(line, 0), batch.pairs.count)

    def of_pins(self, what: str, values: Sequence[Known], batch: AppliedTests) -> Sequence[str]:
        """What a group of NET's inputs has, of each test."""
        line_of = {pin.name: pin.line for pin in self.chip.inputs}
        return transposed([row_of(values[line_of[name]].ones, batch.pairs.count) for name in self.pins(what)], batch.pairs.count)

    def launching(self, batch: AppliedTests) -> Sequence[str]:
        """What scan inputs of their own have at the launch, of each test: in mode skewed its shift takes that in."""
        own = set(self.chip.own_scan_ins())
        chains = [chain for chain in self.chip.chains if chain.scan_in in own]
        if self.mode != "skewed":
            return ["0" * len(chains)] * batch.pairs.count
        return transposed([row_of(self.at_scan_in(chain, 0, batch.pairs.after[chain.cells[0].line], batch), batch.pairs.count) for chain in chains],
                          batch.pairs.count)

    def strobes(self, batch: AppliedTests) -> Sequence[str]:
        """What outputs are compared with, of each test."""
        return transposed([bits_of(batch.pairs.after[pin.line], batch.at_outputs.get(pin.line, 0), batch.pairs.count) for pin in self.chip.outputs],
                          batch.pairs.count)

    def launch_and_capture(self, first: str, second: str, launching: str, strobes: str) -> List[Statement]:
        """The cycles from the first vector to the sample. The last shift launches in mode skewed, the first capture in mode broadside."""
        clock = self.chip.clock
        settle = self.all_pins({**self.enabled(self.mode == "skewed"), **dict(zip(self.pins("inputs"), first)),
                                **dict(zip(self.pins("scan_ins"), launching))})
        return [SetTable(SLOW), Vector(settle), SetTable(AT_SPEED), Vector({clock: "P", **self.of_group("inputs", second)}),
                Vector({clock: "P", **self.of_group("scan_enables", "".join(self.enabled(False).values())), **self.of_group("outputs", strobes)})]

    def of_group(self, what: str, letters: str) -> Dict[str, str]:
        """A group with its letters, or nothing where the chip has no such group."""
        return {self.groups[what].name: letters} if what in self.groups else {}
