"""What a tester needs to know of a chip: its pins, by MAP or by NET alone, its chains, and what it keeps fixed."""
from __future__ import annotations

import argparse
import os
import re
from typing import Dict, FrozenSet, List, Mapping, NamedTuple, Optional, Sequence, Tuple

from pdfgen_tools.bench import Circuit
from pdfgen_tools.errors import Refused
from pdfgen_tools.names import Held, Map, Port, unescaped
from pdfgen_tools.stil.model import Namespace, cell_names


class Pin(NamedTuple):
    """A pin of the chip that is a line of NET."""
    name: str
    line: int


class Enable(NamedTuple):
    """A scan enable, and its value while the chains shift."""
    name: str
    shifting: int


class ScanCell(NamedTuple):
    """A flip-flop of a chain: its line, its name in STIL, and whether an inversion stands in front of it."""
    line: int
    name: str
    inverted: bool


class ScanChain(NamedTuple):
    """A chain from its scan-in side. inverted_out: whether an inversion stands behind the last cell."""
    cells: Tuple[ScanCell, ...]
    inverted_out: bool
    scan_in: str
    scan_out: str


class Chip(NamedTuple):
    """rising: whether the clock's rising edge is the active one. inputs, outputs: pins that are lines of NET; held: values of the other
    inputs. forced: values that inputs of NET keep. unscanned: flip-flops on no chain. settling: pulses until the chip's own synchronizers
    have let go of its resets. group_names: what STIL calls each group."""
    clock: str
    rising: bool
    inputs: Tuple[Pin, ...]
    outputs: Tuple[Pin, ...]
    held: Mapping[str, int]
    forced: Mapping[int, int]
    enables: Tuple[Enable, ...]
    chains: Tuple[ScanChain, ...]
    unscanned: FrozenSet[int]
    settling: int
    group_names: Mapping[str, str]

    def moved_inputs(self) -> List[Pin]:
        """The inputs to which tests give values."""
        return [pin for pin in self.inputs if pin.line not in self.forced]

    def fixed(self) -> Dict[str, int]:
        """The pins that keep one value, in their order, but for scan enables."""
        enables = {enable.name for enable in self.enables}
        forced = {pin.name: self.forced[pin.line] for pin in self.inputs if pin.line in self.forced}
        return {name: value for name, value in {**self.held, **forced}.items() if name not in enables}

    def own_scan_ins(self) -> List[str]:
        """The scan inputs that are no inputs of NET."""
        shared = {pin.name for pin in self.inputs}
        return [chain.scan_in for chain in self.chains if chain.scan_in not in shared]

    def own_scan_outs(self) -> List[str]:
        """The scan outputs that are no outputs of NET."""
        shared = {pin.name for pin in self.outputs}
        return [chain.scan_out for chain in self.chains if chain.scan_out not in shared]


class ChipWords(NamedTuple):
    """What the words of a call say of a chip. holds: pairs of a pin and a value. inverted: flip-flops, by NET's names, in front of which
    their chain inverts; inverted_outs: scan outputs in front of which it does. unscanned: flip-flops on no chain, by NET's names."""
    clock: Optional[str]
    holds: Sequence[Tuple[str, int]]
    enables: Sequence[Tuple[str, int]]
    scan_ins: Sequence[str]
    scan_outs: Sequence[str]
    inverted: Sequence[str]
    inverted_outs: Sequence[str]
    unscanned: Sequence[str]


NAMES_TOLD = 20
GROUPS = ("inputs", "outputs", "held", "scan_enables", "scan_ins", "scan_outs")


def chip_of(circuit: Circuit, map_: Optional[Map], chains: Sequence[Sequence[int]], words: ChipWords) -> Chip:
    """The chip of a netlist; map_ is None where ports are called as in NET. chains has the flip-flops on chains, and, where words call
    some unscanned, each of these alone or not at all. Refused where a pin has two uses that don't go together, or no value at all."""
    clock, rising, inputs, outputs, held = pins_of(circuit, map_, words.clock)
    unscanned = flip_flops_called(words.unscanned, circuit, "--unscanned")
    scanned = [chain for chain in chains if not unscanned.intersection(chain)]
    for lines in chains:
        if len(lines) > 1 and unscanned.intersection(lines):
            raise Refused(f"SCAN: {next(circuit.names[line] for line in lines if line in unscanned)} stands in a chain, and is called unscanned")
    if not scanned:
        raise Refused("NET: no flip-flop on a chain, so nothing to load")
    shared_outs = {pin.name for pin in outputs} & set(words.scan_outs)
    scan_chains = scan_chains_of(circuit, map_, scanned, words)
    enables = tuple(Enable(*enable) for enable in words.enables or [("scan_enable", 1)])
    forced = forced_inputs(inputs, held, enables, words)
    moved = {pin.name for pin in inputs if pin.line not in forced}
    shared_ins = moved & set(words.scan_ins)
    refuse_unread(circuit, inputs, forced, shared_ins)
    names = Namespace()
    names.signal(clock, "the clock")
    for what, pins in (("input", inputs), ("output", outputs)):
        for pin in pins:
            names.signal(pin.name, f"{what} {pin.name}")
    for name in held:
        names.signal(name, f"held pin {name}")
    for enable in enables:
        if enable.name not in {pin.name for pin in inputs}:
            names.signal(enable.name, f"scan enable {enable.name}")
    for chain in scan_chains:
        if chain.scan_in not in shared_ins:
            names.signal(chain.scan_in, f"scan input {chain.scan_in}")
        if chain.scan_out not in shared_outs:
            names.signal(chain.scan_out, f"scan output {chain.scan_out}")
    settling = len(map_.settled) if map_ else 0
    return Chip(clock, rising, inputs, outputs, held, forced, enables, scan_chains, unscanned, settling, {name: names.group(name) for name in GROUPS})


def pins_of(circuit: Circuit, map_: Optional[Map], clock: Optional[str]) -> Tuple[str, bool, Tuple[Pin, ...], Tuple[Pin, ...], Dict[str, int]]:
    """The clock and whether it is active as it rises, inputs, outputs, and the values of held pins."""
    if map_ is None:
        inputs, outputs = (tuple(Pin(circuit.names[line], line) for line in lines) for lines in (circuit.inputs, circuit.outputs))
        return clock or "clock", True, inputs, outputs, {}
    if len(map_.clocks) != 1:
        raise Refused("MAP: not one clock")
    if clock is not None:
        raise Refused("--clock: MAP names the clock")
    inputs, outputs = (tuple(pin_of(port, circuit) for port in ports) for ports in (map_.inputs, map_.outputs))
    if sorted(pin.line for pin in inputs) != circuit.inputs or {pin.line for pin in outputs} != set(circuit.outputs):
        raise Refused("MAP: its inputs or outputs aren't those of NET")
    return unescaped(map_.clocks[0].port), map_.clocks[0].edge == "rising", inputs, outputs, held_of(map_.held)


def pin_of(port: Port, circuit: Circuit) -> Pin:
    if port.line not in circuit.line_of:
        raise Refused(f"MAP: {port.name} isn't of NET")
    return Pin(unescaped(port.name), circuit.line_of[port.line])


def held_of(rows: Sequence[Held]) -> Dict[str, int]:
    """The values of held pins."""
    held = {unescaped(row.name): row.value for row in rows}
    if len(held) < len(rows):
        raise Refused("MAP: two held pins have one name")
    return held


def flip_flops_called(names: Sequence[str], circuit: Circuit, option: str) -> FrozenSet[int]:
    """The lines of flip-flops, by NET's names."""
    flip_flops = {circuit.names[flip_flop.line]: flip_flop.line for flip_flop in circuit.flip_flops}
    for name in names:
        if name not in flip_flops:
            raise Refused(f"{option}: no flip-flop {name} in NET")
    return frozenset(flip_flops[name] for name in names)


def scan_chains_of(circuit: Circuit, map_: Optional[Map], chains: Sequence[Sequence[int]], words: ChipWords) -> Tuple[ScanChain, ...]:
    """The chains with their ports."""
    scan_ins = list(words.scan_ins) or [f"scan_in{place}" for place in range(1, len(chains) + 1)]
    scan_outs = list(words.scan_outs) or [f"scan_out{place}" for place in range(1, len(chains) + 1)]
    for option, ports in (("--scan-in", scan_ins), ("--scan-out", scan_outs)):
        if len(ports) != len(chains) or len(set(ports)) < len(ports):
            raise Refused(f"{option}: {len(chains)} chains have {len(ports)} ports, or two have the same")
    inverted = flip_flops_called(words.inverted, circuit, "--inverted")
    for line in inverted.difference(*chains):
        raise Refused(f"--inverted: {circuit.names[line]} is on no chain")
    for name in words.inverted_outs:
        if name not in scan_outs:
            raise Refused(f"--inverted-out: no scan output {name}")
    order = [flip_flop.line for flip_flop in circuit.flip_flops]
    names = dict(zip(order, cell_names((unescaped(circuit.names[line]) if map_ else circuit.names[line], circuit.names[line]) for line in order)))
    return tuple(ScanChain(tuple(ScanCell(line, names[line], line in inverted) for line in chain), scan_out in words.inverted_outs, scan_in, scan_out)
                 for chain, scan_in, scan_out in zip(chains, scan_ins, scan_outs))


def forced_inputs(inputs: Sequence[Pin], held: Dict[str, int], enables: Sequence[Enable], words: ChipWords) -> Dict[int, int]:
    """The values that inputs of NET keep. Pins of --hold that are none go to held."""
    line_of = {pin.name: pin.line for pin in inputs}
    forced = {line_of[enable.name]: 1 - enable.shifting for enable in enables if enable.name in line_of}
    for name, value in words.holds:
        if name in words.scan_ins or name in [enable.name for enable in enables]:
            raise Refused(f"--hold {name}: a scan port")
        known = held.setdefault(name, value) if name not in line_of else forced.setdefault(line_of[name], value)
        if known != value:
            raise Refused(f"--hold {name}: held at {known} as well")
    return forced


def refuse_unread(circuit: Circuit, inputs: Sequence[Pin], forced: Mapping[int, int], scan_ins: "set[str]") -> None:
    """Refuses inputs that tests give values by chance: nothing in NET reads them, and no word says what they should have."""
    read = {line for gate in circuit.gates for line in gate.pins}.union(circuit.observed, forced)
    unread = [pin.name for pin in inputs if pin.line not in read and pin.name not in scan_ins]
    if unread:
        names = " ".join(unread[:NAMES_TOLD]) + (f" and {len(unread) - NAMES_TOLD} more" if len(unread) > NAMES_TOLD else "")
        raise Refused(f"NET: nothing reads the inputs {names}: no test says what such a one has to be, and it may be a reset of what was cut away "
                      "(--hold PIN=VALUE)")


def word_as_bytes(word: str) -> str:
    """A word of a call with a letter for each byte, as names of a design have."""
    return os.fsencode(word).decode("latin-1")


def pin_and_value(word: str) -> Tuple[str, int]:
    """PIN=0 or PIN=1, as an argument of argparse."""
    found = re.fullmatch("(.+)=([01])", word_as_bytes(word), re.DOTALL)
    if found is None:
        raise argparse.ArgumentTypeError(f"{word} is no PIN=0 or PIN=1")
    return found[1], int(found[2])


def refuse_read_enables(circuit: Circuit, chip: Chip) -> None:
    """Refuses a scan enable that NET reads: in mode skewed it changes between launch and sample, and NET's tests don't know that."""
    read = {line for gate in circuit.gates for line in gate.pins}.union(circuit.observed)
    for enable in chip.enables:
        for pin in chip.inputs:
            if pin.name == enable.name and pin.line in read:
                raise Refused(f"NET reads the scan enable {enable.name}, which in mode skewed changes between launch and sample")
