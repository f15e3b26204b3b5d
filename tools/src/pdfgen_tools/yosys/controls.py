"""What the tester holds: the clock, ports at a value, and the flip-flops that settle by themselves while these are held.

Resets are held inactive. A reset that comes from a synchronizer, flip-flops that take over a constant one behind the other, is inactive
once the real port is and a few clocks went by; so the port is held, and these flip-flops are settled."""
from __future__ import annotations

import re
from typing import Dict, List, NamedTuple, Optional, Sequence, Set, Tuple

from pdfgen_tools.errors import Refused
from pdfgen_tools.yosys.json_file import Bit, Wire, YosysCell
from pdfgen_tools.yosys.naming import NetNames

FLIP_FLOP = re.compile(r"\$_DFF_([PN])(?:([PN])[01])?_")
EDGES = {"P": "rising", "N": "falling"}
INVERTING = {"$_NOT_": True, "$_BUF_": False}
ALL_PINS_AT = {("$_AND_", 1): 1, ("$_NAND_", 0): 1, ("$_OR_", 0): 0, ("$_NOR_", 1): 0}  # a gate's value that settles all its pins


class Roles(NamedTuple):
    """clock: its net and its edge, None without flip-flops. values: of nets that are held or settled. settled: outputs of flip-flops."""
    clock: Optional[Tuple[int, str]]
    values: Dict[int, int]
    settled: Set[int]

    def value(self, bit: Bit) -> Optional[int]:
        """The value of a bit that never changes, or None."""
        return int(bit) if isinstance(bit, str) else self.values.get(bit)


def is_flip_flop(cell: YosysCell) -> bool:
    return FLIP_FLOP.fullmatch(cell.kind) is not None


def clock_of(flip_flops: Sequence[YosysCell], inputs: Set[int], names: NetNames) -> Optional[Tuple[int, str]]:
    """The one clock of all flip-flops, an input port."""
    clocks = {(cell.net("C"), EDGES[cell.kind[6]]) for cell in flip_flops}
    if len(clocks) > 1:
        raise Refused("flip-flops have several clocks, or both edges of one")
    for net, _ in clocks:
        if net not in inputs:
            raise Refused(f"the clock {names.lines.get(net, net)} is no input port")
    return next(iter(clocks), None)


class Holding:
    """Which nets have to have which values so that no reset is active. Each demand is followed back to ports, constants and flip-flops."""

    def __init__(self, flip_flops: Sequence[YosysCell], gates: Sequence[YosysCell], inputs: Set[int], held: Dict[int, int], names: NetNames) -> None:
        self.drivers = {**{cell.net("Q"): cell for cell in flip_flops}, **{cell.net("Y"): cell for cell in gates}}
        self.inputs, self.names = inputs, names
        self.values = dict(held)
        self.settled: Set[int] = set()
        self.demands: Dict[int, List[int]] = {}  # the nets that settle a net

    def told(self, bit: Bit) -> str:
        return f"a constant {bit}" if isinstance(bit, str) else self.names.lines.get(bit, str(bit))

    def release(self, cell: YosysCell) -> None:
        """Holds the reset of a flip-flop inactive."""
        active = cell.kind[7]
        left: List[Tuple[Bit, int]] = [(cell.bit("R"), 0 if active == "P" else 1)]
        while left:
            bit, value = left.pop()
            known = int(bit) if isinstance(bit, str) else self.values.get(bit)
            if known is None and not isinstance(bit, str):
                self.values[bit] = value
                behind = self.behind(bit, value)
                self.demands[bit] = [net for net, _ in behind if isinstance(net, int)]
                left += behind
            elif known != value:
                raise Refused(f"cell {cell.name}: its reset is active while {self.told(bit)} is {known}, as it has to be held")

    def refuse_loops(self) -> None:
        """Refuses a net that has its value only if it had it before."""
        left = list(self.demands)
        grounded: Set[int] = set()
        while left:
            still = []
            for net in reversed(left):
                if all(behind in grounded or behind not in self.demands for behind in self.demands[net]):
                    grounded.add(net)
                else:
                    still.append(net)
            if len(still) == len(left):
                raise Refused(f"the reset {self.told(left[0])} settles at no value")
            left = still[::-1]

    def behind(self, net: int, value: int) -> List[Tuple[Bit, int]]:
        """What has to be so that a net has this value, where that is one demand alone."""
        if net in self.inputs:
            return []
        driver = self.drivers.get(net)
        if driver is not None and is_flip_flop(driver):
            self.settled.add(net)
            return [(driver.bit("D"), value)]
        if driver is not None and driver.kind in INVERTING:
            return [(driver.bit("A"), value ^ INVERTING[driver.kind])]
        if driver is not None and (driver.kind, value) in ALL_PINS_AT:
            return [(driver.bit(pin), ALL_PINS_AT[driver.kind, value]) for pin in ("A", "B")]
        raise Refused(f"the reset {self.told(net)} is no input port, nor held by a synchronizer (hold its ports: --hold PIN={value})")


def roles_of(ports: Sequence[Wire], flip_flops: Sequence[YosysCell], gates: Sequence[YosysCell], names: NetNames, held: Dict[int, int]) -> Roles:
    """What the tester holds of a module. held: nets of input ports that the call gives a value."""
    inputs = {bit for port in ports if port.direction == "input" for bit in port.bits if isinstance(bit, int)}
    clock = clock_of(flip_flops, inputs, names)
    holding = Holding(flip_flops, gates, inputs, held, names)
    for cell in flip_flops:
        if "R" in cell.pins:
            holding.release(cell)
    holding.refuse_loops()
    if clock is not None and clock[0] in holding.values:
        raise Refused(f"the clock {names.lines.get(clock[0])} is held, or a reset")
    return Roles(clock, holding.values, holding.settled)
