"""One name in NET for each net of a module, and the further names that the design has for it."""
from __future__ import annotations

import re
from typing import Dict, List, NamedTuple, Set, Tuple

from pdfgen_tools.errors import Refused
from pdfgen_tools.names import escaped
from pdfgen_tools.yosys.json_file import Module, Wire

ENUMERATED = re.compile("_[0-9]+_")  # what `rename -enumerate` of yosys makes of names that it gave itself


class NetNames(NamedTuple):
    """lines: a net's name in NET. aliases: the other names that the design has for it, none of which another net has, too."""
    lines: Dict[int, str]
    aliases: Dict[int, List[str]]

    def line(self, net: int) -> str:
        """The name of a net's line; Refused where it has none."""
        if net not in self.lines:
            raise Refused(f"net {net} has no name, or only one that another net has")
        return self.lines[net]


def is_of_design(wire: Wire) -> bool:
    """Whether the design gave the name, and not yosys."""
    return wire.shown and not ENUMERATED.fullmatch(wire.name)


def names_of_nets(module: Module) -> NetNames:
    """A name for each net: that of a port, else one of the design's, else one that yosys gave."""
    wires = [*module.ports, *sorted(module.nets, key=lambda net: (not net.shown, not is_of_design(net)))]
    names = [(escaped(name), bit, is_of_design(wire)) for wire in wires for name, bit in wire.named_bits() if isinstance(bit, int)]
    lines: Dict[int, str] = {}
    taken: Set[str] = set()
    for name, net, _ in names:
        if net not in lines and name not in taken:
            lines[net] = name
            taken.add(name)
    return NetNames(lines, aliases_of([(name, net) for name, net, designs in names if designs], lines))


def aliases_of(names: List[Tuple[str, int]], lines: Dict[int, str]) -> Dict[int, List[str]]:
    """Those of the design's names that are no line's and speak of one net alone."""
    nets_of: Dict[str, Set[int]] = {}
    for name, net in names:
        nets_of.setdefault(name, set()).add(net)
    taken = set(lines.values())
    aliases: Dict[int, List[str]] = {}
    for name, nets in nets_of.items():
        if len(nets) == 1 and name not in taken:
            aliases.setdefault(min(nets), []).append(name)
    return aliases
