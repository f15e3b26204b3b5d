"""Reads a module of the JSON that `write_json` of yosys writes: its ports, nets and cells."""
from __future__ import annotations

import json
from typing import Dict, Iterator, List, NamedTuple, Optional, Sequence, Tuple, Union

from pdfgen_tools.errors import Refused

Bit = Union[int, str]  # a net's number, or a constant: "0", "1", "x", "z"
NOT_OF_YOSYS = "JSON: not what yosys writes"
CONSTANTS = ("0", "1", "x", "z")


class Wire(NamedTuple):
    """A port or a net of several bits, the lowest first. upto: whether its range counts up, as [0:3]. direction: of a port; shown: of a
    net, whether its name is the design's."""
    name: str
    bits: Sequence[Bit]
    offset: int
    upto: bool
    direction: str
    shown: bool

    def named_bits(self) -> Iterator[Tuple[str, Bit]]:
        """The name of each bit, beside its net."""
        if len(self.bits) == 1 and self.offset == 0:
            yield self.name, self.bits[0]
            return
        places = range(self.offset, self.offset + len(self.bits))
        for place, bit in zip(reversed(places) if self.upto else places, self.bits):
            yield f"{self.name}[{place}]", bit


class YosysCell(NamedTuple):
    """A cell: its name, its kind as `$_AND_`, and what its pins are connected to."""
    name: str
    kind: str
    pins: Dict[str, Sequence[Bit]]

    def bit(self, pin: str) -> Bit:
        """What is at a pin of one bit; Refused where nothing or an undefined value is."""
        bits = self.pins.get(pin, [])
        if len(bits) != 1:
            raise Refused(f"cell {self.name} pin {pin}: not connected")
        if bits[0] in ("x", "z"):
            raise Refused(f"cell {self.name} pin {pin}: undriven in the design ({bits[0]})")
        return bits[0]

    def net(self, pin: str) -> int:
        """The net at a pin that has to have one."""
        bit = self.bit(pin)
        if isinstance(bit, str):
            raise Refused(f"cell {self.name} pin {pin}: a constant")
        return bit


class Module(NamedTuple):
    ports: List[Wire]
    nets: List[Wire]
    cells: List[YosysCell]


def module_of(text: str, top: Optional[str]) -> Module:
    """The module to be written: that of this name, else the one marked as top, else the only one."""
    modules = members(object_of(text).get("modules"))
    found = {name: members(module) for name, module in modules.items()}
    marked = [name for name, module in found.items() if "top" in members(module.get("attributes"))]
    tops = [top] if top is not None else marked or list(found)
    if len(tops) != 1 or tops[0] not in found:
        raise Refused("JSON: which module is the top? (--top NAME)")
    module = found[tops[0]]
    ports = [wire_of(name, members(port), is_port=True) for name, port in members(module.get("ports")).items()]
    nets = [wire_of(name, members(net), is_port=False) for name, net in members(module.get("netnames")).items()]
    return Module(ports, nets, [cell_of(name, members(cell)) for name, cell in members(module.get("cells")).items()])


def object_of(text: str) -> Dict[str, object]:
    """The object that a text spells, in which no name stands twice."""
    try:
        found = json.loads(text)
        if text.count('":') != count_of_names(found):  # a name stands twice, or one has these two letters: look at each
            found = json.loads(text, object_pairs_hook=once_each)
        return members(found)
    except (ValueError, RecursionError):
        raise Refused(NOT_OF_YOSYS)


def count_of_names(part: object) -> int:
    """How many names all objects in a part have."""
    count, left = 0, [part]
    for inside in left:
        if isinstance(inside, dict):
            count += len(inside)
            left += [value for value in inside.values() if type(value) is dict or type(value) is list]
        elif isinstance(inside, list):
            left += [value for value in inside if type(value) is dict or type(value) is list]
    return count


def once_each(pairs: List[Tuple[str, object]]) -> Dict[str, object]:
    found = dict(pairs)
    if len(found) < len(pairs):
        raise ValueError("a name twice")
    return found


def members(part: object) -> Dict[str, object]:
    """A part that has to be an object."""
    if not isinstance(part, dict):
        raise Refused(NOT_OF_YOSYS)
    return part


def bits_of(part: object) -> Sequence[Bit]:
    """A part that has to be a list of bits."""
    if not isinstance(part, list) or not all(type(bit) is int or bit in CONSTANTS for bit in part):
        raise Refused(NOT_OF_YOSYS)
    return part


def number_of(part: object) -> int:
    """A part that has to be an integer."""
    if type(part) is not int:
        raise Refused(NOT_OF_YOSYS)
    return part


def word_of(part: object) -> str:
    """A part that has to be a string."""
    if not isinstance(part, str):
        raise Refused(NOT_OF_YOSYS)
    return part


def wire_of(name: str, part: Dict[str, object], is_port: bool) -> Wire:
    """The port or the net that an object tells."""
    direction = word_of(part.get("direction")) if is_port else ""
    shown = is_port or number_of(part.get("hide_name")) == 0
    return Wire(name, bits_of(part.get("bits")), number_of(part.get("offset", 0)), number_of(part.get("upto", 0)) != 0, direction, shown)


def cell_of(name: str, part: Dict[str, object]) -> YosysCell:
    """The cell that an object tells."""
    pins = {pin: bits_of(bits) for pin, bits in members(part.get("connections")).items()}
    return YosysCell(name, word_of(part.get("type")), pins)
