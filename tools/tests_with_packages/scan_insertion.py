"""Puts scan chains into a design that yosys has mapped, as a tool for that does, and gives its cells delays: the chip that STIL is played on."""
from __future__ import annotations

import json
from typing import Any, Dict, List, NamedTuple, Sequence, Tuple

GATES = {"BUF": "A", "NOT": "~A", "AND": "A & B", "NAND": "~(A & B)", "OR": "A | B", "NOR": "~(A | B)", "XOR": "A ^ B", "XNOR": "~(A ^ B)",
         "MUX": "S ? B : A"}


class Plan(NamedTuple):
    """chains: cells from the scan-in side. enable: a port and its value while chains shift. scan_ins, scan_outs: ports, new ones or some that
    the design has. inverted: cells in front of which their chain inverts; inverted_outs: scan outputs in front of which it does."""
    chains: Sequence[Sequence[str]]
    enable: Tuple[str, int]
    scan_ins: Sequence[str]
    scan_outs: Sequence[str]
    inverted: Sequence[str] = ()
    inverted_outs: Sequence[str] = ()


class Insertion:
    """A module of yosys' JSON, to which cells and ports are added."""

    def __init__(self, text: str, top: str) -> None:
        self.text: Dict[str, Any] = json.loads(text)
        self.module: Dict[str, Any] = self.text["modules"][top]
        bits = [bit for cell in self.module["cells"].values() for pins in cell["connections"].values() for bit in pins if isinstance(bit, int)]
        self.last = max(bits + [bit for port in self.module["ports"].values() for bit in port["bits"] if isinstance(bit, int)])

    def net(self) -> int:
        self.last += 1
        return self.last

    def cell(self, kind: str, **pins: int) -> int:
        """A new cell; its output's net."""
        output = self.net()
        connections = {**{pin: [net] for pin, net in pins.items()}, "Y": [output]}
        self.module["cells"][f"scan_{output}"] = {
            "hide_name": 0, "type": f"$_{kind}_", "parameters": {}, "attributes": {},
            "port_directions": {pin: "output" if pin == "Y" else "input" for pin in connections}, "connections": connections}
        return output

    def place_of(self, name: str) -> Tuple[List[Any], int]:
        """The bits of a port, and which of them has this name."""
        base, _, index = name.partition("[")
        port = self.module["ports"][base]
        place = int(index[:-1]) - port.get("offset", 0) if index else 0
        return port["bits"], len(port["bits"]) - 1 - place if port.get("upto") and index else place

    def is_port(self, name: str) -> bool:
        return name.partition("[")[0] in self.module["ports"]

    def input(self, name: str) -> int:
        """The net of an input port, a new one if the design has none of this name."""
        if self.is_port(name):
            bits, place = self.place_of(name)
            net: int = bits[place]
            return net
        net = self.net()
        self.module["ports"][name] = {"direction": "input", "bits": [net]}
        return net

    def insert(self, plan: Plan) -> str:
        """The text with scan."""
        enable = self.input(plan.enable[0])
        shifting = enable if plan.enable[1] else self.cell("NOT", A=enable)
        for chain, scan_in, scan_out in zip(plan.chains, plan.scan_ins, plan.scan_outs):
            before = self.input(scan_in)
            for name in chain:
                pins = self.module["cells"][name]["connections"]
                entering = self.cell("NOT", A=before) if name in plan.inverted else before
                pins["D"] = [self.cell("MUX", A=pins["D"][0], B=entering, S=shifting)]
                before = pins["Q"][0]
            self.output(scan_out, self.cell("NOT" if scan_out in plan.inverted_outs else "BUF", A=before), shifting)
        return json.dumps(self.text)

    def output(self, name: str, net: int, shifting: int) -> None:
        """An output port for a chain: a new one, or one of the design's, which shows the chain while it shifts."""
        if self.is_port(name):
            bits, place = self.place_of(name)
            bits[place] = self.cell("MUX", A=bits[place], B=net, S=shifting)
            self.module["netnames"].pop(name.partition("[")[0], None)  # it would name the net in front of the multiplexer
        else:
            self.module["ports"][name] = {"direction": "output", "bits": [net]}


def library(delay: int, clock_to_q: int) -> str:
    """The cells in Verilog, with delays in picoseconds; D of a cell is another one."""
    text = ["`timescale 1ps/1ps"]
    for kind, value in GATES.items():
        pins = ", ".join(pin for pin in "ABS" if pin in value)
        text.append(f"module \\$_{kind}_ (input {pins}, output Y); parameter D = {delay}; assign #D Y = {value}; endmodule")
    for edge, on in (("P", "posedge"), ("N", "negedge")):
        text.append(f"module \\$_DFF_{edge}_ (input C, D, output reg Q); always @({on} C) Q <= #{clock_to_q} D; endmodule")
        for active, of in (("P", "posedge"), ("N", "negedge")):
            for value in "01":
                text.append(f"module \\$_DFF_{edge}{active}{value}_ (input C, D, R, output reg Q); always @({on} C or {of} R) "
                            f"if ({'' if active == 'P' else '!'}R) Q <= #{clock_to_q} {value}; else Q <= #{clock_to_q} D; endmodule")
    return "\n".join(text) + "\n"
