"""SDF that OpenSTA writes for examples/chip as yosys maps it: all pins and wires are told, with the times of the library."""
from __future__ import annotations

from typing import Dict, Tuple

from opensta import UNITS
from packages import EXAMPLES, ToolTest, called, printed
from pdfgen_tools.bench import INVERTING, circuit_of
from pdfgen_tools.cli import from_yosys, sdf
from pdfgen_tools.names import map_of

FUNCTIONS = {"NOT": "!A", "BUF": "A", "AND": "A&B", "NAND": "!(A&B)", "OR": "A|B", "NOR": "!(A|B)", "XOR": "A^B", "XNOR": "!(A^B)"}
SETUP, CLOCK_TO_Q = (31, 27), (48, 15)  # rise and fall, in picoseconds


def times(kind: str, pin: str) -> Tuple[int, int]:
    """How long the output of a gate takes to rise and to fall, in picoseconds."""
    at = 2 * list(FUNCTIONS).index(kind) + "AB".index(pin)
    return 10 + at, 50 + 3 * at


def tables(names: Tuple[str, str], values: Tuple[int, int]) -> str:
    return " ".join(f'{name} (scalar) {{ values ("{value}.0"); }}' for name, value in zip(names, values))


def delays(values: Tuple[int, int]) -> str:
    return f"{tables(('cell_rise', 'cell_fall'), values)} {tables(('rise_transition', 'fall_transition'), (0, 0))}"


def gate(kind: str) -> str:
    """A gate of yosys in Liberty."""
    pins = "AB" if "B" in FUNCTIONS[kind] else "A"
    sense = "non_unate" if kind in ("XOR", "XNOR") else "negative_unate" if kind in INVERTING else "positive_unate"
    arcs = " ".join(f'timing () {{ related_pin : "{pin}"; timing_sense : {sense}; {delays(times(kind, pin))} }}' for pin in pins)
    inputs = " ".join(f"pin ({pin}) {{ direction : input; capacitance : 0.0; }}" for pin in pins)
    return f'cell ("$_{kind}_") {{ {inputs} pin (Y) {{ direction : output; function : "{FUNCTIONS[kind]}"; {arcs} }} }}\n'


def flip_flop(kind: str, has_reset: bool) -> str:
    """A flip-flop of yosys in Liberty."""
    limits = tables(("rise_constraint", "fall_constraint"), SETUP)
    checks = " ".join(f'timing () {{ related_pin : "C"; timing_type : {check}_rising; {limits} }}' for check in ("setup", "hold"))
    reset = f'pin (R) {{ direction : input; capacitance : 0.0; timing () {{ related_pin : "C"; timing_type : recovery_rising; {limits} }} }}'
    clear = f'timing () {{ related_pin : "R"; timing_type : clear; timing_sense : positive_unate; {delays((1, 1))} }}'
    return (f'cell ("{kind}") {{ ff (IQ, IQN) {{ clocked_on : "C"; next_state : "D"; {"clear : " + chr(34) + "!R" + chr(34) + ";" if has_reset else ""} }}\n'
            f"pin (C) {{ direction : input; clock : true; capacitance : 0.0; }} {reset if has_reset else ''}\n"
            f"pin (D) {{ direction : input; capacitance : 0.0; {checks} }}\n"
            f'pin (Q) {{ direction : output; function : "IQ"; timing () {{ related_pin : "C"; timing_type : rising_edge; {delays(CLOCK_TO_Q)} }}\n'
            f"{clear if has_reset else ''} }} }}\n")


class Chip(ToolTest):
    def map_chip(self) -> None:
        """The chip's NET and MAP, and the netlist of yosys as Verilog."""
        script = (EXAMPLES / "chip" / "map.ys").read_text().replace("chip.v", str(EXAMPLES / "chip" / "chip.v"))
        self.write("map.ys", script.replace("\nwrite_json", "\nwrite_verilog -noattr -noexpr mapped.v\nwrite_json"))
        self.write("json", printed(["yosys", "-q", "-s", "map.ys"], self.folder))
        words = [*map(self.path, ("json", "net", "map")), "--flip-flop-delays", "--output-delays"]
        self.assertEqual(called(from_yosys.main, words)[0], 0)

    def test_all_is_told(self) -> None:
        self.map_chip()
        cells = "".join(map(gate, FUNCTIONS)) + flip_flop("$_DFF_P_", False) + flip_flop("$_DFF_PN0_", True)
        self.write("library", f"library (yosys) {{ {UNITS} capacitive_load_unit (1, pf);\n{cells}}}\n")
        self.write("script", "read_liberty library\nread_verilog mapped.v\nlink_design chip\nwrite_sdf -digits 4 sdf\nexit\n")
        printed(["sta", "-no_init", "-no_splash", "-exit", "script"], self.folder)
        said = self.call(sdf.main, *map(self.path, ("sdf", "net", "map", "delays")), "--corner", "max", "--rise-fall")
        circuit, map_ = circuit_of(self.read("net")), map_of(self.read("map"))
        pins = sum(len(one.pins) for one in circuit.gates)
        wires = pins - len(map_.clock_to_qs)
        self.assertRegex(said, rf"\Apins {pins} forgotten 0 edges 0 wires {wires} of {wires} read [0-9]+ ignored [0-9]+ "
                               r"\(HOLD [0-9]+, RECOVERY [0-9]+, resets [0-9]+\)\n\Z")
        found: Dict[str, Tuple[int, int]] = {}
        for row in self.read("delays").splitlines()[2:]:
            name, pin, *two = row.split(",")
            found[f"{name},{pin}"] = (int(two[0]), int(two[1]))
        expected = {f"{cell.line},0": SETUP for cell in map_.setups}
        expected.update({f"{cell.line},0": CLOCK_TO_Q for cell in map_.clock_to_qs})
        expected.update({f"{port.line},0": (0, 0) for port in map_.output_wires})
        for cell in map_.gates:
            kind = {"BUFF": "BUF"}.get(circuit.gate_named(cell.line).kind, circuit.gate_named(cell.line).kind)
            for at, pin in enumerate(cell.pins):
                rise, fall = times(kind, pin)
                turned = (max(rise, fall),) * 2 if "X" in kind else (fall, rise) if kind in INVERTING else (rise, fall)
                expected[f"{cell.line},{at}"] = (turned[0], turned[1])
        self.assertEqual(found, expected)
