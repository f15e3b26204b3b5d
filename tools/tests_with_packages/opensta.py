"""OpenSTA as a judge of SDF: what it says of the netlist of sdf_cases.py once it has read a file, all cells taking no time of their own."""
from __future__ import annotations

import math
import pathlib
import re
import subprocess
from typing import Dict, List, NamedTuple, Sequence

import packages  # which finds sdf_cases
from sdf_cases import PINS, VERILOG, Told

ZEROS = " ".join(f'{table} (scalar) {{ values ("0.0"); }}' for table in ("cell_rise", "cell_fall", "rise_transition", "fall_transition"))
LIMITS = " ".join(f'{table} (scalar) {{ values ("0.0"); }}' for table in ("rise_constraint", "fall_constraint"))
UNITS = " ".join(f"{name} : {value};" for name, value in (
    ("delay_model", "table_lookup"), ("time_unit", '"1ps"'), ("voltage_unit", '"1V"'), ("current_unit", '"1mA"'),
    ("pulling_resistance_unit", '"1kohm"'),
    ("nom_voltage", "1.0"), ("nom_temperature", "25"), ("nom_process", "1"), *((f"{way}_threshold_pct_{edge}", "50") for way in ("input", "output")
                                                                               for edge in ("rise", "fall")),
    *((f"slew_{end}_threshold_pct_{edge}", value) for end, value in (("lower", "20"), ("upper", "80")) for edge in ("rise", "fall"))))
PLAIN_GATES = {"NOT": "!A", "AND": "A&B", "NAND": "!(A&B)"}


class Arc(NamedTuple):
    """An arc that OpenSTA reports: its edges, r or f, and its delays in picoseconds."""
    begin: str
    end: str
    least: float
    most: float


class Answer(NamedTuple):
    """What OpenSTA says of a file: what it prints while reading, whether it took it, and for each pair of pins its arcs, and those of setup times."""
    said: str
    taken: bool
    arcs: Dict[str, List[Arc]]


def gate(name: str, function: str, timings: str, pins: Sequence[str]) -> str:
    inputs = " ".join(f"pin ({pin}) {{ direction : input; capacitance : 0.0; }}" for pin in pins)
    return f'cell ({name}) {{ {inputs} pin (Y) {{ direction : output; function : "{function}"; {timings} }} }}\n'


def timing(pin: str, sense: str, more: str = "") -> str:
    return f'timing () {{ related_pin : "{pin}"; timing_sense : {sense}; {more} {ZEROS} }}'


def library() -> str:
    """A Liberty file whose cells take no time. The flip-flop has a reset; the exclusive or tells its delays by the other pin's value, CONDELSE
    standing for the value at which it inverts."""
    cells = [gate(name, function, "".join(timing(pin, f"{'positive' if name == 'AND' else 'negative'}_unate") for pin in pins), pins)
             for name, function in PLAIN_GATES.items() for pins in [["A"] if name == "NOT" else ["A", "B"]]]
    sides = "".join(timing(pin, "positive_unate", f'when : "!{side}"; sdf_cond : "!{side}";')
                    + timing(pin, "negative_unate", f'when : "{side}"; sdf_cond : "{side}";')
                    + timing(pin, "negative_unate", "default_timing : true;") for pin, side in (("A", "B"), ("B", "A")))
    flip_flop = (
        'cell (DFF) { ff (IQ, IQN) { clocked_on : "C"; next_state : "D"; clear : "!R"; }\n'
        'pin (C) { direction : input; clock : true; capacitance : 0.0; }\n'
        f'pin (R) {{ direction : input; capacitance : 0.0; timing () {{ related_pin : "C"; timing_type : recovery_rising; {LIMITS} }} }}\n'
        f'pin (D) {{ direction : input; capacitance : 0.0; timing () {{ related_pin : "C"; timing_type : setup_rising; {LIMITS} }}\n'
        f'timing () {{ related_pin : "C"; timing_type : hold_rising; {LIMITS} }} }}\n'
        f'pin (Q) {{ direction : output; function : "IQ"; timing () {{ related_pin : "C"; timing_type : rising_edge; {ZEROS} }}\n'
        f'timing () {{ related_pin : "R"; timing_type : clear; timing_sense : positive_unate; {ZEROS} }} }} }}\n')
    return f"library (cells) {{ {UNITS} capacitive_load_unit (1, pf);\n{''.join(cells)}{gate('DXOR', 'A^B', sides, 'AB')}{flip_flop}}}\n"


def answers(folder: pathlib.Path, files: Dict[str, str]) -> Dict[str, Answer]:
    """What OpenSTA says of each of these files. Each has a process of its own: this OpenSTA falls over some that it should refuse."""
    ends = sorted({pin for begin, end, _ in PINS.values() for pin in (begin, end)} - {""})
    reports = [line for pin in ends for way in ("from", "to") for line in (f'puts "@{way} {pin}"', f"report_edges -{way} {{{pin}}}")]
    script = ["set sta_report_default_digits 6", "read_liberty cells.lib", "read_verilog top.v", "link_design top",
              'if {[catch {read_sdf file.sdf} why]} { puts "@refused $why" } else { puts "@taken $why" }', *reports, "exit"]
    for name, text in {"cells.lib": library(), "top.v": VERILOG, "script": "\n".join(script) + "\n"}.items():
        (folder / name).write_text(text)
    found = {}
    for name, text in files.items():
        (folder / "file.sdf").write_text(text)
        words = ["sta", "-no_init", "-no_splash", "-exit", "script"]
        ended = subprocess.run(words, cwd=folder, stdout=subprocess.PIPE, stderr=subprocess.STDOUT, text=True)
        found[name] = answer(ended.stdout if ended.returncode == 0 else f"Error: status {ended.returncode}\n")
    return found


def answer(text: str) -> Answer:
    """One file's part of what OpenSTA printed."""
    head, *parts = re.split(r"^@(?=from|to)", text, flags=re.MULTILINE)
    arcs: Dict[str, List[Arc]] = {}
    for part in parts:
        title, *rows = part.splitlines()
        kind = ""
        for row in rows:
            found = re.fullmatch(r"  ([v^]) -> ([v^]) (-?[0-9.]+):(-?[0-9.]+)", row)
            if found:
                arcs.setdefault(f"{title} {kind}", []).append(Arc(found[1], found[2], float(found[3]), float(found[4])))
            elif " -> " in row:
                kind = "setup" if row.endswith(" setup") else "wire" if row.endswith(" wire") else "hold" if row.endswith(" hold") else "delay"
    return Answer(head, "@taken" in head, arcs)


def told(given: Answer, corner: str) -> Told:
    """The delays that OpenSTA has for each pin of NET, in whole picoseconds, rounded up."""
    found: Told = {}
    for pin, (begin, end, _) in PINS.items():
        is_setup = end == "f/D"
        own = given.arcs.get(f"to {end} setup" if is_setup else f"from {begin} delay", [])
        wire = given.arcs.get(f"to {end if is_setup or not begin else begin} wire", []) if begin != "f/C" or is_setup else []
        by_end = begin == "f/C"
        delays = []
        for edge in "^v":
            times = [arc.most if corner == "max" else arc.least for arc in own if (arc.end if by_end else arc.begin) == edge]
            wires = [arc.most if corner == "max" else arc.least for arc in wire if arc.end == edge]
            delays.append(math.ceil(round(max(times, default=0) + max(wires, default=0), 3)))
        found[pin] = (delays[0], delays[1])
    return found
