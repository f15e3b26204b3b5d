#!/usr/bin/env python3
"""Gives each tool files that are spoilt in one place or two: it has to take them or refuse them with a line and a status, and to leave its outputs
whole or as they were.

    python3 tools/tests/spoilt.py [--cases N] [--seed N] [TOOL ..]

Prints for each tool how often each status came. The suite runs some cases of each (test_spoilt.py). A tool's good files stand in CASES."""
from __future__ import annotations

import argparse
import collections
import json
import pathlib
import random
import re
import sys
import tempfile
import traceback
from typing import Callable, Counter, Dict, List, NamedTuple, Sequence, Tuple

import sdf_cases
from support import EXAMPLES, REPORT_HEADER, Main, called, lines
from pdfgen_tools.cli import check_tests, explain, from_yosys, log, page, sdf, stil, waves

STATUSES = {0, 1}  # of files that can be read and written
BYTES = [chr(byte) for byte in (0, 9, 10, 13, 32, 34, 35, 37, 40, 41, 42, 43, 44, 45, 46, 47, 48, 49, 57, 58, 61, 65, 91, 92, 97, 120, 123, 125, 127, 128, 255)]


PROOFS = lines("pdfgen proofs 1", "1 refutes nonrobust rise 1 1 V0 X H0 X V0 X X", "2 refutes robust fall 1 1 X", "3 spent robust rise 2 2 V0 O X",
               "4 refutes nonrobust fall 2 0 X")


class Case(NamedTuple):
    """A tool's good call: inputs by the names of their files, and its words, of which those that are names of inputs or outputs stand for
    files of a folder. spoils: the inputs that are spoilt, all if none is told."""
    main: Main
    inputs: Dict[str, str]
    outputs: Sequence[str]
    words: Sequence[str]
    spoils: Sequence[str] = ()


def spoil_once(text: str, chance: random.Random) -> str:
    """The text with one place changed: a byte, a word, a line, or its end."""
    at = chance.randrange(len(text) + 1)
    way = chance.randrange(8)
    if way == 0:
        return text[:at] + chance.choice(BYTES) + text[at + 1:]
    if way == 1:
        return text[:at] + chance.choice(BYTES) + text[at:]
    if way == 2:
        return text[:at] + text[at + chance.randint(1, 4):]
    if way == 3:
        return text[:at]
    rows = text.split("\n")
    row, other = chance.randrange(len(rows)), chance.randrange(len(rows))
    if way == 4:
        rows[row], rows[other] = rows[other], rows[row]
    elif way == 5:
        rows.insert(row, rows[other])
    elif way == 6:
        del rows[row]
    else:
        words = re.split(r"([\s,:()\[\]{}\"';=]+)", text)
        one, two = chance.randrange(len(words)), chance.randrange(len(words))
        words[one] = words[two]
        return "".join(words)
    return "\n".join(rows)


def fault_of(case: Case, folder: pathlib.Path, chance: random.Random, counts: Counter[int]) -> str:
    """Calls the tool with one spoilt file. Answers what is wrong with how it ended, or nothing."""
    role = chance.choice(list(case.spoils or case.inputs))
    text = spoil_once(case.inputs[role], chance)
    text = spoil_once(text, chance) if chance.random() < 0.3 else text
    for name, good in case.inputs.items():
        (folder / name).write_bytes((text if name == role else good).encode("latin-1", "replace"))
    for name in case.outputs:
        (folder / name).write_text("old")
    words = [str(folder / word) if word in case.inputs or word in case.outputs else word for word in case.words]
    try:
        status, out, err = called(case.main, words)
    except BaseException:
        return traceback.format_exc()
    counts[status] += 1
    whole = [name for name in case.outputs if (folder / name).read_bytes() != b"old"]
    if status not in STATUSES or (status and (out or not re.fullmatch(r"[^\n]+\n", err) or "Traceback" in err)):
        return f"status {status}, out {out!r}, err {err!r}"
    if len(whole) != (len(case.outputs) if status == 0 else 0):
        return f"status {status}, but of its outputs only {whole} changed"
    if {path.name for path in folder.iterdir()} != {*case.inputs, *case.outputs}:
        return "files are left beside the outputs"
    return ""


def run_cases(make: Callable[[], Case], count: int, seed: int) -> Counter[int]:
    """So many spoilt calls; AssertionError at the first that ends otherwise, with its files kept."""
    case, chance, counts = make(), random.Random(seed), collections.Counter()  # type: ignore[var-annotated]
    folder = pathlib.Path(tempfile.mkdtemp(prefix="pdfgen-spoilt-"))
    for number in range(count):
        fault = fault_of(case, folder, chance, counts)
        if fault:
            raise AssertionError(f"case {number}, files in {folder}: {fault}")
    for path in folder.iterdir():
        path.unlink()
    folder.rmdir()
    return counts


def run_files() -> Dict[str, str]:
    """A netlist with a run of it."""
    report = lines(REPORT_HEADER, "1,rise,5,a,y:0,untestable,-,-,1", "1,fall,5,a,y:0,nonrobust,1,2,-", "2,rise,2,a,m:0 y:1,nonrobust,2,3,-",
                   "2,fall,2,a,m:0 y:1,untestable,-,-,4")
    tests = lines("pdfgen tests 1", "sources a", "observed y", "1 1 fall nonrobust 1 0 0", "2 2 rise nonrobust 0 1 0")
    return {"net": (EXAMPLES / "hazard.bench").read_text(), "tests": tests, "report": report, "replay": lines("1 1 differs", "2 0 same"),
            "delays": (EXAMPLES / "hazard.csv").read_text(), "proofs": PROOFS}


def of_run(main: Main, outputs: Sequence[str], *words: str) -> Case:
    """A case whose words name files of a run."""
    return Case(main, {name: text for name, text in run_files().items() if name in words}, outputs, words)


def yosys_case() -> Case:
    """A design with a synchronizer, a range, an alias and a held pin."""
    def cell(kind: str, **pins: object) -> object:
        return {"type": kind, "connections": {pin: [net] for pin, net in pins.items()}}

    ports = {name: {"direction": direction, "bits": bits} for name, direction, bits in (
        ("clk", "input", [2]), ("rst_n", "input", [3]), ("in", "input", [4, 10]), ("y", "output", [5]), ("z", "output", ["1"]))}
    cells = {"s1": cell("$_DFF_PN0_", C=2, R=3, D="1", Q=6), "s2": cell("$_DFF_PN0_", C=2, R=3, D=6, Q=7),
             "ff": cell("$_DFF_PN0_", C=2, R=7, D=4, Q=8), "n": cell("$_NOT_", A=7, Y=9), "x": cell("$_XOR_", A=8, B=9, Y=11),
             "g": cell("$_NAND_", A=11, B=10, Y=5)}
    shown: List[Tuple[str, List[int], Dict[str, int]]] = [
        ("r", [6, 7], {"offset": 2}), ("q", [8], {}), ("n", [9], {}), ("v w", [11], {}), ("up", [4, 8], {"upto": 1})]
    nets = {name: {"bits": bits, "hide_name": 0, **more} for name, bits, more in shown}
    module = {"attributes": {"top": "1"}, "ports": ports, "cells": cells, "netnames": nets}
    text = json.dumps({"creator": "by hand", "modules": {"top": module}}, indent=1)
    return Case(from_yosys.main, {"json": text}, ["net", "map"], ["json", "net", "map", "--flip-flop-delays", "--hold", "in[1]=1"])


def sdf_case() -> Case:
    """An SDF file with an entry of each kind."""
    names = ("edges as numbers", "two of three", "conditions in words", "what no condition covers", "wires to ports of a range", "setup under conditions",
             "limits of pulses", "retained", "other checks", "clock to Q", "added", "wires inside of an instance", "pulses", "what a designer asks for", "comments")
    text = sdf_cases.file("".join(sdf_cases.CASES[name].text for name in names), sdf_cases.CASES["a header in full"].header)
    return Case(sdf.main, {"sdf": text, "net": sdf_cases.NET, "map": sdf_cases.MAP}, ["delays"], ["sdf", "net", "map", "delays", "--corner", "max", "--rise-fall"],
                ["sdf", "sdf", "sdf", "map", "net"])


def scanned_files() -> Dict[str, str]:
    """A run of mode broadside on two chains, one flip-flop on none, with a map, and cycles before the first load."""
    net = lines("INPUT(a)", "INPUT(b[1])", "OUTPUT(y)", "OUTPUT(z)", "p = DFF(y)", "q = DFF(z)", "u = DFF(a)", "y = AND(a, q)", "z = OR(b[1], p)")
    tests = lines("pdfgen tests 1", "sources a b[1] p q u", "observed y z a", "1 1 rise robust 00110 10010 101", "2 2 fall robust 01000 10010 101")
    report = lines(REPORT_HEADER, "1,rise,1,a,y:0,robust,1,-,-", "1,fall,1,a,y:0,untestable,-,-,1", "2,rise,1,b[1],z:0,untestable,-,-,2",
                   "2,fall,1,b[1],z:0,robust,2,-,-")
    map_ = lines("pdfgen map 2", "what,name,line,value", "clock,ck,,falling", "held,b[0],,1", "settled,s,,1", "input,a,a,", "input,b[1],b[1],",
                 "output,y,y,", "output,z,z,", "flip_flop,p%20,p,", "flip_flop,q,q,", "flip_flop,u,u,", "bus,b,,1:0")
    return {"net": net, "scan": "p\n\nq\n\nu\n", "tests": tests, "report": report, "map": map_, "setup": lines("2 b[0]=0 ck=P", "a=1")}


STIL_WORDS = ["net", "scan", "tests", "report", "stil", "--mode", "broadside", "--time", "70", "--slow", "1000", "--unmasked", "--map", "map", "--setup",
              "setup", "--unscanned", "u", "--inverted", "q", "--hold", "h=0", "--leave-out", "--testbench", "testbench", "--module", "chip"]


def stil_case() -> Case:
    return Case(stil.main, scanned_files(), ["stil", "testbench"], STIL_WORDS)


def log_case() -> Case:
    """What pdfgen-stil writes of the same, and two fails of it."""
    inputs = scanned_files()
    with tempfile.TemporaryDirectory(prefix="pdfgen-spoilt-") as name:
        folder = pathlib.Path(name)
        for role, text in inputs.items():
            (folder / role).write_text(text)
        status, _, err = called(stil.main, [str(folder / word) if word in (*inputs, "stil", "testbench") else word for word in STIL_WORDS])
        if status:
            raise AssertionError(err)
        inputs["stil"] = (folder / "stil").read_text()
    inputs["fails"] = lines("cycle,pin,value", "8,y,0", "10,scan_out1,0")
    del inputs["scan"], inputs["setup"]
    return Case(log.main, inputs, ["log"], ["net", "tests", "report", "stil", "fails", "--map", "map", "--log", "log"],
                ["stil", "stil", "stil", "fails", "tests", "map", "net", "report"])


CASES: Dict[str, Callable[[], Case]] = {
    "pdfgen-check-tests": lambda: of_run(check_tests.main, [], "net", "tests", "report"),
    "pdfgen-explain": lambda: of_run(explain.main, [], "net", "tests", "report", "replay", "--delays", "delays"),
    "pdfgen-from-yosys": yosys_case,
    "pdfgen-waves": lambda: of_run(waves.main, ["vcd"], "net", "delays", "tests", "report", "vcd", "--test", "2", "--time", "3", "--all"),
    "pdfgen-page": lambda: of_run(page.main, ["page"], "net", "tests", "report", "proofs", "page"),
    "pdfgen-sdf": sdf_case,
    "pdfgen-stil": stil_case,
    "pdfgen-log": log_case,
}


def main() -> int:
    parser = argparse.ArgumentParser(description=__doc__, formatter_class=argparse.RawDescriptionHelpFormatter)
    parser.add_argument("tools", nargs="*", metavar="TOOL", help=", ".join(CASES))
    parser.add_argument("--cases", type=int, default=5000, metavar="N")
    parser.add_argument("--seed", type=int, default=1, metavar="N")
    words = parser.parse_args()
    chosen: List[str] = words.tools or list(CASES)
    for tool in chosen:
        counts = run_cases(CASES[tool], words.cases, words.seed)
        print(f"{tool:20} " + " ".join(f"status {status}: {count}" for status, count in sorted(counts.items())), flush=True)
    return 0


if __name__ == "__main__":
    sys.dont_write_bytecode = True
    sys.exit(main())
