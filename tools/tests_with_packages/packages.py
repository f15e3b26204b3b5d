"""What the tests with packages stand on: the support of tests/, and the programs that they call. A program that is missing fails its test."""
from __future__ import annotations

import os
import pathlib
import subprocess
import sys
from typing import Optional, Sequence

sys.path.insert(0, str(pathlib.Path(__file__).resolve().parent.parent / "tests"))
from support import EXAMPLES, REPORT_HEADER, ROOT, TOOLS, Main, ToolTest, called, gate_split_files, hazard_files, lines

__all__ = ["EXAMPLES", "PROGRAM", "REPORT_HEADER", "ROOT", "TOOLS", "Main", "ToolTest", "called", "gate_split_files", "hazard_files", "lines",
           "mapped", "printed"]
PROGRAM = os.environ.get("PDFGEN", str(ROOT / "bin" / "pdfgen"))


def printed(words: Sequence[str], folder: Optional[pathlib.Path] = None) -> str:
    """What a program prints on out. It has to end with 0 and say nothing on err."""
    ended = subprocess.run(words, cwd=folder, capture_output=True, text=True)
    if ended.returncode or ended.stderr:
        raise AssertionError(f"{' '.join(words)}: status {ended.returncode}: {ended.stderr}")
    return ended.stdout


def mapped(folder: pathlib.Path, verilog: str, top: str = "chip") -> str:
    """The JSON that examples/chip/map.ys makes of a design's text."""
    (folder / "design.v").write_text(verilog)
    script = (EXAMPLES / "chip" / "map.ys").read_text().replace("chip.v", "design.v").replace("-top chip", f"-top {top}")
    (folder / "design.ys").write_text(script)
    return printed(["yosys", "-q", "-s", "design.ys"], folder)
