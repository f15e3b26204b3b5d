"""Draws the verdicts of a report: how many faults there are of each length, and of each path's end.

    pdfgen-chart NET REPORT PICTURE

PICTURE ends in .png, .svg or .pdf. Of the ends those with most faults are shown. Needs matplotlib (Debian: python3-matplotlib)."""
from __future__ import annotations

import collections
import io
import sys
from typing import Any, List, Optional, Sequence

from pdfgen_tools.bench import Circuit, circuit_of
from pdfgen_tools.errors import Files, Refused, Words, run
from pdfgen_tools.judging import refuse_other_than_paths
from pdfgen_tools.run_files import Fault, end_of, faults_of

TOOL = "pdfgen-chart"
KINDS = ("png", "svg", "pdf")
COLORS = {"robust": "#2a7f3f", "nonrobust": "#9ccc65", "untestable": "#9e9e9e", "aborted": "#d9534f"}
ENDS_AT_MOST = 25
BINS_AT_MOST = 40


class Call:
    """The words of a call."""

    def __init__(self, words: Sequence[str]) -> None:
        parser = Words(TOOL, __doc__)
        parser.files("NET", "REPORT", "PICTURE")
        found = parser.parse_args(words)
        self.net: str = found.net
        self.report: str = found.report
        self.picture: str = found.picture
        self.kind = self.picture.rpartition(".")[2]
        if self.kind not in KINDS or "." not in self.picture:
            parser.error("PICTURE ends in .png, .svg or .pdf")


def pyplot() -> Any:
    """matplotlib, drawing without a screen."""
    try:
        import matplotlib
        matplotlib.use("Agg")
        from matplotlib import pyplot
    except ImportError:
        raise Refused(f"matplotlib is not installed for {sys.executable}")
    return pyplot


def draw_lengths(axes: Any, faults: Sequence[Fault]) -> None:
    """A column for each range of lengths, its verdicts on top of each other."""
    lengths = [[fault.length for fault in faults if fault.verdict == verdict] for verdict in COLORS]
    different = len({fault.length for fault in faults})
    axes.hist(lengths, bins=min(BINS_AT_MOST, max(1, different)), stacked=True, color=list(COLORS.values()), label=list(COLORS))
    axes.set_xlabel("length of the path, in delay units")
    axes.set_ylabel("faults")
    axes.legend()


def draw_ends(axes: Any, faults: Sequence[Fault], circuit: Circuit) -> None:
    """A bar for each end, the one with most faults on top."""
    counts = collections.Counter((circuit.names[end_of(fault, circuit)], fault.verdict) for fault in faults)
    most = collections.Counter(circuit.names[end_of(fault, circuit)] for fault in faults).most_common(ENDS_AT_MOST)
    ends = [end for end, _ in reversed(most)]
    left: List[int] = [0] * len(ends)
    for verdict, color in COLORS.items():
        widths = [counts[end, verdict] for end in ends]
        axes.barh([end.replace("$", "\\$") for end in ends], widths, left=left, color=color)
        left = [a + b for a, b in zip(left, widths)]
    axes.set_xlim(0, 1.05 * max(left, default=1))
    axes.set_xlabel("faults by the path's end")


def work(words: Sequence[str], files: Files) -> None:
    call = Call(words)
    circuit = circuit_of(files.read(call.net))
    faults = faults_of(files.read(call.report), circuit)
    refuse_other_than_paths(faults, circuit)
    plot = pyplot()
    figure, (lengths, ends) = plot.subplots(1, 2, figsize=(12, 6), layout="constrained")
    draw_lengths(lengths, faults)
    draw_ends(ends, faults, circuit)
    picture = io.BytesIO()
    figure.savefig(picture, format=call.kind)
    plot.close(figure)
    files.write_bytes(call.picture, picture.getvalue())


def main(words: Optional[Sequence[str]] = None) -> int:
    """Does a call of pdfgen-chart with these words (those of the command line if None), and answers its status."""
    return run(TOOL, work, words)
