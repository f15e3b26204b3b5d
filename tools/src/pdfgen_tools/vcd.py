"""Waves as a VCD file (IEEE 1364, 'Value change dump'), which GTKWave and others show."""
from __future__ import annotations

from typing import Dict, List, NamedTuple, Sequence, Tuple

from pdfgen_tools.waves import Wave

CODES = "".join(map(chr, range(33, 127)))


class Signal(NamedTuple):
    """A name in a scope, and the number of its wave; several names may have one wave."""
    name: str
    wave: int


class Scope(NamedTuple):
    name: str
    signals: Sequence[Signal]


def code_of(number: int) -> str:
    """The short word by which a file calls a wave."""
    code = ""
    while True:
        code += CODES[number % len(CODES)]
        number //= len(CODES)
        if number == 0:
            return code


def vcd_text(title: str, scopes: Sequence[Scope], waves: Dict[int, Wave], before: int, end: int, picoseconds: int) -> str:
    """A file on these waves, by their numbers. Its time 0 is so many units before time 0 of the waves, and it ends at end; a unit takes so
    many picoseconds."""
    lines = ["$version pdfgen-waves $end", f"$comment {title.replace('$', '')} $end", "$timescale 1ps $end"]
    for scope in scopes:
        lines.append(f"$scope module {scope.name} $end")
        lines += [f"$var wire 1 {code_of(signal.wave)} {spelled(signal.name)} $end" for signal in scope.signals]
        lines.append("$upscope $end")
    lines.append("$enddefinitions $end")
    told = sorted({signal.wave for scope in scopes for signal in scope.signals})
    lines += ["#0", "$dumpvars", *(f"{waves[number].at(-before)}{code_of(number)}" for number in told), "$end"]
    changes: List[Tuple[int, int, int]] = []
    for number in told:
        value = waves[number].first
        for time in waves[number].changes:
            value ^= 1
            if -before < time <= end:
                changes.append((time, number, value))
    now = -before
    for time, number, value in sorted(changes):
        if time > now:
            lines.append(f"#{(time + before) * picoseconds}")
            now = time
        lines.append(f"{value}{code_of(number)}")
    if now < end:
        lines.append(f"#{(end + before) * picoseconds}")
    return "".join(line + "\n" for line in lines)


def spelled(name: str) -> str:
    """A name as VCD may have it: one that looks like a word of VCD's own is escaped."""
    return "\\" + name if name.startswith("$") else name
