"""Spells a STIL file (IEEE 1450), a line at a time, from the model. reading.py reads what stands here."""
from __future__ import annotations

from typing import FrozenSet, Iterator, Mapping

from pdfgen_tools.stil.model import Call, Chain, Program, SetTable, Shift, Statement, Vector, WaveformTable, quoted


def stil_lines(program: Program) -> Iterator[str]:
    """The lines of a file, without their ends."""
    plain = frozenset(group.name for group in program.groups)
    yield "STIL 1.0;"
    yield f"Header {{ Title {quoted(program.title)}; Source \"pdfgen\"; }}"
    yield from (f"Ann {{* {note} *}}" for note in program.notes)
    yield from signal_lines(program)
    yield from ("ScanStructures {", *(line for chain in program.chains for line in chain_lines(chain)), "}")
    yield from ("Timing {", *(line for table in program.tables for line in table_lines(table, plain)), "}")
    yield "Procedures {"
    for name, statements in program.procedures.items():
        yield from (f"  {name} {{", *(f"    {statement_text(statement, plain)}" for statement in statements), "  }")
    yield "}"
    yield from ("PatternBurst path_delay_burst { PatList { path_delay; } }", "PatternExec { PatternBurst path_delay_burst; }")
    yield "Pattern path_delay {"
    yield from (f"  {statement_text(statement, plain)}" for statement in program.pattern)
    yield "}"


def signal_lines(program: Program) -> Iterator[str]:
    """The declarations of signals and groups."""
    yield "Signals {"
    for name, is_input, scan in program.signals:
        yield f"  {quoted(name)} {'In' if is_input else 'Out'}{f' {{ {scan}; }}' if scan else ';'}"
    yield from ("}", "SignalGroups {")
    yield from (f"  {group.name} = '{' + '.join(map(quoted, group.members))}';" for group in program.groups)
    yield "}"


def chain_lines(chain: Chain) -> Iterator[str]:
    """A chain. An exclamation mark stands for an inversion, in front of a cell or behind the last one."""
    cells = " ".join(f"{'! ' if cell.inverted else ''}{quoted(cell.name)}" for cell in chain.cells)
    parity = (sum(cell.inverted for cell in chain.cells) + chain.inverted_out) % 2
    yield f"  ScanChain {quoted(chain.name)} {{"
    yield f"    ScanLength {len(chain.cells)};"
    yield f"    ScanCells {cells}{' !' if chain.inverted_out else ''};"
    yield f"    ScanIn {quoted(chain.scan_in)};"
    yield f"    ScanOut {quoted(chain.scan_out)};"
    yield f"    ScanInversion {parity};"
    yield f"    ScanMasterClock {quoted(chain.clock)};"
    yield "  }"


def table_lines(table: WaveformTable, plain: FrozenSet[str]) -> Iterator[str]:
    """A table. Letters of one signal whose events have one form stand together, as `01 { '0ps' D/U; }`."""
    yield f"  WaveformTable {table.name} {{"
    yield f"    Period '{table.period}ps';"
    yield "    Waveforms {"
    for of, letter, events in table.waveforms:
        spelled = " ".join(f"'{event.at}ps' {event.does};" for event in events)
        yield f"      {name_text(of, plain)} {{ {letter} {{ {spelled} }} }}"
    yield from ("    }", "  }")


def statement_text(statement: Statement, plain: FrozenSet[str]) -> str:
    """A statement of a procedure or of the pattern."""
    if isinstance(statement, SetTable):
        return f"W {statement.name};"
    if isinstance(statement, Vector):
        return f"V {{ {values_text(statement.values, plain)} }}"
    if isinstance(statement, Shift):
        return f"Shift {{ {statement_text(statement.vector, plain)} }}"
    return call_text(statement, plain)


def call_text(call: Call, plain: FrozenSet[str]) -> str:
    label = f"{quoted(call.label)}: " if call.label else ""
    return f"{label}Call {call.procedure} {{ {values_text(call.values, plain)} }}"


def values_text(values: Mapping[str, str], plain: FrozenSet[str]) -> str:
    return " ".join(f"{name_text(name, plain)}={letters};" for name, letters in values.items())


def name_text(name: str, plain: FrozenSet[str]) -> str:
    """A signal's name in quotes, since it may be any word; a group's as it stands."""
    return name if name in plain else quoted(name)


