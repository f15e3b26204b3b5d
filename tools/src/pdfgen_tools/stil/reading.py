"""Reads a STIL file of the form that text.py writes. Anything else of STIL is refused with its line, so nothing is passed over.

Comments and blanks may stand anywhere, blocks of the top in any order; letters may be parted by blanks."""
from __future__ import annotations

import re
from typing import Callable, Dict, List, NamedTuple, NoReturn, Set, Tuple

from pdfgen_tools.errors import Refused
from pdfgen_tools.stil.model import (COMPARED, DRIVEN, Call, Cell, Chain, Event, Group, Program, SetTable, Shift, Signal, Statement, Vector,
                                     Waveform, WaveformTable)

TOKEN = re.compile(r"""(?P<blank>\s+|//[^\n]*|/\*.*?\*/)|(?P<note>\{\*.*?\*\})|(?P<name>"[^"\n]*")|(?P<quote>'[^'\n]*')"""
                   r"""|(?P<mark>[{};=:!])|(?P<word>[^\s{};=:!"'/]+|/)""", re.DOTALL)
TIME = re.compile(r"'([0-9]{1,15})ps'")
MEMBERS = re.compile(r'"[^"]+"(?: \+ "[^"]+")*')
LETTERS = re.compile("[01PLHX#]*")


class Token(NamedTuple):
    """kind: note, name (in double quotes), quote (in single ones), mark, word or end. at: where it begins in the text."""
    kind: str
    text: str
    at: int


class Reader:
    """The tokens of a text, read from the front."""

    def __init__(self, text: str) -> None:
        self.text = text
        self.tokens: List[Token] = []
        end = 0
        while end < len(text):
            found = TOKEN.match(text, end)
            if found is None or found.lastgroup is None:
                self.refuse(end)
            if found.lastgroup != "blank":
                self.tokens.append(Token(found.lastgroup, found[0], end))
            end = found.end()
        self.tokens.append(Token("end", "", len(text)))
        self.place = 0

    def refuse(self, at: int, why: str = "no STIL that pdfgen-stil writes") -> NoReturn:
        """Refuses what stands at an offset, by its line."""
        raise Refused(f"STIL line {self.text.count(chr(10), 0, at) + 1}: {why}")

    def refuse_last(self, why: str) -> NoReturn:
        """Refuses what was read last."""
        self.refuse(self.tokens[max(self.place - 1, 0)].at, why)

    def peek(self) -> Token:
        return self.tokens[self.place]

    def is_next(self, text: str) -> bool:
        """Whether this mark or word comes next. It is read then."""
        token = self.peek()
        if token.kind not in ("mark", "word") or token.text != text:
            return False
        self.place += 1
        return True

    def expect(self, *texts: str) -> None:
        """Reads these marks and words."""
        for text in texts:
            if not self.is_next(text):
                self.refuse(self.peek().at)

    def take(self, *kinds: str) -> str:
        """The text of the next token, which has to be of one of these kinds."""
        token = self.peek()
        if token.kind not in kinds:
            self.refuse(token.at)
        self.place += 1
        return token.text

    def name(self) -> str:
        """A name, in double quotes or not."""
        return self.take("name", "word").strip('"')

    def until(self, closing: str, read: Callable[[], None]) -> None:
        """Calls read until this mark comes, and reads that."""
        while not self.is_next(closing):
            read()

    def time(self) -> int:
        """A time, in picoseconds."""
        found = TIME.fullmatch(self.take("quote"))
        if found is None:
            self.refuse_last("a time isn't a whole number of ps")
        return int(found[1])


class ProgramReader:
    """Reads the blocks of a file, and gathers what they declare."""

    def __init__(self, text: str) -> None:
        self.reader = Reader(text)
        self.title = ""
        self.notes: List[str] = []
        self.signals: List[Signal] = []
        self.groups: List[Group] = []
        self.chains: List[Chain] = []
        self.tables: List[WaveformTable] = []
        self.procedures: Dict[str, Tuple[Statement, ...]] = {}
        self.patterns: List[Tuple[Statement, ...]] = []
        self.declared: Set[str] = set()

    def program(self) -> Program:
        """The whole file."""
        self.reader.expect("STIL", "1.0", ";")
        blocks = {"Header": self.header, "Ann": self.note, "Signals": self.signal, "SignalGroups": self.group, "ScanStructures": self.chain,
                  "Timing": self.table, "Procedures": self.procedure, "PatternBurst": self.burst, "PatternExec": self.execution,
                  "Pattern": self.statements_of_pattern}
        while self.reader.peek().kind != "end":
            word = self.reader.take("word")
            if word not in blocks:
                self.reader.refuse_last(f"no block {word} of those that pdfgen-stil writes")
            if word in ("Ann", "PatternBurst", "PatternExec", "Pattern"):
                blocks[word]()
            else:
                self.reader.expect("{")
                self.reader.until("}", blocks[word])
        if len(self.patterns) != 1 or not self.signals:
            self.reader.refuse_last("not one pattern, or no signals")
        return Program(self.title, tuple(self.notes), tuple(self.signals), tuple(self.groups), tuple(self.chains), tuple(self.tables),
                       self.procedures, self.patterns[0])

    def header(self) -> None:
        word = self.reader.take("word")
        text = self.reader.name()
        self.reader.expect(";")
        if word == "Title":
            self.title = text

    def note(self) -> None:
        self.notes.append(self.reader.take("note")[2:-2].strip())

    def signal(self) -> None:
        name, direction, scan = self.reader.name(), self.reader.take("word"), ""
        if direction not in ("In", "Out"):
            self.reader.refuse_last("a signal is neither In nor Out")
        if self.reader.is_next("{"):
            scan = self.reader.take("word")
            self.reader.expect(";", "}")
            if scan != {"In": "ScanIn", "Out": "ScanOut"}[direction]:
                self.reader.refuse_last("an input is ScanIn, an output ScanOut")
        else:
            self.reader.expect(";")
        self.declare(name)
        self.signals.append(Signal(name, direction == "In", scan))

    def declare(self, name: str) -> None:
        """Takes a name for a signal or a group; refuses one that stands already."""
        if name in self.declared:
            self.reader.refuse_last(f"twice {name}")
        self.declared.add(name)

    def group(self) -> None:
        name = self.reader.name()
        self.reader.expect("=")
        expression = self.reader.take("quote")[1:-1]
        self.reader.expect(";")
        if not MEMBERS.fullmatch(expression):
            self.reader.refuse_last("a group isn't a sum of names in double quotes")
        members = tuple(re.findall('"([^"]+)"', expression))
        self.declare(name)
        self.groups.append(Group(name, members))

    def chain(self) -> None:
        self.reader.expect("ScanChain")
        name = self.reader.name()
        self.reader.expect("{", "ScanLength")
        length = self.reader.take("word")
        self.reader.expect(";", "ScanCells")
        cells: List[Cell] = []
        inverted = False
        while not self.reader.is_next(";"):
            if self.reader.is_next("!"):
                inverted = not inverted
            else:
                cells.append(Cell(self.reader.name(), inverted))
                inverted = False
        scan_in, scan_out, parity, clock = (self.port_of_chain(word) for word in ("ScanIn", "ScanOut", "ScanInversion", "ScanMasterClock"))
        self.reader.expect("}")
        if length != str(len(cells)) or parity != str((sum(cell.inverted for cell in cells) + inverted) % 2):
            self.reader.refuse_last(f"chain {name} isn't as long as it says, or inverts otherwise")
        self.chains.append(Chain(name, tuple(cells), inverted, scan_in, scan_out, clock))

    def port_of_chain(self, word: str) -> str:
        self.reader.expect(word)
        name = self.reader.name()
        self.reader.expect(";")
        return name

    def table(self) -> None:
        self.reader.expect("WaveformTable")
        name = self.reader.name()
        self.reader.expect("{", "Period")
        period = self.reader.time()
        self.reader.expect(";", "Waveforms", "{")
        waveforms: List[Waveform] = []
        self.reader.until("}", lambda: self.waveforms_of_signal(waveforms))
        self.reader.expect("}")
        if any(event.at >= period for waveform in waveforms for event in waveform.events):
            self.reader.refuse_last(f"table {name} has an event behind its period")
        self.tables.append(WaveformTable(name, period, tuple(waveforms)))

    def waveforms_of_signal(self, waveforms: List[Waveform]) -> None:
        """All letters of a signal or a group. Letters that stand together part their events by strokes."""
        of = self.reader.name()
        self.reader.expect("{")
        while not self.reader.is_next("}"):
            letters = self.reader.take("word")
            self.reader.expect("{")
            times: List[Tuple[int, List[str]]] = []
            self.reader.until("}", lambda: times.append(self.events_of_letters(letters)))
            if not LETTERS.fullmatch(letters) or any(times[at][0] > times[at + 1][0] for at in range(len(times) - 1)):
                self.reader.refuse_last("letters that pdfgen-stil doesn't write, or events not in the order of time")
            for at, letter in enumerate(letters):
                waveforms.append(Waveform(of, letter, tuple(Event(time, does[at]) for time, does in times)))

    def events_of_letters(self, letters: str) -> Tuple[int, List[str]]:
        """A time, and what happens then under each of these letters."""
        time, words = self.reader.time(), []
        self.reader.until(";", lambda: words.append(self.reader.take("word")))
        does = [word for word in words if word != "/"]
        if len(does) not in (1, len(letters)) or any(len(word) != 1 or word not in DRIVEN + COMPARED for word in does):
            self.reader.refuse_last("events that pdfgen-stil doesn't write")
        return time, does * len(letters) if len(does) == 1 else does

    def procedure(self) -> None:
        name = self.reader.name()
        self.reader.expect("{")
        if name in self.procedures:
            self.reader.refuse_last(f"twice {name}")
        self.procedures[name] = self.statements()

    def burst(self) -> None:
        self.reader.name()
        self.reader.expect("{", "PatList", "{")
        self.reader.name()
        self.reader.expect(";", "}", "}")

    def execution(self) -> None:
        self.reader.expect("{", "PatternBurst")
        self.reader.name()
        self.reader.expect(";", "}")

    def statements_of_pattern(self) -> None:
        self.reader.name()
        self.reader.expect("{")
        self.patterns.append(self.statements())

    def statements(self) -> Tuple[Statement, ...]:
        """Statements up to a closing brace."""
        statements: List[Statement] = []
        self.reader.until("}", lambda: statements.append(self.statement()))
        return tuple(statements)

    def statement(self) -> Statement:
        label = ""
        if self.reader.peek().kind == "name":
            label = self.reader.name()
            self.reader.expect(":")
        if self.reader.is_next("Call"):
            procedure = self.reader.name()
            return Call(label, procedure, self.values())
        if label:
            self.reader.refuse_last("a label stands in front of no call")
        if self.reader.is_next("W"):
            name = self.reader.name()
            self.reader.expect(";")
            return SetTable(name)
        if self.reader.is_next("V"):
            return Vector(self.values())
        self.reader.expect("Shift", "{", "V")
        vector = Vector(self.values())
        self.reader.expect("}")
        return Shift(vector)

    def values(self) -> Dict[str, str]:
        """Letters of signals and groups, in braces."""
        values: Dict[str, str] = {}
        self.reader.expect("{")
        while not self.reader.is_next("}"):
            name = self.reader.name()
            self.reader.expect("=")
            letters: List[str] = []
            self.reader.until(";", lambda: letters.append(self.reader.take("word")))
            if name in values or not letters or not all(map(LETTERS.fullmatch, letters)):
                self.reader.refuse_last(f"{name} has letters twice, none, or some that pdfgen-stil doesn't write")
            values[name] = "".join(letters)
        return values


def program_of(text: str) -> Program:
    """The program of a file's text; Refused with the line where it is none that pdfgen-stil writes."""
    return ProgramReader(text).program()
