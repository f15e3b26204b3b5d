"""Reads the text of an SDF file by the grammar of IEEE 1497, and refuses what isn't of it, with its line. A word that is none of the
grammar is refused where it stands, so that nothing is passed over with what it holds.

Each rule is a pattern or two, matched where the text stands, since files have many megabytes. What entries mean is annotation's matter.

Beyond the standard, a header's parts may come in any order, and a name may have an index: `u[3]`. Of the standard these are refused by
name: LABEL, NETDELAY, DEVICE, `(INSTANCE *)`, and edges from or to z."""
from __future__ import annotations

import functools
import re
from typing import Callable, Collection, Dict, Iterator, List, NamedTuple, NoReturn, Optional, Pattern, Sequence, Tuple

from pdfgen_tools.errors import Refused
from pdfgen_tools.sdf.conditions import Condition, ConditionReader, NoCondition
from pdfgen_tools.sdf.entries import BOTH, Cell, Check, DelayFile, Edge, Path, PortSpec, Triple, Value, Wire

EDGES = {"POSEDGE": (Edge.RISE,), "NEGEDGE": (Edge.FALL,), "01": (Edge.RISE,), "10": (Edge.FALL,)}
EDGES_OF_Z = ("0Z", "Z1", "1Z", "Z0")
FEMTOSECONDS = {"fs": 1, "ps": 10 ** 3, "ns": 10 ** 6, "us": 10 ** 9, "ms": 10 ** 12, "s": 10 ** 15}
VALUES_AT_MOST = 12
VALUES_KEPT = 100000

NUMBER = r"[+-]?(?:[0-9]{1,40}(?:\.[0-9]{0,40})?|\.[0-9]{1,40})(?:[eE][+-]?[0-9]{1,2})?"
TRIPLE = rf"(?:{NUMBER}|(?={NUMBER}|\s*:\s*{NUMBER}|\s*:\s*:\s*{NUMBER})(?:{NUMBER})?\s*:\s*(?:{NUMBER})?\s*:\s*(?:{NUMBER})?)"
VALUE_TEXT = rf"\(\s*(?:{TRIPLE}\s*)?\)"
STRING = r'"(?:[^"\\\n]|\\[^\n])*"'
NAME = r"(?=[A-Za-z0-9_$\\])[A-Za-z0-9_$]*(?:\\[!-~][A-Za-z0-9_$]*)*(?:\[[0-9]+(?::[0-9]+)?\])*"
EDGE_WORD = r"[A-Za-z0-9]+"


def pattern(text: str) -> Pattern[str]:
    return re.compile(r"\s*" + text, re.ASCII)


COMMENT = re.compile(r'("(?:[^"\\\n]|\\[^\n])*"|\\.)|//[^\n]*|/\*[\s\S]*?\*/|(/\*)')
CLOSE, QUOTED = pattern(r"\)"), pattern(STRING)
WORD, WORD_OR_CLOSE = (pattern(rf"{close}\(\s*([A-Za-z]+)(?![A-Za-z0-9_$\\])") for close in ("", r"\)|\s*"))
END, NEXT = pattern(r"\Z"), pattern(r"([()]|[^\s()]{1,20})?")
LIST = pattern(r"(\([^()]{0,40}\))")
VALUE = pattern(rf"\(\s*({NUMBER})?\s*(?:(:)\s*({NUMBER})?\s*:\s*({NUMBER})?\s*)?\)")
ONE_OR_TWO_LISTS = r"\s*(\([^()]*\))\s*(\([^()]*\))?\s*\)"  # values, if each is one, and the end of an entry
ONE_OR_TWO = re.compile(ONE_OR_TWO_LISTS)
PULSES = pattern(r"\((?=\s*\()")
HEADER = {  # the parts of a header, and what stands in each
    **{word: pattern(STRING) for word in ("SDFVERSION", "DESIGN", "DATE", "VENDOR", "PROGRAM", "VERSION", "PROCESS")},
    "DIVIDER": pattern(r"([./])(?=\s*\))"), "VOLTAGE": pattern(TRIPLE + r"(?=\s*\))"), "TEMPERATURE": pattern(TRIPLE + r"(?=\s*\))"),
    "TIMESCALE": pattern(r"(100|10|1)(?:\.0+)?\s*(fs|ps|ns|us|ms|s)(?=\s*\))")}
PASSED_CHECKS = {  # how many ports and values a check has that says nothing of delays
    "HOLD": (2, 1), "RECOVERY": (2, 1), "REMOVAL": (2, 1), "RECREM": (2, 2), "SKEW": (2, 1), "BIDIRECTSKEW": (2, 2), "WIDTH": (1, 1),
    "PERIOD": (1, 1), "NOCHANGE": (2, 2)}


class NamedPatterns(NamedTuple):
    """Patterns of what has names, with this divider between their parts. path: the text of that of a name. plain: the whole of an IOPATH
    without an edge or of an INTERCONNECT, with one or two plain values, which most entries are."""
    divider: str
    path: str
    plain: Pattern[str]
    iopath: Pattern[str]
    wire: Pattern[str]
    port: Pattern[str]
    port_spec: Pattern[str]
    instance: Pattern[str]
    kind: Pattern[str]


@functools.lru_cache(maxsize=None)
def named(divider: str) -> NamedPatterns:
    path = rf"{NAME}(?:{re.escape(divider)}{NAME})*"
    port = rf"(?:\s+({path})\s+|\s*\(\s*({EDGE_WORD})\s+({path})\s*\)\s*)"
    return NamedPatterns(
        divider, path,
        plain=re.compile(rf"\s*\(\s*(?:(IOPATH)|INTERCONNECT)\s+({path})\s+({path}){ONE_OR_TWO_LISTS}", re.ASCII),
        iopath=re.compile(rf"{port}({path})(?=[\s()])", re.ASCII),
        wire=re.compile(rf"\s+({path})\s+({path})(?=[\s()])", re.ASCII),
        port=re.compile(rf"\s+({path})(?=[\s()])", re.ASCII),
        port_spec=re.compile(rf"\s*(?:({path})(?=[\s()])|\(\s*({EDGE_WORD})\s+({path})\s*\))", re.ASCII),
        instance=re.compile(rf"\s*\(\s*INSTANCE(?:\s+({path})|\s*(\*))?\s*\)", re.ASCII | re.IGNORECASE),
        kind=re.compile(rf"\s*\(\s*CELLTYPE\s*({STRING})\s*\)", re.ASCII | re.IGNORECASE))


@functools.lru_cache(maxsize=1024)
def both_edges(name: str) -> PortSpec:
    """A port without an edge."""
    return PortSpec(name, BOTH, "")


class Reader:
    """A text, and how far it is read. What is expected next and isn't there is refused."""

    def __init__(self, text: str) -> None:
        self.text = without_comments(text)
        self.at = 0
        self.named = named(".")
        self.values_known: Dict[str, Value] = {}

    def refuse(self, expected: str, at: Optional[int] = None) -> NoReturn:
        """Refuses what stands next, or at a place: another thing is expected."""
        begin = self.at if at is None else at
        found = NEXT.match(self.text, begin)
        assert found
        what = found[1] or "the end"
        self.refuse_at(found.start(1) if found[1] else begin, f"{what}: not {expected}")

    def refuse_at(self, at: int, reason: str) -> NoReturn:
        """Refuses with the line of a place."""
        raise Refused(f"SDF line {1 + self.text.count(chr(10), 0, at)}: {reason}")

    def take(self, rule: Pattern[str], expected: str) -> "re.Match[str]":
        """Goes on behind what matches a pattern."""
        found = rule.match(self.text, self.at)
        if not found:
            self.refuse(expected)
        self.at = found.end()
        return found

    def take_if(self, rule: Pattern[str]) -> Optional["re.Match[str]"]:
        """The same, where it is there."""
        found = rule.match(self.text, self.at)
        if found:
            self.at = found.end()
        return found

    def word(self, *words: str) -> str:
        """Goes into a list that begins with one of these words, in either case, and answers which."""
        return self.known(WORD.match(self.text, self.at), words)

    def known(self, found: Optional["re.Match[str]"], words: Collection[str]) -> str:
        """The word that was found, if it is one of these."""
        if found:
            word = found[1].upper()
            if word in words:
                self.at = found.end()
                return word
        self.refuse(" or ".join(words), found.start(1) if found else None)

    def close(self) -> None:
        self.take(CLOSE, ")")

    def lists(self, *words: str) -> Iterator[str]:
        """The word of each list that comes, one of these; whoever asks reads the list and its end. Ends behind the list around them."""
        while True:
            found = WORD_OR_CLOSE.match(self.text, self.at)
            if found and found[1] is None:
                self.at = found.end()
                return
            yield self.known(found, words)

    def file(self) -> DelayFile:
        """The header of a file, and its cells, to be read on from here."""
        self.word("DELAYFILE")
        femtoseconds, found = FEMTOSECONDS["ns"], set()
        words = self.lists(*HEADER, "CELL")
        for word in words:
            if word == "CELL":
                break
            if word in found:
                self.refuse_at(self.at, f"a second {word}")
            found.add(word)
            part = self.take(HEADER[word], f"what stands in {word}")
            self.close()
            if word == "DIVIDER":
                self.named = named(part[1])
            elif word == "TIMESCALE":
                femtoseconds = int(part[1]) * FEMTOSECONDS[part[2]]
        else:
            self.refuse_at(self.at, "no CELL")
        if "SDFVERSION" not in found:
            self.refuse_at(0, "no SDFVERSION")
        return DelayFile(self.named.divider, femtoseconds, self.cells())

    def cells(self) -> Iterator[Cell]:
        """The cells, behind the word CELL of the first one, to the end of the file."""
        yield self.cell()
        for _ in self.lists("CELL"):
            yield self.cell()
        self.take(END, "the end of the file")

    def cell(self) -> Cell:
        at = self.at
        kind = self.take(self.named.kind, "(CELLTYPE \"..\")")[1][1:-1]
        instance = self.take(self.named.instance, "(INSTANCE NAME)")
        if instance[2]:
            self.refuse_at(self.at, "(INSTANCE *) is not read: name each cell")
        cell = Cell(at, kind, instance[1] or "", [], [], [], [])
        for word in self.lists("DELAY", "TIMINGCHECK", "TIMINGENV", "LABEL"):
            if word == "DELAY":
                self.delays(cell)
            elif word == "TIMINGCHECK":
                self.checks(cell)
            elif word == "TIMINGENV":
                self.constraints(cell)
            else:
                self.refuse_at(self.at, "LABEL is not read")
        return cell

    def delays(self, cell: Cell) -> None:
        """What stands in DELAY."""
        for word in self.lists("ABSOLUTE", "INCREMENT", "PATHPULSE", "PATHPULSEPERCENT"):
            if word in ("ABSOLUTE", "INCREMENT"):
                self.plain_delays(word == "INCREMENT", cell)
                for entry in self.lists("IOPATH", "INTERCONNECT", "PORT", "COND", "CONDELSE", "NETDELAY", "DEVICE"):
                    self.delay(entry, word == "INCREMENT", cell)
                    self.plain_delays(word == "INCREMENT", cell)
            else:
                self.take_if(self.named.wire)
                self.values(2, cell.passed_over)
                cell.passed_over.append(word)

    def plain_delays(self, is_increment: bool, cell: Cell) -> None:
        """The plain entries that come next, if any."""
        match = self.named.plain.match
        found = match(self.text, self.at)
        while found:
            begin, self.at = found.start(2), found.end()
            is_path, source, sink, first, second = found.groups()
            values = self.one_or_two_of(found, first, second)
            if is_path:
                cell.paths.append(Path(begin, both_edges(source), sink, values, None, False, is_increment))
            else:
                cell.wires.append(Wire(begin, source, sink, values, is_increment))
            found = match(self.text, self.at)

    def delay(self, word: str, is_increment: bool, cell: Cell) -> None:
        """An entry of ABSOLUTE or INCREMENT, behind its word."""
        at = self.at
        if word == "IOPATH":
            cell.paths.append(self.path(at, None, False, is_increment, cell))
        elif word == "INTERCONNECT":
            pins = self.take(self.named.wire, "two pins")
            cell.wires.append(Wire(at, pins[1], pins[2], self.one_or_two() or self.values(VALUES_AT_MOST, cell.passed_over), is_increment))
        elif word == "PORT":
            pin = self.take(self.named.port, "a pin")
            cell.wires.append(Wire(at, "", pin[1], self.one_or_two() or self.values(VALUES_AT_MOST, cell.passed_over), is_increment))
        elif word in ("COND", "CONDELSE"):
            condition = self.condition() if word == "COND" else None
            self.word("IOPATH")
            cell.paths.append(self.path(at, condition, word == "CONDELSE", is_increment, cell))
            self.close()
        else:
            self.refuse_at(at, f"{word} is not read")

    def path(self, at: int, condition: Optional[Condition], is_else: bool, is_increment: bool, cell: Cell) -> Path:
        """An IOPATH, behind its word."""
        ports = self.take(self.named.iopath, "an input and an output")
        word, edge = ports[1], ports[2]
        source = both_edges(word) if edge is None else self.edged(edge, ports[3])
        values = self.one_or_two()
        while not values and self.take_if(RETAIN):
            self.values(3, cell.passed_over)
            cell.passed_over.append("RETAIN")
        return Path(at, source, ports[4], values or self.values(VALUES_AT_MOST, cell.passed_over), condition, is_else, is_increment)

    def edged(self, word: str, name: str) -> PortSpec:
        """A port with an edge."""
        if word.upper() in EDGES_OF_Z:
            self.refuse_at(self.at, f"edge {word}: no line of a netlist has z")
        if word.upper() not in EDGES:
            self.refuse_at(self.at, f"{word}: not an edge")
        return PortSpec(name, EDGES[word.upper()], word)

    def one_or_two(self) -> Optional[List[Value]]:
        """The values of an entry and its end, where these are one or two plain ones."""
        found = ONE_OR_TWO.match(self.text, self.at)
        if not found:
            return None
        self.at = found.end()
        return self.one_or_two_of(found, *found.groups())

    def one_or_two_of(self, found: "re.Match[str]", first: str, second: Optional[str]) -> List[Value]:
        """The values that these texts are, the last groups of what was found."""
        count = found.re.groups
        values = [self.value_of(first, found.start(count - 1))]
        if second is not None:
            values.append(self.value_of(second, found.start(count)))
        return values

    def value_of(self, text: str, at: int) -> Value:
        """The value at a place, where this text stands. Most files have few such texts, each many times."""
        if text not in self.values_known:
            if len(self.values_known) == VALUES_KEPT:
                self.values_known.clear()
            behind, self.at = self.at, at
            self.values_known[text] = self.value()
            self.at = behind
        return self.values_known[text]

    def values(self, at_most: int, passed_over: List[str]) -> List[Value]:
        """The values of an entry, one at least, and its end. Of a value with limits of its pulses, ((1) (2) (3)), the first."""
        values: List[Value] = []
        while not self.take_if(CLOSE):
            if len(values) == at_most:
                self.refuse(")")
            pulses = self.take_if(PULSES)
            values.append(self.value())
            if pulses:
                self.values(2, passed_over)
                passed_over.append("limits of pulses")
        if not values:
            self.refuse("a value", self.at - 1)
        return values

    def value(self) -> Value:
        """One value: (1), (1:2:3), (1::3) or ()."""
        found = VALUE.match(self.text, self.at)
        if not found:
            text = LIST.match(self.text, self.at)
            if text:
                self.refuse_at(text.start(1), f"{text[1]}: not a value")
            self.refuse("a value")
        self.at = found.end()
        minimum, colon, typical, maximum = found.groups("")
        if not colon:
            return Triple(minimum, minimum, minimum) if minimum else None
        if not (minimum or typical or maximum):
            self.refuse_at(self.at, "(::): a triple without numbers")
        return Triple(minimum, typical, maximum)

    def condition(self) -> Condition:
        """The condition of a COND, with its name in front of it, where it has one."""
        self.take_if(QUOTED)
        reader = ConditionReader(self.text, self.at)
        try:
            found = reader.read()
        except NoCondition as fault:
            self.refuse(str(fault), fault.at)
        self.at = reader.at
        return found

    def checks(self, cell: Cell) -> None:
        """What stands in TIMINGCHECK."""
        for word in self.lists("SETUP", "SETUPHOLD", *PASSED_CHECKS):
            if word in ("SETUP", "SETUPHOLD"):
                cell.checks.append(self.check(word))
            else:
                ports, values = PASSED_CHECKS[word]
                for _ in range(ports):
                    self.check_port()
                for _ in range(values):
                    self.value()
                if word == "RECREM":
                    self.stamps()
                self.close()
                cell.passed_over.append(word)

    def check(self, word: str) -> Check:
        """A SETUP or a SETUPHOLD, behind its word."""
        at = self.at
        (data, data_condition), (clock, clock_condition) = self.check_port(), self.check_port()
        setup = self.value()
        stamps = ""
        if word == "SETUPHOLD":
            self.value()
            stamps = self.stamps()
        self.close()
        return Check(at, data, clock, setup, " ".join((data_condition, clock_condition, stamps)).strip())

    def check_port(self) -> Tuple[PortSpec, str]:
        """A port of a check, and its condition, nothing where it has none."""
        condition = ""
        conditional = COND.match(self.text, self.at)
        if conditional:
            self.at = conditional.end()
            condition = self.condition().text
        found = self.take(self.named.port_spec, "a port")
        port = both_edges(found[1]) if found[1] is not None else self.edged(found[2], found[3])
        if conditional:
            self.close()
        return port, condition

    def stamps(self) -> str:
        """The conditions SCOND and CCOND of a check, each where it is there."""
        texts = []
        for rule in (SCOND, CCOND):
            if self.take_if(rule):
                texts.append(self.condition().text)
                self.close()
        return " ".join(texts)

    def constraints(self, cell: Cell) -> None:
        """What stands in TIMINGENV: what a designer asks for, and no delay."""
        environment = environment_patterns(self.named.path)
        for word in self.lists(*environment):
            self.take(environment[word], f"what stands in {word}")
            self.close()
            cell.passed_over.append(word)


RETAIN, COND = pattern(r"\(\s*RETAIN(?![A-Za-z0-9_$\\])"), pattern(r"\(\s*COND(?![A-Za-z0-9_$\\])")
SCOND, CCOND = pattern(r"\(\s*SCOND(?![A-Za-z0-9_$\\])"), pattern(r"\(\s*CCOND(?![A-Za-z0-9_$\\])")


@functools.lru_cache(maxsize=None)
def environment_patterns(path: str) -> Dict[str, Pattern[str]]:
    """What stands in each entry of TIMINGENV."""
    edge = "(?:posedge|negedge|01|10|0z|z1|1z|z0)"
    port, edged = rf"\s*{path}(?=[\s()])", rf"\s*\(\s*{edge}\s+{path}\s*\)"
    rise, fall = (rf"\(\s*{word}\s+{NUMBER}(?:\s+{NUMBER})?\s*\)" for word in ("posedge", "negedge"))
    value = rf"\s*{VALUE_TEXT}"
    instance = rf"\s*\(\s*INSTANCE(?:\s+{path}|\s*\*)?\s*\)"
    legs = rf"(?:\s*\({port}{port}\s*\)){{2,}}"
    texts = {
        "PATHCONSTRAINT": rf"(?:\(\s*NAME\s*(?:{STRING}\s*)?\))?(?:{port}){{2,}}(?:{value}){{2}}",
        "PERIODCONSTRAINT": rf"{port}{value}(?:\s*\(\s*EXCEPTION(?:{instance})+\s*\))?",
        "SUM": rf"{legs}(?:{value}){{1,2}}", "DIFF": rf"{legs}(?:{value}){{1,2}}", "SKEWCONSTRAINT": rf"(?:{port}|{edged}){value}",
        "ARRIVAL": rf"(?:{edged})?{port}(?:{value}){{4}}", "DEPARTURE": rf"(?:{edged})?{port}(?:{value}){{4}}",
        "SLACK": rf"{port}(?:{value}){{4}}(?:\s*{NUMBER})?",
        "WAVEFORM": rf"{port}\s+{NUMBER}(?:(?:\s*{rise}\s*{fall})+|(?:\s*{fall}\s*{rise})+)"}
    return {word: re.compile(r"\s*" + text, re.ASCII | re.IGNORECASE) for word, text in texts.items()}


def without_comments(text: str) -> str:
    """The text with blanks in the place of its comments. One without an end is refused."""
    if "//" not in text and "/*" not in text:
        return text

    def blanks(found: "re.Match[str]") -> str:
        if found[2]:
            raise Refused(f"SDF line {1 + text.count(chr(10), 0, found.start())}: a comment without an end")
        return found[1] or re.sub(r"[^\n]", " ", found[0])
    return COMMENT.sub(blanks, text)


def read(text: str) -> Tuple[DelayFile, Callable[[int, str], NoReturn]]:
    """A file, and how a place of it is refused for a reason. Refused where it isn't of the grammar, in cells as they are read."""
    reader = Reader(text)
    return reader.file(), reader.refuse_at
