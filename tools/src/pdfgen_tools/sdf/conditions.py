"""Conditions of SDF: expressions over the ports of a cell, as in `(COND A==1'b0 && !B (IOPATH ..))`.

A value is a number of so many bits. What Verilog's operators do to unknown values isn't needed: each port has 0 or 1."""
from __future__ import annotations

import re
from typing import Callable, Dict, List, Mapping, NamedTuple, Optional, Tuple

DEEPEST = 100
TOKEN = re.compile(r"\s*(?:([0-9]*'[bBdDhHoO][0-9A-Fa-f_]+|[0-9]+(?![A-Za-z_$\\]))|((?:[A-Za-z0-9_$]|\\[!-~])+(?:\[[0-9]+\])?)"
                   r"|(===|!==|==|!=|&&|\|\||~&|~\||~\^|\^~|[-+*/%<>!~&|^?:(){},]))", re.ASCII)
BASES = {"b": 2, "o": 8, "d": 10, "h": 16}


class Bits(NamedTuple):
    """A value of so many bits."""
    value: int
    width: int

    def inverted(self) -> Bits:
        return Bits(self.value ^ ((1 << self.width) - 1), self.width)


Expression = Callable[[Mapping[str, int]], Bits]


class Condition(NamedTuple):
    """text: as spelled, blanks left out, by which two are known to be the same. ports: what it reads, with no backslashes."""
    text: str
    ports: Tuple[str, ...]
    expression: Expression

    def holds(self, values: Mapping[str, int]) -> bool:
        """Whether it holds where the ports have these values."""
        return self.expression(values).value != 0


class NoCondition(Exception):
    """A text that is no condition. at: where."""

    def __init__(self, at: int, expected: str) -> None:
        super().__init__(expected)
        self.at = at


def truth(holds: bool) -> Bits:
    return Bits(int(holds), 1)


UNARY: Dict[str, Callable[[Bits], Bits]] = {
    "!": lambda a: truth(a.value == 0), "~": Bits.inverted,
    "&": lambda a: truth(a.inverted().value == 0), "~&": lambda a: truth(a.inverted().value != 0),
    "|": lambda a: truth(a.value != 0), "~|": lambda a: truth(a.value == 0),
    "^": lambda a: truth(bin(a.value).count("1") % 2 == 1), "~^": lambda a: truth(bin(a.value).count("1") % 2 == 0),
    "^~": lambda a: truth(bin(a.value).count("1") % 2 == 0)}
BINARY: Dict[str, Tuple[int, Callable[[Bits, Bits], Bits]]] = {  # with how tightly they bind
    "||": (1, lambda a, b: truth(bool(a.value or b.value))), "&&": (2, lambda a, b: truth(bool(a.value and b.value))),
    "|": (3, lambda a, b: Bits(a.value | b.value, max(a.width, b.width))), "^": (4, lambda a, b: Bits(a.value ^ b.value, max(a.width, b.width))),
    "^~": (4, lambda a, b: Bits(a.value ^ b.value, max(a.width, b.width)).inverted()),
    "~^": (4, lambda a, b: Bits(a.value ^ b.value, max(a.width, b.width)).inverted()),
    "&": (5, lambda a, b: Bits(a.value & b.value, max(a.width, b.width))),
    "==": (6, lambda a, b: truth(a.value == b.value)), "!=": (6, lambda a, b: truth(a.value != b.value)),
    "===": (6, lambda a, b: truth(a.value == b.value)), "!==": (6, lambda a, b: truth(a.value != b.value))}


class ConditionReader:
    """Reads a condition at a place of a text, and stops behind it."""

    def __init__(self, text: str, at: int) -> None:
        self.text, self.at, self.depth = text, at, 0
        self.ports: Dict[str, None] = {}

    def read(self) -> Condition:
        begin = self.at
        expression = self.choice()
        return Condition("".join(self.text[begin:self.at].split()), tuple(self.ports), expression)

    def peek(self) -> Optional[str]:
        """The operator that comes next, or None."""
        token = TOKEN.match(self.text, self.at)
        return token[3] if token else None

    def take(self, mark: str) -> None:
        token = TOKEN.match(self.text, self.at)
        if not token or token[3] != mark:
            raise NoCondition(self.at, f"{mark} of a condition")
        self.at = token.end()

    def choice(self) -> Expression:
        """c ? a : b, or what binds tighter."""
        first = self.binary(1)
        if self.peek() != "?":
            return first
        self.take("?")
        second = self.choice()
        self.take(":")
        third = self.choice()
        return lambda values: second(values) if first(values).value else third(values)

    def binary(self, least: int) -> Expression:
        """Operands with operators between that bind at least so tightly."""
        left = self.operand()
        while True:
            operator = self.peek()
            if operator not in BINARY or BINARY[operator][0] < least:
                return left
            self.take(operator)
            tightness, combine = BINARY[operator]
            left = combined(combine, left, self.binary(tightness + 1))

    def operand(self) -> Expression:
        token = TOKEN.match(self.text, self.at)
        self.depth += 1
        if not token or self.depth > DEEPEST:
            raise NoCondition(self.at, "a condition")
        number, port, mark = token.groups()
        begin, self.at = self.at, token.end()
        if number is not None:
            found = constant(number, begin)
        elif port is not None:
            found = self.port(port)
        elif mark == "(":
            found = self.choice()
            self.take(")")
        elif mark == "{":
            found = self.joined()
        elif mark in UNARY:
            found = applied(UNARY[mark], self.operand())
        else:
            raise NoCondition(begin, "a condition")
        self.depth -= 1
        return found

    def port(self, spelled: str) -> Expression:
        name = re.sub(r"\\(.)", r"\1", spelled)
        self.ports[name] = None
        return lambda values: Bits(values[name], 1)

    def joined(self) -> Expression:
        """{a, b}: the bits of a in front of those of b."""
        parts: List[Expression] = [self.choice()]
        while self.peek() == ",":
            self.take(",")
            parts.append(self.choice())
        self.take("}")

        def value(values: Mapping[str, int]) -> Bits:
            whole = Bits(0, 0)
            for part in parts:
                bits = part(values)
                whole = Bits(whole.value << bits.width | bits.value, whole.width + bits.width)
            return whole
        return value


def applied(operator: Callable[[Bits], Bits], operand: Expression) -> Expression:
    return lambda values: operator(operand(values))


def combined(operator: Callable[[Bits, Bits], Bits], left: Expression, right: Expression) -> Expression:
    return lambda values: operator(left(values), right(values))


def constant(text: str, at: int) -> Expression:
    """1'b0, 'b1, 2'b01 or 1."""
    size, quote, rest = text.partition("'")
    try:
        value = int(rest[1:].replace("_", ""), BASES[rest[0].lower()]) if quote else int(size)
    except ValueError:
        raise NoCondition(at, "a constant")
    width = int(size) if quote and size else max(1, value.bit_length())
    if len(text) > 80 or not 1 <= width <= 64 or value >> width:
        raise NoCondition(at, "a constant")
    return lambda values: Bits(value, width)
