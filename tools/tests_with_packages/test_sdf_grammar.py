"""The reader of pdfgen-sdf beside a grammar for lark: both take, and refuse, the same texts, good ones and spoilt."""
from __future__ import annotations

import pathlib
import random
from typing import Dict

import lark
from packages import ToolTest
from sdf_cases import CASES, DESIGN, GRAMMAR, file
from spoilt import spoil_once
from pdfgen_tools.errors import Refused
from pdfgen_tools.sdf.reader import read

SPOILT_EACH = 20
OTHERS = ("another divider in a name", "a deep condition")  # of which the grammar says nothing
BEYOND = (  # why the reader refuses what the grammar takes
    "a second ", "no SDFVERSION", "a triple without numbers", "not a constant", "is not read", "no line of a netlist has z")


def taken(text: str) -> str:
    """Nothing if the reader takes a text, or why it refuses it."""
    try:
        given, _ = read(text)
        for _ in given.cells:
            pass
    except Refused as refusal:
        return str(refusal)
    return ""


class Grammar(ToolTest):
    def setUp(self) -> None:
        super().setUp()
        grammar = (pathlib.Path(__file__).parent / "sdf.lark").read_text()
        self.lark = lark.Lark(grammar, parser="lalr", lexer="contextual")

    def agree(self, text: str) -> None:
        why = taken(text)
        if "(DIVIDER /)" not in text or any(reason in why for reason in BEYOND):
            return
        try:
            self.lark.parse(text)
            self.assertEqual(why, "", text)
        except lark.exceptions.UnexpectedInput as fault:
            self.assertNotEqual(why, "", f"{fault}\n{text}")

    def test_good_and_spoilt_texts(self) -> None:
        texts: Dict[str, str] = {name: file(case.text, case.header) for name, case in CASES.items()}
        for refusals in (GRAMMAR, DESIGN):
            texts.update({name: file(case.text, case.header) for name, case in refusals.items() if name not in OTHERS})
        chance = random.Random(1)
        for name, text in texts.items():
            with self.subTest(name):
                self.agree(text)
                for _ in range(SPOILT_EACH):
                    self.agree(spoil_once(text, chance))
