"""PROOFS, read by docs/formats.md: one spelling; the first line without it is refused.

Written from the documents alone: it shares no code with the program."""
from __future__ import annotations

import re
from typing import List, NamedTuple, Optional

from pdfgen_tools.bench import Circuit
from pdfgen_tools.run_files import NUMBER, forms

HEADING = re.compile("pdfgen proofs ([1-5])")
PROOF = re.compile(rf"({NUMBER.pattern}) (refutes|spent) (robust|nonrobust) (rise|fall) ({NUMBER.pattern}) ({NUMBER.pattern}) (\S+(?: \S+)*)")
LEAF = re.compile("[XO]")
SPLIT = re.compile(f"([VHF])({NUMBER.pattern})")
AT_ANY_LINE = (4, 5)  # versions whose trees split at any line, and not at sources alone
BY_FIRST_VALUES = (5,)  # versions whose trees may split by first values


class Proof(NamedTuple):
    """word: refutes or spent. steps: how many of the path's first steps it speaks of. tree: its nodes in preorder, parted by blanks; the number
    of a split is that of its line."""
    number: int
    word: str
    kind: str
    direction: str
    path: int
    steps: int
    tree: str


class Proofs(NamedTuple):
    """version: 1 to 5, by which rules the trees stand, and which splits they may have."""
    version: int
    proofs: List[Proof]


def proofs_of(text: str, circuit: Circuit) -> Proofs:
    """The proofs of PROOFS' text, numbered from 1 in their order."""
    versions: List[int] = []
    proofs: List[Proof] = []

    def read_line(number: int, line: str) -> Optional[str]:
        if number == 1:
            found = HEADING.fullmatch(line)
            versions.extend([int(found[1])] if found else [])
            return line if found else None
        proof = proof_of(line, number - 1, circuit, versions[0])
        proofs.extend([proof] if proof else [])
        return line if proof else None

    forms("PROOFS", text, lambda count: 1, read_line)
    return Proofs(versions[0], proofs)


def proof_of(line: str, number: int, circuit: Circuit, version: int) -> Optional[Proof]:
    """The proof of a line in a file of this version, or None."""
    found = PROOF.fullmatch(line)
    if not found or found[1] != str(number) or len(found[5]) > 5 or not 1 <= int(found[5]) <= 10000 or len(found[6]) > 4 or int(found[6]) > 4096:
        return None
    if not is_tree(found[7].split(" "), circuit, version):
        return None
    return Proof(number, found[2], found[3], found[4], int(found[5]), int(found[6]), found[7])


def is_tree(nodes: List[str], circuit: Circuit, version: int) -> bool:
    """Whether nodes in preorder are exactly one tree, with splits that this version has."""
    open_places = 1
    for node in nodes:
        if open_places == 0:
            return False
        if is_split(node, circuit, version):
            open_places += 1
        elif LEAF.fullmatch(node):
            open_places -= 1
        else:
            return False
    return open_places == 0


def is_split(node: str, circuit: Circuit, version: int) -> bool:
    """Whether a node is a split that this version has: at a source, or in some versions at any line, also by first values."""
    found = SPLIT.fullmatch(node)
    if not found or found[1] == "F" and version not in BY_FIRST_VALUES:
        return False
    lines = len(circuit.names) if version in AT_ANY_LINE else circuit.source_count
    return len(found[2]) <= 6 and int(found[2]) < lines
