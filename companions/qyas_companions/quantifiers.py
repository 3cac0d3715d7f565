"""Quantifier files: who sets which variable and when, and which rows bind the universal player."""

from __future__ import annotations

import re
from fractions import Fraction
from typing import Dict, List, Tuple

from .faults import Fault, Unconvertible
from .linear import number

WORD = re.compile(r'[ \t\r]+|\\.*|"(?P<quoted>[^"]*)"|(?P<word>[^\s"]+)')
FILE = "quantifiers"


class Quantifiers:
    """What a quantifier file says, each name with its line."""

    def __init__(self) -> None:
        self.order: Dict[str, int] = {}
        self.universal: Dict[str, int] = {}
        self.uncertain: Dict[str, int] = {}
        self.bounds: Dict[str, Tuple[Fraction, Fraction, int]] = {}


def words_of(line: str, at_line: int) -> List[str]:
    """The words of a line; a name with spaces stands in double quotes."""
    words: List[str] = []
    at = 0
    while at < len(line):
        found = WORD.match(line, at)
        if found is None:
            raise Unconvertible(at_line, "a name in double quotes doesn't end", FILE)
        if found["quoted"] is not None or found["word"] is not None:
            words.append(found["quoted"] if found["quoted"] is not None else found["word"])
        at = found.end()
    return words


def read(text: str) -> Quantifiers:
    """What a quantifier file says."""
    said = Quantifiers()
    for line, words_line in enumerate(text.split("\n"), 1):
        words = words_of(words_line, line)
        if not words:
            continue
        kind, names = words[0], words[1:]
        if kind == "order":
            keep_once(said.order, names, line, kind)
        elif kind == "all":
            keep_once(said.universal, names, line, kind)
        elif kind == "uncertain":
            for name in names:
                said.uncertain.setdefault(name, line)
        elif kind == "bounds":
            keep_bounds(said, names, line)
        else:
            raise Unconvertible(line, f"a line begins with order, all, uncertain or bounds, not {kind[:60]!r}", FILE)
    return said


def keep_once(into: Dict[str, int], names: List[str], line: int, kind: str) -> None:
    for name in names:
        if name in into:
            raise Unconvertible(line, f"{name} stands in {kind} a second time", FILE)
        into[name] = line


def keep_bounds(said: Quantifiers, names: List[str], line: int) -> None:
    if len(names) != 3:
        raise Unconvertible(line, "`bounds` has a name and two numbers", FILE)
    if names[0] in said.bounds:
        raise Unconvertible(line, f"{names[0]} has bounds a second time", FILE)
    try:
        low, high = number(names[1], line), number(names[2], line)
    except Fault as fault:
        raise Unconvertible(line, getattr(fault, "words", str(fault)), FILE) from None
    if low > high:
        raise Unconvertible(line, f"the bounds of {names[0]}: {names[1]} is above {names[2]}", FILE)
    said.bounds[names[0]] = (low, high, line)
