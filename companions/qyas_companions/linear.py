"""Linear programs as LP and MPS files state them, before it is said who sets which variable."""

from __future__ import annotations

import re
from fractions import Fraction
from typing import Dict, List, Optional, Tuple

from .faults import Fault, Unconvertible
from .number import DECIMAL, read_decimal, shortened

INFINITE_DIGITS = 21
INFINITE_WORD = re.compile(r"inf(inity)?", re.IGNORECASE)


class Bound:
    """A bound of a variable. No value: there is none on this side. `wrong`: why it can't be one."""

    def __init__(self, value: Optional[Fraction], line: int = 0, is_given: bool = False, wrong: str = "") -> None:
        self.value = value
        self.line = line
        self.is_given = is_given
        self.wrong = wrong


class Column:
    """A variable of the file, and the line on which it stands first."""

    def __init__(self, name: str, line: int) -> None:
        self.name = name
        self.line = line
        self.low = Bound(Fraction(0))
        self.high = Bound(None)
        self.is_whole = False
        self.is_binary = False

    def bound(self, relation: str, value: Optional[Fraction], sign: int, line: int) -> None:
        """Says a bound; no value is infinity with this sign. The later of two counts."""
        if relation != ">=":
            wrong = "its upper bound is minus infinity" if value is None and sign < 0 else ""
            self.high = Bound(value, line, True, wrong)
        if relation != "<=":
            wrong = "its lower bound is infinity" if value is None and sign > 0 else ""
            self.low = Bound(value, line, True, wrong)


class LinearRow:
    """A row of the file: its terms lie between two ends, one of which may be missing."""

    def __init__(self, name: Optional[str], number: int, line: int) -> None:
        self.name = name
        self.number = number
        self.line = line
        self.terms: List[Tuple[str, Fraction]] = []
        self.low: Optional[Fraction] = None
        self.high: Optional[Fraction] = None

    def called(self) -> str:
        return self.name if self.name is not None else f"#{self.number}"

    def relate(self, relation: str, value: Fraction) -> None:
        """Says an end of the row, or both."""
        if relation != ">=":
            self.high = value
        if relation != "<=":
            self.low = value


class LinearProgram:
    """All that a file says."""

    def __init__(self, kind: str) -> None:
        self.kind = kind
        self.is_maximized = False
        self.is_sense_said = False
        self.objective_name: Optional[str] = None
        self.objective: List[Tuple[str, Fraction]] = []
        self.constant = Fraction(0)
        self.columns: Dict[str, Column] = {}
        self.rows: List[LinearRow] = []
        self.free_rows: Dict[str, int] = {}

    def column(self, name: str, line: int) -> Column:
        """The variable of this name, which is new where it stands for the first time."""
        if name not in self.columns:
            self.columns[name] = Column(name, line)
        return self.columns[name]


def number(word: str, line: int) -> Fraction:
    """A decimal number with an optional sign."""
    sign = -1 if word[:1] == "-" else 1
    try:
        return sign * read_decimal(word[1:] if word[:1] in ("+", "-") else word)
    except Fault as fault:
        raise Unconvertible(line, str(fault)) from None


def bound_number(word: str, line: int) -> Tuple[Optional[Fraction], int]:
    """A bound's value and its sign; no value where it is infinite: by a word, or from 1e20 on."""
    sign = -1 if word[:1] == "-" else 1
    size = word[1:] if word[:1] in ("+", "-") else word
    if INFINITE_WORD.fullmatch(size) or is_infinite(size):
        return None, sign
    return number(word, line), sign


def is_infinite(word: str) -> bool:
    """Whether a decimal without a sign is 1e20 or more."""
    found = DECIMAL.fullmatch(word)
    if found is None or not ((found["whole"] or "") + (found["part"] or "")).strip("0"):
        return False
    digits = (found["whole"] or "") + (found["part"] or "")
    zeros = len(digits) - len(digits.lstrip("0"))
    power = found["power"] or "0"
    if len(power.lstrip("+-0")) > 6:
        return not power.startswith("-")
    return len(found["whole"] or "") - zeros + int(power) >= INFINITE_DIGITS


def not_expected(word: str, due: str, line: int) -> Unconvertible:
    """The fault that something else stands where something is due."""
    return Unconvertible(line, f"{due} is due, not {shortened(word)!r}" if word else f"{due} is due")
