"""Rows of a program, and how terms are written."""

from __future__ import annotations

from fractions import Fraction
from math import lcm
from typing import Callable, Dict, Iterable, List, Optional, Sequence, Tuple

from .number import decimal, signed, tens_of

Terms = Sequence[Tuple[str, Fraction]]


class Row:
    """Terms, a relation and a right side. `line` and `source` are its place and words in the text that it was read from."""

    __slots__ = ("name", "terms", "relation", "right", "line", "source")

    def __init__(
        self, name: Optional[str], terms: Terms, relation: str, right: Fraction, line: int = 0, source: str = ""
    ) -> None:
        self.name = name
        self.terms = tuple(terms)
        self.relation = relation
        self.right = right
        self.line = line
        self.source = source

    def described(self) -> Tuple[object, ...]:
        """What the row says, whatever its place."""
        return (self.name, tuple(summed(self.terms).items()), self.relation, self.right)

    def text(self) -> str:
        """The row in the format. Where a number is no finite decimal, the row is multiplied until all are whole."""
        numbers = [coefficient for _, coefficient in self.terms] + [self.right]
        factor = 1
        if any(tens_of(number.denominator) < 0 for number in numbers):
            factor = lcm(*(number.denominator for number in numbers))
        terms = [(name, factor * coefficient) for name, coefficient in self.terms]
        label = f"{self.name}: " if self.name else ""
        return f"{label}{terms_text(terms)} {self.relation} {signed(factor * self.right)}"

    def shown(self) -> str:
        """The row's own words in the text it was read from, else as the format writes it."""
        return self.source or self.text()


def summed(terms: Terms) -> Dict[str, Fraction]:
    """The coefficient of each variable."""
    sums: Dict[str, Fraction] = {}
    for name, coefficient in terms:
        sums[name] = sums.get(name, Fraction(0)) + coefficient
    return sums


def term_text(name: str, coefficient: Fraction, is_first: bool, show: Callable[[Fraction], str]) -> str:
    """One term with its sign; the first has none where it is positive."""
    sign = "- " if coefficient < 0 else "" if is_first else "+ "
    size = abs(coefficient)
    return f"{sign}{name}" if size == 1 else f"{sign}{show(size)} {name}"


def terms_text(terms: Iterable[Tuple[str, Fraction]], show: Callable[[Fraction], str] = decimal) -> str:
    """Terms in the format: `x - 2 y + 0.5 z`."""
    parts: List[str] = []
    for name, coefficient in terms:
        parts.append(term_text(name, coefficient, not parts, show))
    return " ".join(parts)
