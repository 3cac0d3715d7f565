"""The normal form of a program: its variables in game order, whole rows, and which row of the text each comes from."""

from __future__ import annotations

from fractions import Fraction
from math import ceil, floor, lcm
from typing import Dict, List, Optional, Sequence, Tuple

from .model import Kind, Program, Variable
from .row import Row, summed

Box = Sequence[Tuple[int, int]]


class GameRow:
    """A row of the normal form: whole coefficients by variable, and at most the right side."""

    __slots__ = ("terms", "right", "number", "side", "row", "bound_of")

    def __init__(
        self, terms: Dict[int, int], right: int, number: int, side: str, row: Optional[Row], bound_of: str = ""
    ) -> None:
        self.terms = terms
        self.right = right
        self.number = number
        self.side = side
        self.row = row
        self.bound_of = bound_of

    def least(self, box: Box) -> int:
        """The least value of the terms over a box."""
        return sum(c * box[at][0 if c > 0 else 1] for at, c in self.terms.items())

    def is_dead(self, box: Box) -> bool:
        """Whether the row can't hold anywhere in a box."""
        return self.least(box) > self.right

    def holds(self, values: Sequence[int]) -> bool:
        """Whether the row holds where all variables are set."""
        return sum(c * values[at] for at, c in self.terms.items()) <= self.right


class Game:
    """A program in normal form. Variables count from 0 here, and from 1 in certificates."""

    def __init__(self, program: Program) -> None:
        self.program = program
        everyone = list(program.variables.values())
        self.wholes = [v for v in everyone if v.kind is not Kind.CONTINUOUS]
        self.variables: List[Variable] = self.wholes + [v for v in everyone if v.kind is Kind.CONTINUOUS]
        self.place = {variable.name: at for at, variable in enumerate(self.variables)}
        self.box: List[Tuple[int, int]] = [rounded(variable) for variable in self.variables]
        self.universals = [at for at, variable in enumerate(self.variables) if variable.is_universal]
        self.rows = self.normal(program.rows) + self.bound_rows()
        self.uncertainty = self.normal(program.uncertainty)
        self.is_minimized = program.sense == "minimize"
        self.weights = {self.place[n]: c for n, c in summed(program.objective_terms).items() if c != 0}
        self.constant = program.objective_constant
        self.scale = lcm(self.constant.denominator, *(c.denominator for c in self.weights.values()))

    def normal(self, rows: Sequence[Row]) -> List[GameRow]:
        """Rows of the text, brought to normal form in order."""
        found: List[GameRow] = []
        for number, row in enumerate(rows, 1):
            sums = {self.place[name]: c for name, c in summed(row.terms).items() if c != 0}
            factor = lcm(row.right.denominator, *(c.denominator for c in sums.values()))
            if row.relation in ("<=", "="):
                found.append(whole_row(sums, row.right, factor, number, row, "at most" if row.relation == "=" else ""))
            if row.relation in (">=", "="):
                found.append(whole_row(sums, row.right, -factor, number, row, "at least" if row.relation == "=" else ""))
        return found

    def bound_rows(self) -> List[GameRow]:
        """Rows for the bounds of continuous variables that aren't whole."""
        found: List[GameRow] = []
        for variable in self.variables[len(self.wholes) :]:
            at = {self.place[variable.name]: Fraction(1)}
            for bound, sign in ((variable.low, -1), (variable.high, 1)):
                if bound.denominator != 1:
                    found.append(whole_row(at, bound, sign * bound.denominator, 0, None, ""))
                    found[-1].bound_of = variable.name
        return found

    def value(self, values: Sequence[int]) -> Fraction:
        """What the objective comes to, in the file's sense."""
        return self.constant + sum((c * values[at] for at, c in self.weights.items()), Fraction(0))

    def bound(self, entries: Sequence[Tuple[str, int, Fraction]], box: Box) -> Fraction:
        """By how much, in the file's sense, rows with their multipliers bound the objective over a box."""
        sign = -1 if self.is_minimized else 1
        combined = {at: -sign * self.scale * c for at, c in self.weights.items()}
        right = sign * self.scale * self.constant
        for kind, number, multiplier in entries:
            row = self.row(kind, number)
            right += multiplier * row.right
            for at, c in row.terms.items():
                combined[at] = combined.get(at, Fraction(0)) + multiplier * c
        least = sum((c * box[at][0 if c > 0 else 1] for at, c in combined.items()), Fraction(0))
        return sign * (right - least) / self.scale

    def row(self, kind: str, number: int) -> GameRow:
        """A row by the name that it has in certificates: `r` or `u`, and its number from 1."""
        return (self.rows if kind == "r" else self.uncertainty)[number - 1]

    def is_play(self, values: Sequence[int]) -> bool:
        """Whether the universal values of a full assignment are a universal play."""
        within = all(self.box[at][0] <= values[at] <= self.box[at][1] for at in self.universals)
        return within and all(row.holds(values) for row in self.uncertainty)


def rounded(variable: Variable) -> Tuple[int, int]:
    """A variable's bounds: rounded inwards for a whole one, outwards for a continuous one."""
    if variable.kind is Kind.CONTINUOUS:
        return floor(variable.low), ceil(variable.high)
    return ceil(variable.low), floor(variable.high)


def whole_row(
    sums: Dict[int, Fraction], right: Fraction, factor: int, number: int, row: Optional[Row], side: str
) -> GameRow:
    """A row multiplied by a number that makes it whole."""
    return GameRow({at: int(c * factor) for at, c in sums.items()}, int(right * factor), number, side, row)
