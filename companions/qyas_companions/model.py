"""Programs, as planners build them: variables in the order of play, rows, an objective, and the text of it all.

    p = Program("maximize")
    depot = p.exists("depot", binary)
    shock = p.forall("shock", binary)
    loan = p.exists("loan", low=0, high=3)
    p.add(4*depot + 2*shock - 3*loan <= 2, name="budget")
    p.objective = 6*depot - 3*loan
    print(p.text())
"""

from __future__ import annotations

import enum
from fractions import Fraction
from typing import Dict, List, Optional, Sequence, Tuple

from .expression import Comparison, Expression, Linear, Operand, as_expression
from .faults import Duplicate, Foreign, WrongName, WrongRow, WrongVariable
from .names import why_no_name
from .number import Number, decimal, exact, signed
from .row import Row, Terms, summed, terms_text

LINE_WIDTH = 100


class Kind(enum.Enum):
    """What values a variable takes: 0 and 1, whole numbers, or all numbers between its bounds."""

    BINARY = "binary"
    WHOLE = "whole"
    CONTINUOUS = "continuous"


binary = Kind.BINARY
whole = Kind.WHOLE
continuous = Kind.CONTINUOUS


class Variable(Linear):
    """A variable of a program, with its bounds and the player who sets it."""

    def __init__(
        self, owner: "Program", name: str, kind: Kind, low: Fraction, high: Fraction, is_universal: bool
    ) -> None:
        self.owner = owner
        self.name = name
        self.kind = kind
        self.low = low
        self.high = high
        self.is_universal = is_universal

    def expression(self) -> Expression:
        return Expression(self.owner, {self.name: Fraction(1)}, Fraction(0))

    def __repr__(self) -> str:
        player = "forall" if self.is_universal else "exists"
        return f"<{player} {self.name} {self.low}..{self.high} {self.kind.value}>"

    def described(self) -> Tuple[object, ...]:
        return (self.name, self.kind, self.low, self.high, self.is_universal)


class Program:
    """A quantified program. Variables are set in the order in which they are made."""

    def __init__(self, sense: str = "maximize") -> None:
        if sense not in ("maximize", "minimize"):
            raise WrongRow(f"the sense {sense!r} is neither 'maximize' nor 'minimize'")
        self.sense = sense
        self.variables: Dict[str, Variable] = {}
        self.rows: List[Row] = []
        self.uncertainty: List[Row] = []
        self.comments: List[str] = []
        self.objective_name: Optional[str] = None
        self.objective_terms: Terms = ()
        self.objective_constant = Fraction(0)
        self._labels: Dict[str, Row] = {}

    def exists(
        self, name: str, kind: Kind = whole, low: Optional[Number] = None, high: Optional[Number] = None
    ) -> Variable:
        """A variable that the existential player sets next."""
        return self._variable(name, kind, low, high, False)

    def forall(
        self, name: str, kind: Kind = whole, low: Optional[Number] = None, high: Optional[Number] = None
    ) -> Variable:
        """A variable that the universal player sets next."""
        if kind is continuous:
            raise WrongVariable(f"{name} is universal and continuous: the universal player sets whole numbers")
        before = next((v.name for v in self.variables.values() if v.kind is continuous), None)
        if before is not None:
            raise WrongVariable(f"{name} is universal behind the continuous {before}: these come last")
        return self._variable(name, kind, low, high, True)

    def _variable(
        self, name: str, kind: Kind, low: Optional[Number], high: Optional[Number], is_universal: bool
    ) -> Variable:
        reason = why_no_name(name)
        if reason:
            raise WrongName(reason)
        if name in self.variables:
            raise Duplicate(f"there is a variable {name} already")
        if not isinstance(kind, Kind):
            raise WrongVariable(f"the kind of {name} is {kind!r}: it is binary, whole or continuous")
        if high is None and kind is not binary:
            raise WrongVariable(f"{name} has no upper bound: the format asks for one")
        least = Fraction(0) if low is None else exact(low, f"the lower bound of {name}")
        most = Fraction(1) if high is None else exact(high, f"the upper bound of {name}")
        if kind is binary:
            least, most = max(least, Fraction(0)), min(most, Fraction(1))
        signed(least), signed(most)
        variable = Variable(self, name, kind, least, most, is_universal)
        self.variables[name] = variable
        return variable

    def add(self, comparison: Comparison, name: Optional[str] = None) -> Row:
        """A row that the existential player has to meet."""
        return self._row(self.rows, comparison, name)

    def uncertain(self, comparison: Comparison, name: Optional[str] = None) -> Row:
        """An uncertainty row, which binds the universal player alone."""
        row = self._row([], comparison, None)
        existential = next((v for v, _ in row.terms if not self.variables[v].is_universal), None)
        if existential is not None:
            raise WrongRow(f"{existential} is existential, and stands in an uncertainty row")
        return self._row(self.uncertainty, comparison, name)

    def _row(self, rows: List[Row], comparison: Comparison, name: Optional[str]) -> Row:
        if not isinstance(comparison, Comparison):
            raise WrongRow(f"{comparison!r} is no row: compare an expression with <=, >= or ==")
        self._own(comparison.left)
        if not comparison.left.terms:
            raise WrongRow("a row without variables")
        row = Row(name, tuple(comparison.left.terms.items()), comparison.relation, comparison.right)
        if name is not None:
            reason = why_no_name(name)
            if reason:
                raise WrongName(reason)
            if name in self._labels:
                raise Duplicate(f"there is a row {name} already")
        row.text()
        if name is not None:
            self._labels[name] = row
        rows.append(row)
        return row

    def _own(self, expression: Expression) -> None:
        if expression.owner is not None and expression.owner is not self:
            raise Foreign(f"{next(iter(expression.terms), 'a variable')} is a variable of another program")

    @property
    def objective(self) -> Expression:
        return Expression(self, summed(self.objective_terms), self.objective_constant)

    @objective.setter
    def objective(self, value: Operand) -> None:
        expression = as_expression(value)
        self._own(expression)
        terms = tuple(expression.terms.items())
        terms_text(terms), signed(expression.constant)
        self.objective_terms = terms
        self.objective_constant = expression.constant

    def described(self) -> Tuple[object, ...]:
        """All that the program says, comments and places left out: two programs say the same where these are equal."""
        return (
            self.sense,
            self.objective_name,
            tuple(summed(self.objective_terms).items()),
            self.objective_constant,
            tuple(variable.described() for variable in self.variables.values()),
            tuple(row.described() for row in self.rows),
            tuple(row.described() for row in self.uncertainty),
        )

    def text(self) -> str:
        """The program in the format of docs/FORMAT.md."""
        lines = [f"\\ {line}".rstrip() for comment in self.comments for line in comment.splitlines() or [""]]
        lines += [self.sense.upper(), *self._objective_lines(), "SUBJECT TO"]
        lines += [row.text() for row in self.rows]
        if self.uncertainty:
            lines += ["UNCERTAINTY SUBJECT TO", *(row.text() for row in self.uncertainty)]
        lines += self._bound_lines()
        everyone = list(self.variables.values())
        lines += section("GENERALS", [v.name for v in everyone if v.kind is whole])
        lines += section("BINARIES", [v.name for v in everyone if v.kind is binary])
        lines += section("EXISTS", [v.name for v in everyone if not v.is_universal])
        lines += section("ALL", [v.name for v in everyone if v.is_universal])
        lines += ["ORDER", *wrapped([v.name for v in everyone]), "END"]
        return "\n".join(lines) + "\n"

    def _objective_lines(self) -> List[str]:
        label = f"{self.objective_name}: " if self.objective_name else ""
        text = terms_text(self.objective_terms)
        if self.objective_constant > 0:
            text += f"{' + ' if text else ''}{decimal(self.objective_constant)}"
        elif self.objective_constant < 0:
            text += f"{' ' if text else ''}{signed(self.objective_constant)}"
        return [label + text] if label or text else []

    def _bound_lines(self) -> List[str]:
        lines = [line for variable in self.variables.values() for line in bounds_of(variable)]
        return ["BOUNDS", *lines] if lines else []


def bounds_of(variable: Variable) -> List[str]:
    """The lines of BOUNDS that a variable needs."""
    lines = []
    if variable.low != 0:
        lines.append(f"{variable.name} >= {signed(variable.low)}")
    if variable.kind is not binary or variable.high != 1:
        lines.append(f"{variable.name} <= {signed(variable.high)}")
    return lines


def section(heading: str, names: Sequence[str]) -> List[str]:
    """A section of names, where there are any."""
    return [heading, *wrapped(names)] if names else []


def wrapped(names: Sequence[str]) -> List[str]:
    """Names with spaces between them, on lines of about a hundred characters."""
    lines: List[str] = []
    for name in names:
        if lines and len(lines[-1]) + 1 + len(name) <= LINE_WIDTH:
            lines[-1] += " " + name
        else:
            lines.append(name)
    return lines
