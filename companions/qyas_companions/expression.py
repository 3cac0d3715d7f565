"""Expressions of variables, and the comparisons that become rows."""

from __future__ import annotations

from fractions import Fraction
from typing import Dict, Iterable, Optional, Union

from .faults import Foreign, NotANumber, WrongRow
from .number import Number, exact


class Linear:
    """What can be added, multiplied with numbers and compared: variables and expressions."""

    def expression(self) -> "Expression":
        raise NotImplementedError

    def __add__(self, other: "Operand") -> "Expression":
        return self.expression().plus(as_expression(other), 1)

    def __radd__(self, other: "Operand") -> "Expression":
        return as_expression(other).plus(self.expression(), 1)

    def __sub__(self, other: "Operand") -> "Expression":
        return self.expression().plus(as_expression(other), -1)

    def __rsub__(self, other: "Operand") -> "Expression":
        return as_expression(other).plus(self.expression(), -1)

    def __mul__(self, other: Number) -> "Expression":
        if isinstance(other, Linear):
            raise NotANumber("a product of two variables is not linear")
        return self.expression().times(exact(other, "the factor"))

    __rmul__ = __mul__

    def __truediv__(self, other: Number) -> "Expression":
        if isinstance(other, Linear):
            raise NotANumber("a quotient by a variable is not linear")
        divisor = exact(other, "the divisor")
        if divisor == 0:
            raise NotANumber("an expression is divided by 0")
        return self.expression().times(1 / divisor)

    def __neg__(self) -> "Expression":
        return self.expression().times(Fraction(-1))

    def __pos__(self) -> "Expression":
        return self.expression()

    def __le__(self, other: "Operand") -> "Comparison":
        return Comparison.of(self, "<=", other)

    def __ge__(self, other: "Operand") -> "Comparison":
        return Comparison.of(self, ">=", other)

    def __eq__(self, other: object) -> "Comparison":  # type: ignore[override]
        return Comparison.of(self, "=", other)  # type: ignore[arg-type]

    def __ne__(self, other: object) -> bool:
        raise WrongRow("`!=` makes no row: rows say <=, >= or ==")

    def __lt__(self, other: object) -> bool:
        raise WrongRow("`<` makes no row: write <=")

    def __gt__(self, other: object) -> bool:
        raise WrongRow("`>` makes no row: write >=")

    __hash__ = object.__hash__


class Expression(Linear):
    """Coefficients of variables by name, and a constant. `owner` is the program of the variables."""

    def __init__(self, owner: object, terms: Dict[str, Fraction], constant: Fraction) -> None:
        self.owner = owner
        self.terms = terms
        self.constant = constant

    def expression(self) -> "Expression":
        return self

    def plus(self, other: "Expression", sign: int) -> "Expression":
        if self.owner is not None and other.owner is not None and self.owner is not other.owner:
            raise Foreign("an expression holds variables of two programs")
        terms = dict(self.terms)
        for name, coefficient in other.terms.items():
            terms[name] = terms.get(name, Fraction(0)) + sign * coefficient
        owner = self.owner if self.owner is not None else other.owner
        return Expression(owner, terms, self.constant + sign * other.constant)

    def times(self, factor: Fraction) -> "Expression":
        terms = {name: factor * coefficient for name, coefficient in self.terms.items()}
        return Expression(self.owner, terms, factor * self.constant)

    def __repr__(self) -> str:
        parts = [f"{coefficient} {name}" for name, coefficient in self.terms.items()]
        return f"<{' + '.join(parts + [str(self.constant)])}>"


Operand = Union[Linear, int, Fraction]


def as_expression(value: Operand) -> Expression:
    """A number, a variable or an expression as an expression."""
    if isinstance(value, Linear):
        return value.expression()
    return Expression(None, {}, exact(value, "a constant"))


class Comparison:
    """Terms, a relation and a right side; a program's `add` makes a row of it."""

    def __init__(self, left: Expression, relation: str, right: Fraction) -> None:
        self.left = left
        self.relation = relation
        self.right = right

    @staticmethod
    def of(left: Operand, relation: str, right: Operand) -> "Comparison":
        both = as_expression(left).plus(as_expression(right), -1)
        return Comparison(Expression(both.owner, both.terms, Fraction(0)), relation, -both.constant)

    def __bool__(self) -> bool:
        raise WrongRow("a comparison of variables is neither true nor false: `1 <= x <= 3` is two rows")


def total(parts: Iterable[Operand]) -> Expression:
    """The sum of variables, expressions and numbers, in time that grows with their terms alone."""
    owner: Optional[object] = None
    terms: Dict[str, Fraction] = {}
    constant = Fraction(0)
    for part in parts:
        expression = as_expression(part)
        if owner is not None and expression.owner is not None and owner is not expression.owner:
            raise Foreign("a sum holds variables of two programs")
        owner = owner if owner is not None else expression.owner
        constant += expression.constant
        for name, coefficient in expression.terms.items():
            terms[name] = terms.get(name, Fraction(0)) + coefficient
    return Expression(owner, terms, constant)
