"""Exact numbers: what may be given as one, and decimals as text."""

from __future__ import annotations

import re
from fractions import Fraction
from typing import Union

from .faults import FloatGiven, NotANumber, NumberRange

Number = Union[int, Fraction]

DECIMAL = re.compile(r"(?P<whole>[0-9]*)(?:\.(?P<part>[0-9]*))?(?:[eE](?P<power>[+-]?[0-9]+))?")
MOST_DIGITS = 38
MOST = 2**127 - 1
MOST_POWER = 1000


def exact(value: object, what: str) -> Fraction:
    """The number as a fraction; a float is refused, and so is everything that isn't a number."""
    if isinstance(value, float):
        raise FloatGiven(
            f"{what} is the float {value!r}, which is rounded in base two: "
            f"give an int or a Fraction, as Fraction('{value!r}') or Fraction(1, 3)"
        )
    if isinstance(value, bool) or not isinstance(value, (int, Fraction)):
        raise NotANumber(f"{what} is {value!r}: give an int or a Fraction")
    return Fraction(value)


def significant(digits: str) -> int:
    """How many digits there are without the zeros in front and at the end."""
    return len(digits.strip("0"))


def in_range(value: Fraction) -> bool:
    """Whether the program has this number: numerator and denominator within 128 bits."""
    return abs(value.numerator) <= MOST and value.denominator <= MOST


def read_decimal(word: str) -> Fraction:
    """The number that a decimal without a sign spells, exactly."""
    found = DECIMAL.fullmatch(word)
    if found is None or not (found["whole"] or found["part"]):
        raise NotANumber(f"{word} is no decimal number")
    part = found["part"] or ""
    digits = found["whole"] + part
    if not digits.strip("0"):
        return Fraction(0)
    shift = found["power"] or "0"
    if significant(digits) > MOST_DIGITS or len(shift.lstrip("+-0")) > 4 or abs(int(shift)) > MOST_POWER:
        raise NumberRange(f"the number {shortened(word)} is out of the format's range")
    power = int(shift) - len(part)
    value = int(digits) * Fraction(10) ** power
    if not in_range(value):
        raise NumberRange(f"the number {shortened(word)} is out of the format's range")
    return value


def shortened(word: str) -> str:
    """A long word as its beginning."""
    return word if len(word) <= 60 else word[:57] + ".."


def tens_of(denominator: int) -> int:
    """By how many tens a denominator divides, or -1 where a fraction over it is no finite decimal."""
    twos = fives = 0
    while denominator % 2 == 0:
        denominator //= 2
        twos += 1
    while denominator % 5 == 0:
        denominator //= 5
        fives += 1
    return max(twos, fives) if denominator == 1 else -1


def decimal(value: Fraction) -> str:
    """A number of at least 0 as the format writes it."""
    places = tens_of(value.denominator)
    if places < 0:
        raise NumberRange(f"{value} is no finite decimal, and the format writes decimals alone")
    digits = str(value.numerator * 10**places // value.denominator).rjust(places + 1, "0")
    text = f"{digits[:-places]}.{digits[-places:]}" if places else digits
    if significant(digits) > MOST_DIGITS or not in_range(value):
        raise NumberRange(f"the number {shortened(text)} is out of the format's range")
    return text


def signed(value: Fraction) -> str:
    """A number as the format writes it behind a relation: the sign stands apart."""
    return decimal(value) if value >= 0 else f"- {decimal(-value)}"


def plain(value: Number) -> str:
    """A number for a reader: `3`, `-3`, `73/20`."""
    return str(value)
