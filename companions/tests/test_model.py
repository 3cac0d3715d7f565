"""Programs as planners build them."""

import random
import unittest
from fractions import Fraction

import support  # noqa: F401
from qyas_companions import Program, binary, continuous, solve, text, total, whole
from qyas_companions.faults import (
    Duplicate,
    FloatGiven,
    Foreign,
    NotANumber,
    NumberRange,
    WrongName,
    WrongRow,
    WrongVariable,
)


def small() -> Program:
    p = Program("maximize")
    depot = p.exists("depot", binary)
    shock = p.forall("shock", low=0, high=3)
    loan = p.exists("loan", low=-1, high=Fraction(5, 2))
    p.add(4 * depot + 2 * shock - 3 * loan <= 4, name="budget")
    p.add(loan + Fraction(1, 3) * depot == loan * 2)
    p.uncertain(shock - 1 <= 1, name="mild")
    p.objective = 6 * depot - 3 * loan + Fraction(1, 2)
    return p


class ModelTest(unittest.TestCase):
    def test_the_text_is_the_format(self) -> None:
        self.assertEqual(
            small().text().split("\n"),
            [
                "MAXIMIZE",
                "6 depot - 3 loan + 0.5",
                "SUBJECT TO",
                "budget: 4 depot + 2 shock - 3 loan <= 4",
                "- 3 loan + depot = 0",
                "UNCERTAINTY SUBJECT TO",
                "mild: shock <= 2",
                "BOUNDS",
                "shock <= 3",
                "loan >= - 1",
                "loan <= 2.5",
                "GENERALS",
                "shock loan",
                "BINARIES",
                "depot",
                "EXISTS",
                "depot loan",
                "ALL",
                "shock",
                "ORDER",
                "depot shock loan",
                "END",
                "",
            ],
        )

    def test_a_program_is_solved(self) -> None:
        self.assertEqual(solve(small()).value, Fraction(1, 2))

    def test_a_text_is_read_back(self) -> None:
        for seed in range(60):
            program = random_program(random.Random(seed))
            again = text.read(program.text().encode())
            self.assertEqual(again.described(), program.described(), seed)
            self.assertEqual(again.comments, program.comments)
            self.assertEqual(again.text(), program.text())

    def test_floats_are_refused(self) -> None:
        p = Program()
        x = p.exists("x", binary)
        for build in (lambda: 0.5 * x, lambda: x + 0.5, lambda: x <= 1.5, lambda: x / 2.0):
            with self.assertRaisesRegex(FloatGiven, "rounded"):
                build()
        with self.assertRaises(FloatGiven):
            p.exists("y", whole, high=1.0)
        with self.assertRaises(NotANumber):
            p.exists("y", whole, high="1")
        with self.assertRaises(NotANumber):
            x * x

    def test_names_are_refused_at_once(self) -> None:
        p = Program()
        for name in ("", "2x", "a b", "x,1", "max", "Free", "é", ".x"):
            with self.assertRaises(WrongName):
                p.exists(name, binary)
        p.exists("x", binary)
        with self.assertRaises(Duplicate):
            p.forall("x", binary)
        p.add(p.variables["x"] <= 1, name="row")
        with self.assertRaises(Duplicate):
            p.add(p.variables["x"] <= 1, name="row")
        with self.assertRaises(WrongName):
            p.add(p.variables["x"] <= 1, name="a row")

    def test_foreign_variables_are_refused(self) -> None:
        p, q = Program(), Program()
        x, y = p.exists("x", binary), q.exists("y", binary)
        for build in (lambda: x + y, lambda: total([x, y]), lambda: p.add(y <= 1), lambda: setattr(p, "objective", y)):
            with self.assertRaises(Foreign):
                build()

    def test_what_the_format_cannot_say_is_refused(self) -> None:
        p = Program()
        x = p.exists("x", binary)
        u = p.forall("u", binary)
        for build in (
            lambda: p.exists("y"),
            lambda: p.forall("v", continuous, high=1),
            lambda: p.exists("y", "binary"),
        ):
            with self.assertRaises(WrongVariable):
                build()
        for build in (
            lambda: p.uncertain(x + u <= 1),
            lambda: p.add(x),
            lambda: p.add(0 <= x <= 1),
            lambda: x < 1,
            lambda: x != 1,
        ):
            with self.assertRaises(WrongRow):
                build()
        with self.assertRaises(NumberRange):
            p.objective = x / 3
        with self.assertRaises(NumberRange):
            p.add(10**40 * x <= 1)
        p.exists("c", continuous, high=1)
        with self.assertRaises(WrongVariable):
            p.forall("late", binary)


def random_program(chance: random.Random) -> Program:
    """A program with a little of everything."""
    p = Program(chance.choice(["maximize", "minimize"]))
    p.comments = ["one", "two words"][: chance.randrange(3)]
    everyone = []
    for at in range(chance.randrange(1, 7)):
        kind = chance.choice([binary, whole])
        low = chance.choice([None, -2, Fraction(1, 4)])
        high = None if kind is binary else chance.choice([3, Fraction(7, 2), 10**20])
        make = p.forall if chance.random() < 0.4 else p.exists
        everyone.append(make(f"v{at}{chance.choice(['', '[1]', '.x', '#'])}", kind, low, high))
    if chance.random() < 0.3:
        everyone.append(p.exists("real", continuous, low=-1, high=Fraction(3, 8)))
    for at in range(chance.randrange(4)):
        left = total(random_number(chance) * v for v in everyone if chance.random() < 0.8 or v is everyone[0])
        right = random_number(chance)
        p.add([left <= right, left >= right, left == right][at % 3], name=f"row{at}" if chance.random() < 0.5 else None)
    universal = [v for v in everyone if v.is_universal]
    if universal:
        p.uncertain(total(universal) <= 2, name="budget")
    p.objective = total(random_number(chance) * v for v in everyone) + random_number(chance)
    return p


def random_number(chance: random.Random) -> Fraction:
    return Fraction(chance.randrange(-40, 41), chance.choice([1, 2, 8, 10, 125]))


if __name__ == "__main__":
    unittest.main()
