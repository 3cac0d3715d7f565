"""Explanations: those of two examples are kept whole; all others are asked for what they must tell."""

import re
import unittest
from fractions import Fraction

import support

KEPT = ("crew-after", "surge", "water")


def explained(name: str) -> str:
    found = support.solved(support.example(name))
    return "".join(f"{line}\n" for line in [*found.explain(), *found.explain(True)])


class ExplainTest(unittest.TestCase):
    def test_kept_explanations(self) -> None:
        for name in KEPT:
            self.assertEqual(explained(name), (support.HERE / "kept" / f"{name}.txt").read_text(), name)

    def test_each_example_tells_its_worst_play(self) -> None:
        for path in support.EXAMPLES:
            found = support.solved(path)
            said = list(found.explain())
            if found.value is None:
                self.assertRegex(said[0], "^(infeasible|empty): ")
                continue
            self.assertTrue(said[0].startswith(f"optimal {found.value}: "))
            self.assertRegex(said[-1], f"^Worst play: .*; (earns|costs) {found.value}$")

    def test_each_refutation_names_rows_by_their_words(self) -> None:
        for path in support.EXAMPLES:
            source = path.read_text()
            found = support.solved(path)
            for line in found.explain(True):
                for words in line.split("`")[1::2]:
                    self.assertIn(words, source)

    def test_refutations_bound_the_objective_by_the_value(self) -> None:
        for path in support.EXAMPLES:
            found = support.solved(path)
            if found.value is None:
                continue
            side = "at least" if found.game.is_minimized else "at most"
            said = "\n".join(found.explain(True))
            bounds = [Fraction(bound) for bound in re.findall(rf"the objective is {side} ([-0-9/]+)", said)]
            self.assertTrue(bounds, path.name)
            worst = min(bounds) if found.game.is_minimized else max(bounds)
            self.assertTrue(worst >= found.value if found.game.is_minimized else worst <= found.value, path.name)

    def test_games_without_moves_or_values(self) -> None:
        for data, last in (
            (b"MAX 3 ST ORDER END", "Worst play: no moves; earns 3"),
            (b"MAX ST BOUNDS 3 <= x <= 2 GENERALS x ORDER x END", "  x has no value within its bounds"),
            (b"MAX ST BOUNDS 3 <= u <= 2 GENERALS u ALL u ORDER u END", "  u has no value within its bounds"),
            (
                b"MAX ST UNCERTAINTY ST 2 u = 1\nBINARIES u ALL u ORDER u END",
                "  if u = 1: uncertainty row 1, `2 u = 1`, taken as at most, can't hold (line 1)",
            ),
        ):
            self.assertEqual(list(support.solution.solve(data).explain())[-1], last)

    def test_equal_branches_are_told_once(self) -> None:
        said = list(support.solved(support.example("fleet")).explain())
        self.assertIn("  set vans = 2, bikes = 2; if rush = 0..1 and fair = 0..1: set overtime = 0; costs 10", said)

    def test_what_was_not_checked_is_told(self) -> None:
        found = support.solved(support.example("crew-after"))
        given = support.solution.Solution(found.game, found.certificate, True)
        self.assertEqual(next(given.explain()), "This certificate was given, and wasn't checked.")
        self.assertIn("wasn't checked", given.dot())


if __name__ == "__main__":
    unittest.main()
