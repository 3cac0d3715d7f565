"""Deterministic equivalents: other solvers find the game's value."""

import subprocess
import unittest
from fractions import Fraction
from pathlib import Path

import support
from qyas_companions import binary, Program
from qyas_companions.equivalent import equivalent, legal_plays
from qyas_companions.faults import Nothing, TooMany
from qyas_companions.game import Game
from test_convert import second_opinion


class EquivalentTest(unittest.TestCase):
    def test_legal_plays(self) -> None:
        for path in support.EXAMPLES:
            program = support.solved(path).game.program
            mine = [tuple(v.values()) for v in support.universal_values(program) if support.is_legal(program, v)]
            self.assertEqual(legal_plays(Game(program)), mine)

    def test_a_small_one_whole(self) -> None:
        found = equivalent(support.solved(support.example("crew-after")).game)
        self.assertIn("\\ v2_crewA_2: crewA after failA = 1\n", found)
        self.assertIn("\n c1: z - 3 v2_crewA_1 - 2 v3_crewB_1 <= 0\n", found)
        self.assertTrue(found.endswith("\nEnd\n"))

    def test_limits(self) -> None:
        game = support.solved(support.example("lines")).game
        with self.assertRaisesRegex(TooMany, "more than 10 legal plays"):
            equivalent(game, 10)
        equivalent(game, 11)
        with self.assertRaisesRegex(Nothing, "empty"):
            equivalent(support.solved(support.example("promises")).game)

    @unittest.skipUnless(support.has("glpsol") or support.has("cbc"), "no other solver is installed")
    def test_other_solvers_find_the_value(self) -> None:
        solvers = [words for words in ("glpsol --lp", "cbc") if support.has(words.split()[0])]
        with support.room() as folder:
            path = Path(folder) / "equivalent.lp"
            for example in support.EXAMPLES:
                found = support.solved(example)
                if found.value is None:
                    continue
                path.write_text(equivalent(found.game))
                for words in solvers:
                    value = second_opinion(words, path)
                    self.assertLess(abs(value - found.value), Fraction(1, 10**6), (example.name, words))

    @unittest.skipUnless(support.has("glpsol"), "glpsol isn't installed")
    def test_what_can_not_be_met_is_infeasible(self) -> None:
        p = Program()
        x, u = p.exists("x", binary), p.forall("u", binary)
        p.add(x >= 0)
        p.add(u <= 0)
        with support.room() as folder:
            for program in (p, support.solved(support.example("crew-before")).game.program):
                path = Path(folder) / "equivalent.lp"
                path.write_text(equivalent(Game(program)))
                done = subprocess.run(["glpsol", "--lp", str(path)], stdout=subprocess.PIPE, check=True)
                self.assertIn(b"NO ", done.stdout)


if __name__ == "__main__":
    unittest.main()
