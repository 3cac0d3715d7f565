"""Policies, followed through plays; what each play earns is computed from the problem's rows here."""

import random
import unittest
from fractions import Fraction
from typing import Dict, List

import support
from qyas_companions.faults import LeftOver, NoPolicy, Unfinished
from qyas_companions.follow import Play, follow

PLAYS = 200


def moves_of(said: List[str]) -> Dict[str, Fraction]:
    """The policy's moves among the lines."""
    pairs = [line.split(" = ") for line in said if " = " in line and not line.startswith("illegal")]
    return {name: Fraction(value) for name, value in pairs}


class FollowTest(unittest.TestCase):
    def test_each_legal_play_earns_the_value(self) -> None:
        chance = random.Random(3)
        for path in support.EXAMPLES:
            found = support.solved(path)
            if found.certificate.policy is None:
                continue
            program = found.game.program
            legal = [values for values in support.universal_values(program) if support.is_legal(program, values)]
            for _ in range(PLAYS):
                universal = chance.choice(legal)
                said = list(found.follow(f"{name}={value}" for name, value in universal.items()))
                values = {**universal, **moves_of(said)}
                self.assertEqual(set(values), set(program.variables))
                self.assertTrue(all(support.holds(row, values) for row in program.rows), path.name)
                self.assertTrue(all(v.low <= values[v.name] <= v.high for v in program.variables.values()))
                earned = support.objective(program, values)
                self.assertEqual(said[-1], f"value {earned}")
                self.assertTrue(earned <= found.value if program.sense == "minimize" else earned >= found.value)

    def test_each_illegal_play_is_refused(self) -> None:
        for path in support.EXAMPLES:
            found = support.solved(path)
            program = found.game.program
            if found.certificate.policy is None or not program.uncertainty:
                continue
            for values in support.universal_values(program):
                told = any(line.startswith("illegal: ") for line in self.said_until_end(found, values))
                self.assertEqual(told, not support.is_legal(program, values), (path.name, values))

    def said_until_end(self, found: support.solution.Solution, values: Dict[str, int]) -> List[str]:
        play = Play(found.game, found.certificate)
        said = play.moves()
        for value in values.values():
            reason = play.why_illegal(value)
            if reason:
                return [*said, f"illegal: {reason}"]
            play.move(value)
            said += play.moves()
        return said

    def test_what_is_said(self) -> None:
        found = support.solved(support.example("surge"))
        said = list(found.follow(["surgeWest=1", "x", "surgeEast=1", "3", "2", " 1 "]))
        self.assertEqual(
            said,
            [
                "stockEast = 2",
                "stockWest = 1",
                "surgeEast ? 0..2",
                "not due: surgeWest (surgeEast is asked for)",
                "surgeEast ? 0..2",
                "not a number: x",
                "surgeEast ? 0..2",
                "surgeWest ? 0..2",
                "illegal: 3 is outside 0..2",
                "surgeWest ? 0..2",
                "illegal: uncertainty row 1, `budget: surgeEast + surgeWest <= 2`, can't hold (line 12)",
                "surgeWest ? 0..2",
                "courierEast = 0",
                "courierWest = 2",
                "value 12",
            ],
        )

    def test_plays_that_can_not_be_played(self) -> None:
        with self.assertRaisesRegex(NoPolicy, "infeasible"):
            list(support.solved(support.example("crew-before")).follow([]))
        with self.assertRaisesRegex(NoPolicy, "empty"):
            list(support.solved(support.example("promises")).follow([]))
        found = support.solved(support.example("surge"))
        with self.assertRaisesRegex(Unfinished, "surgeWest"):
            list(found.follow(["0"]))
        with self.assertRaises(LeftOver):
            list(follow(found.game, found.certificate, ["0", "0", "0"], False))


if __name__ == "__main__":
    unittest.main()
