"""The deterministic equivalent of a small program, as an LP file: a second opinion by another solver."""

from __future__ import annotations

import re
from fractions import Fraction
from typing import Dict, Iterator, List, Sequence, Tuple, Union

from .faults import Nothing, TooMany
from .game import Game, GameRow
from .model import Kind
from .number import decimal
from .row import terms_text

MOST_PLAYS = 10_000
MOST_PREFIXES = 1_000_000
LONGEST_NAME = 40
TERMS_A_LINE = 8


class PlaySearch:
    """Goes through the values of the universal variables, over prefixes for which no uncertainty row is dead."""

    def __init__(self, game: Game, most: int) -> None:
        self.game = game
        self.most = most
        self.box = list(game.box)
        self.path: List[int] = []
        self.waiting = [self.values()]
        self.found: List[Tuple[int, ...]] = []
        self.looked = 0

    def values(self) -> Iterator[int]:
        """The values that the next universal variable may take; none where all are set."""
        if len(self.path) == len(self.game.universals):
            return iter(())
        low, high = self.game.box[self.game.universals[len(self.path)]]
        return iter(range(low, high + 1))

    def run(self) -> List[Tuple[int, ...]]:
        while self.waiting:
            value = next(self.waiting[-1], None)
            if value is None:
                self.leave()
            else:
                self.enter(value)
        return self.found

    def enter(self, value: int) -> None:
        """Sets the next variable, and goes on where no uncertainty row is dead."""
        self.looked += 1
        if self.looked > MOST_PREFIXES:
            raise TooMany(f"more than {MOST_PREFIXES} prefixes of plays")
        at = self.game.universals[len(self.path)]
        self.box[at] = (value, value)
        if any(row.is_dead(self.box) for row in self.game.uncertainty):
            self.box[at] = self.game.box[at]
        else:
            self.path.append(value)
            self.waiting.append(self.values())

    def leave(self) -> None:
        """Keeps the play where all variables are set, and frees the last one."""
        if len(self.path) == len(self.game.universals):
            if len(self.found) == self.most:
                raise TooMany(f"more than {self.most} legal plays")
            self.found.append(tuple(self.path))
        self.waiting.pop()
        if self.path:
            self.path.pop()
            at = self.game.universals[len(self.path)]
            self.box[at] = self.game.box[at]


def legal_plays(game: Game, most: int = MOST_PLAYS) -> List[Tuple[int, ...]]:
    """All universal plays, each as the values of the universal variables in their order."""
    return PlaySearch(game, most).run()


class Copies:
    """The copies of existential variables: one for each history of universal values before it."""

    def __init__(self, game: Game) -> None:
        self.game = game
        self.names: Dict[Tuple[int, Tuple[int, ...]], str] = {}
        self.counts: Dict[int, int] = {}
        self.before = [sum(1 for other in game.universals if other < at) for at in range(len(game.variables))]

    def name(self, at: int, play: Sequence[int]) -> str:
        """The copy of a variable in a play."""
        key = (at, tuple(play[: self.before[at]]))
        if key not in self.names:
            self.counts[at] = self.counts.get(at, 0) + 1
            safe = re.sub(r"[^A-Za-z0-9_]", "_", self.game.variables[at].name)[:LONGEST_NAME]
            self.names[key] = f"v{at + 1}_{safe}_{self.counts[at]}"
        return self.names[key]


class Equivalent:
    """Collects the lines of the LP file."""

    def __init__(self, game: Game) -> None:
        self.game = game
        self.copies = Copies(game)
        self.rows: Dict[str, None] = {}

    def parted(self, terms: Dict[int, Fraction], play: Sequence[int]) -> Tuple[List[Tuple[str, Fraction]], Fraction]:
        """Terms in a play: those of copies, and what the universal values come to."""
        values = dict(zip(self.game.universals, play))
        fixed = sum((c * values[at] for at, c in terms.items() if at in values), Fraction(0))
        return [(self.copies.name(at, play), c) for at, c in terms.items() if at not in values], fixed

    def add_row(self, row: GameRow, play: Sequence[int]) -> None:
        terms, fixed = self.parted({at: Fraction(c) for at, c in row.terms.items()}, play)
        right = row.right - fixed
        if terms:
            self.rows.setdefault(folded(f"{terms_text(terms)} <= {signed(right)}"))
        elif right < 0:
            self.close()

    def close(self) -> None:
        """Says that nothing can be met, in a way that every reader takes."""
        self.rows.setdefault("z <= -1")
        self.rows.setdefault("z >= 0")

    def add_goal(self, play: Sequence[int]) -> None:
        """That z is no better than what the play earns."""
        terms, fixed = self.parted(self.game.weights, play)
        relation = ">=" if self.game.is_minimized else "<="
        right = self.game.constant + fixed
        goal = [("z", Fraction(1)), *((name, -c) for name, c in terms)]
        self.rows.setdefault(folded(f"{terms_text(goal)} {relation} {signed(right)}"))

    def add_play(self, play: Sequence[int]) -> None:
        self.add_goal(play)
        for row in self.game.rows:
            self.add_row(row, play)

    def copy_lines(self, play_count: int) -> Tuple[List[str], List[str], List[str]]:
        """The lines of the copies: comments, bounds, and names of those that are whole."""
        comments = [f"\\ {play_count} legal plays of the universal player; z is the value of the game."]
        bounds, wholes = [" z free"], []
        for (at, history), name in self.copies.names.items():
            variable, (low, high) = self.game.variables[at], self.game.box[at]
            moves = [f"{self.game.variables[u].name} = {v}" for u, v in zip(self.game.universals, history)]
            comments.append(f"\\ {name}: {variable.name}{' after ' + ', '.join(moves) if moves else ''}")
            bounds.append(f" {signed(low)} <= {name} <= {signed(high)}")
            if low > high:
                self.close()
                bounds[-1] = f" {signed(low)} <= {name} <= {signed(low)}"
            if variable.kind is not Kind.CONTINUOUS:
                wholes.append(f" {name}")
        return comments, bounds, wholes

    def text(self, plays: Sequence[Tuple[int, ...]]) -> str:
        for play in plays:
            self.add_play(play)
            for at, variable in enumerate(self.game.variables):
                if not variable.is_universal:
                    self.copies.name(at, play)
        comments, bounds, wholes = self.copy_lines(len(plays))
        rows = [f" c{number}: {row}" for number, row in enumerate(self.rows, 1)]
        sense = "Minimize" if self.game.is_minimized else "Maximize"
        body = [sense, " value: z", "Subject To", *rows, "Bounds", *bounds]
        return "\n".join([*comments, *body, *(["Generals", *wholes] if wholes else []), "End"]) + "\n"


def signed(value: Union[int, Fraction]) -> str:
    """A number as LP files write it."""
    return f"-{decimal(-Fraction(value))}" if value < 0 else decimal(Fraction(value))


def folded(row: str) -> str:
    """A row on lines of a few terms each, as readers of LP files have short lines."""
    parts = re.split(r" (?=[+-] )", row)
    lines = [" ".join(parts[at : at + TERMS_A_LINE]) for at in range(0, len(parts), TERMS_A_LINE)]
    return "\n   ".join(lines)


def equivalent(game: Game, most: int = MOST_PLAYS) -> str:
    """The deterministic equivalent as an LP file: its optimal value is the game's."""
    plays = legal_plays(game, most)
    if not plays:
        raise Nothing("empty: the universal player has no legal play, so there is nothing to write")
    return Equivalent(game).text(plays)
