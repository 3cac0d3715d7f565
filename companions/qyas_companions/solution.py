"""A problem with its certificate: what the other companions are asked about."""

from __future__ import annotations

import shutil
from fractions import Fraction
from typing import IO, Iterable, Iterator, Optional, TextIO, Union

from . import certificate, draw, explain, follow, program, text
from .faults import FileFault
from .game import Game
from .model import Program


class Solution:
    """A game and a certificate of it. `is_given`: the certificate wasn't made by the program just now, and wasn't checked."""

    def __init__(self, game: Game, found: certificate.Certificate, is_given: bool) -> None:
        self.game = game
        self.certificate = found
        self.is_given = is_given

    @property
    def claim(self) -> str:
        """How the game ends: `optimal`, `infeasible` or `empty`."""
        return self.certificate.claim

    @property
    def value(self) -> Optional[Fraction]:
        """The game's value, where it has one."""
        return self.certificate.value

    def explain(self, of_refutation: bool = False) -> Iterator[str]:
        return explain.explain(self.game, self.certificate, of_refutation, self.is_given)

    def follow(self, moves: Iterable[str]) -> Iterator[str]:
        return follow.follow(self.game, self.certificate, moves)

    def dot(
        self, depth: Optional[int] = None, nodes: int = draw.MOST_NODES, of_refutation: bool = False
    ) -> str:
        return draw.dot(self.game, self.certificate, depth, nodes, of_refutation, self.is_given)


def problem_text(problem: Union[Program, bytes]) -> bytes:
    """The text of a problem that is given as a program or as its text."""
    return problem.text().encode("latin-1") if isinstance(problem, Program) else problem


def solve(
    problem: Union[Program, bytes],
    qyas_path: Optional[str] = None,
    clock: Optional[TextIO] = None,
    save: Optional[str] = None,
    nodes: Optional[int] = None,
) -> Solution:
    """Solves a problem by the program `qyas`, within a budget of `nodes`. `save` names a file for the certificate."""
    data = problem_text(problem)
    game = Game(text.read(data, qyas_path))
    with program.solve_text(data, qyas_path, clock, nodes) as output:
        if save is not None:
            copy(output, save)
        return Solution(game, certificate.read(game, output), False)


def copy(output: IO[bytes], path: str) -> None:
    """Copies a certificate to a file."""
    try:
        with open(path, "wb") as into:
            shutil.copyfileobj(output, into)
    except OSError as error:
        raise FileFault(f"{path} can't be written: {error.strerror}") from None
    output.seek(0)


def given(problem: Union[Program, bytes], path: str, qyas_path: Optional[str] = None) -> Solution:
    """A problem with the certificate that stands in a file. It is read, and not checked."""
    game = Game(text.read(problem_text(problem), qyas_path))
    try:
        with open(path, "rb") as lines:
            return Solution(game, certificate.read(game, lines), True)
    except OSError as error:
        raise FileFault(f"{path} can't be read: {error.strerror}") from None
