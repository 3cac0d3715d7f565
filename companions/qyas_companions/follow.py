"""Follows a policy through one play: what it does next, and why a move of the other side is illegal."""

from __future__ import annotations

import re
from fractions import Fraction
from typing import Iterable, Iterator, List, Optional, Union

from .certificate import Answer, Certificate, Choose, Illegal, Leaf, Node
from .faults import LeftOver, NoPolicy, Unfinished
from .game import Game
from .tree import illegal_words, row_place, row_words

MOVE = re.compile(r"[+-]?[0-9]{1,40}")


class Play:
    """One play of a policy, up to where the other side has to move or the play has ended."""

    def __init__(self, game: Game, certificate: Certificate) -> None:
        if certificate.policy is None:
            raise NoPolicy(f"the game is {certificate.claim}: there is no policy to follow")
        self.game = game
        self.node: Node = certificate.policy
        self.values: List[Union[int, Fraction]] = []

    def moves(self) -> List[str]:
        """The policy's next moves, which this makes, each as `NAME = VALUE`."""
        made: List[str] = []
        while isinstance(self.node, Choose):
            made.append(f"{self.game.variables[len(self.values)].name} = {self.node.value}")
            self.values.append(self.node.value)
            self.node = self.node.below
        if isinstance(self.node, Leaf):
            for value in self.node.point:
                made.append(f"{self.game.variables[len(self.values)].name} = {value}")
                self.values.append(value)
        return made

    def is_asking(self) -> bool:
        """Whether the other side has to move."""
        return isinstance(self.node, Answer)

    def asked(self) -> str:
        """The variable that the other side has to set."""
        return self.game.variables[len(self.values)].name

    def question(self) -> str:
        low, high = self.game.box[len(self.values)]
        return f"{self.asked()} ? {low}..{high}"

    def why_illegal(self, value: int) -> str:
        """Why the other side may not set its variable to a value now; nothing where it may."""
        low, high = self.game.box[len(self.values)]
        if not low <= value <= high:
            return f"{value} is outside {low}..{high}"
        below = self.below(value)
        if isinstance(below, Illegal):
            return illegal_words(self.game, below)
        box = [(v, v) for v in [*self.values, value]] + list(self.game.box[len(self.values) + 1 :])
        dead = [row for row in self.game.uncertainty if row.is_dead(box)]
        if dead:
            return f"{row_words(dead[0], 'u')} can't hold{row_place(dead[:1])}"
        return ""

    def below(self, value: int) -> Optional[Node]:
        """What the policy does after a value of the asked variable."""
        parts = self.node.parts if isinstance(self.node, Answer) else ()
        return next((part.below for part in parts if part.low <= value <= part.high), None)

    def move(self, value: int) -> None:
        """Makes a legal move of the other side."""
        below = self.below(value)
        if below is None or self.why_illegal(value):
            raise ValueError(f"{value} is no legal move")
        self.values.append(value)
        self.node = below

    def value(self) -> str:
        return f"value {self.game.value(self.values)}"


def read_move(play: Play, word: str) -> Union[int, str]:
    """The value that a word `VALUE` or `NAME=VALUE` says, or what is wrong with it."""
    name, equals, value = word.rpartition("=")
    if equals and name.strip() != play.asked():
        return f"not due: {name.strip()} ({play.asked()} is asked for)"
    if MOVE.fullmatch(value.strip()) is None:
        return f"not a number: {value.strip()[:60]}"
    return int(value)


def follow(game: Game, certificate: Certificate, words: Iterable[str], may_be_left: bool = True) -> Iterator[str]:
    """What is said in a play whose moves of the other side are these words; each is taken when it is asked for."""
    play = Play(game, certificate)
    source = iter(words)
    yield from play.moves()
    while play.is_asking():
        yield play.question()
        word = next(source, None)
        if word is None:
            raise Unfinished(f"the moves end where {play.asked()} is asked for")
        move = read_move(play, word)
        reason = "" if isinstance(move, str) else play.why_illegal(move)
        if isinstance(move, str):
            yield move
        elif reason:
            yield f"illegal: {reason}"
        else:
            play.move(move)
            yield from play.moves()
    yield play.value()
    left = None if may_be_left else next(source, None)
    if left is not None:
        raise LeftOver(f"the play has ended, and the move {left} is left over")
