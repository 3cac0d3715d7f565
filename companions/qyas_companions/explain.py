"""Certificates in words: what the policy does and earns, and why nothing better can be reached."""

from __future__ import annotations

from fractions import Fraction
from typing import Dict, Iterator, List, Optional, Sequence, Tuple, Union

from .certificate import Answer, Certificate, Choose, Close, Illegal, Leaf, Node, Over, Part, Pick, Split
from .game import Game
from .tree import closing_words, illegal_words, merged, values, worst_play

UNCHECKED = "This certificate was given, and wasn't checked."


class Line:
    """One line of an explanation: conditions, moves and an end, in the order of play."""

    def __init__(self, indent: int) -> None:
        self.indent = indent
        self.text = ""
        self.last: Optional[str] = None

    def add(self, lead: str, words: str) -> None:
        """Adds words behind a lead, as `if` or `set`; the lead is said once for neighbours that share it."""
        if lead == self.last:
            self.text += (" and " if lead == "if" else ", ") + words
        else:
            gap = ": " if self.last == "if" else "; " if self.text else ""
            self.text += f"{gap}{lead}{' ' if lead else ''}{words}"
        self.last = lead

    def whole(self) -> str:
        return "  " * self.indent + self.text


def verb(game: Game) -> str:
    return "costs" if game.is_minimized else "earns"


def sums_words(game: Game, least: Fraction, most: Fraction) -> str:
    """What a play earns, or what plays that are told together do."""
    low, high = sorted((least, most))
    return f"{verb(game)} {low}" if low == high else f"{verb(game)} {low} to {high}"


class PolicyExplainer:
    """Goes through a policy, and tells each line of it."""

    def __init__(self, game: Game) -> None:
        self.game = game
        self.illegal: Dict[int, str] = {}

    def name(self, depth: int) -> str:
        return self.game.variables[depth].name

    def lines(self, policy: Node) -> Iterator[str]:
        start = self.game.constant
        stack: List[Tuple[int, Optional[Part], Node, int, Fraction, Fraction]] = [(1, None, policy, 0, start, start)]
        while stack:
            indent, part, node, depth, least, most = stack.pop()
            line = Line(indent)
            if part is not None:
                line.add("if", f"{self.name(depth - 1)} = {values(part.low, part.high)}")
            node, depth, least, most = self.go_on(line, node, depth, least, most)
            if line.text:
                yield line.whole()
            if isinstance(node, Answer):
                weight = self.game.weights.get(depth, Fraction(0))
                for below in reversed(merged(node.parts)):
                    ends = sorted((weight * below.low, weight * below.high))
                    entry = (indent + bool(line.text), below, below.below, depth + 1, least + ends[0], most + ends[1])
                    stack.append(entry)

    def go_on(
        self, line: Line, node: Node, depth: int, least: Fraction, most: Fraction
    ) -> Tuple[Node, int, Fraction, Fraction]:
        """Adds to the line what comes without a choice of the other side: the node where it stops."""
        while True:
            weight = self.game.weights.get(depth, Fraction(0))
            if isinstance(node, Choose):
                line.add("set", f"{self.name(depth)} = {node.value}")
                least, most, node = least + weight * node.value, most + weight * node.value, node.below
            elif isinstance(node, Answer) and self.is_one(node):
                part = merged(node.parts)[0]
                line.add("if", f"{self.name(depth)} = {values(part.low, part.high)}")
                ends = sorted((weight * part.low, weight * part.high))
                least, most, node = least + ends[0], most + ends[1], part.below
            else:
                break
            depth += 1
        if isinstance(node, Illegal):
            if id(node) not in self.illegal:
                self.illegal[id(node)] = illegal_words(self.game, node)
            line.add("", f"illegal: {self.illegal[id(node)]}")
        elif isinstance(node, Leaf):
            for value in node.point:
                line.add("set", f"{self.name(depth)} = {value}")
                least, most = (total + self.game.weights.get(depth, Fraction(0)) * value for total in (least, most))
                depth += 1
            line.add("", sums_words(self.game, least, most))
        return node, depth, least, most

    @staticmethod
    def is_one(node: Answer) -> bool:
        parts = merged(node.parts)
        return len(parts) == 1 and not isinstance(parts[0].below, Illegal)


class RefutationExplainer:
    """Goes through a refutation, and tells each line of it. The box is that of the place."""

    def __init__(self, game: Game) -> None:
        self.game = game
        self.box = list(game.box)
        self.deepest = 0

    def name(self, depth: int) -> str:
        return self.game.variables[depth].name

    def place(self, depth: int, part: Part) -> None:
        """Moves the box to the part that ends at this depth."""
        for at in range(depth, self.deepest):
            self.box[at] = self.game.box[at]
        self.enter(depth, part.low, part.high)
        self.deepest = depth

    def enter(self, depth: int, low: int, high: int) -> None:
        self.box[depth - 1] = (low, high)
        self.deepest = max(self.deepest, depth)

    def lines(self, refutation: Node) -> Iterator[str]:
        stack: List[Tuple[int, Optional[Part], Node, int]] = [(1, None, refutation, 0)]
        while stack:
            indent, part, node, depth = stack.pop()
            line = Line(indent)
            if part is not None:
                self.place(depth, part)
                line.add("if", f"{self.name(depth - 1)} = {values(part.low, part.high)}")
            node, depth = self.go_on(line, node, depth)
            if line.text:
                yield line.whole()
            if isinstance(node, Over):
                for below in reversed(merged(node.parts)):
                    stack.append((indent + bool(line.text), below, below.below, depth + 1))

    def go_on(self, line: Line, node: Node, depth: int) -> Tuple[Node, int]:
        """Adds to the line what comes without a choice of ours: the node where it stops."""
        while True:
            if isinstance(node, Pick):
                low = high = node.value
                line.add("they set", f"{self.name(depth)} = {node.value}{self.completion(node, depth)}")
                node = node.below
            elif isinstance(node, Over) and len(merged(node.parts)) == 1:
                part = merged(node.parts)[0]
                low, high = part.low, part.high
                line.add("if", f"{self.name(depth)} = {values(low, high)}")
                node = part.below
            else:
                break
            depth += 1
            self.enter(depth, low, high)
        if isinstance(node, Close):
            line.add("", closing_words(self.game, node, self.box))
        elif isinstance(node, Over) and not node.parts:
            line.add("", f"{self.name(depth)} has no value within its bounds")
        return node, depth

    def completion(self, node: Pick, depth: int) -> str:
        """With which values they can go on, where uncertainty rows make that a question and no pick follows that tells it."""
        if not self.game.uncertainty or not node.completion or isinstance(node.below, Pick):
            return ""
        later = [at for at in self.game.universals if at > depth]
        moves = ", ".join(f"{self.name(at)} = {value}" for at, value in zip(later, node.completion))
        return f" (and can go on with {moves})"


def empty_lines(game: Game, illegal: Illegal) -> Iterator[str]:
    """Why no universal play has its values here, split by split."""
    stack: List[Tuple[int, Optional[Tuple[str, Part]], Node]] = [(1, None, illegal.below)]
    while stack:
        indent, part, node = stack.pop()
        line = Line(indent)
        if part is not None:
            line.add("if", f"{part[0]} = {values(part[1].low, part[1].high)}")
        if isinstance(node, Close):
            line.add("", closing_words(game, node, ()))
        if line.text:
            yield line.whole()
        if isinstance(node, Split):
            name = game.variables[node.variable].name
            for below in reversed(merged(node.parts)):
                stack.append((indent + bool(line.text), (name, below), below.below))


def head(game: Game, certificate: Certificate) -> str:
    """How the game ends, in one sentence."""
    if certificate.claim == "empty":
        return "empty: the universal player has no play."
    if certificate.claim == "infeasible":
        return "infeasible: no policy meets the rows in every play."
    limit, better = ("at most", "less") if game.is_minimized else ("at least", "more")
    value = certificate.value
    return f"optimal {value}: the policy {verb(game)} {limit} {value} in every play, and {better} can't be promised."


def worst_line(game: Game, policy: Node) -> str:
    """The worst play of a policy, at the end of its explanation."""
    play = worst_play(game, policy)
    if play is None:
        return "Worst play: not told, as none that is legal was found at the ends of the ranges."
    return f"Worst play: {moves_words(game, play) or 'no moves'}; {verb(game)} {game.value(play)}"


def moves_words(game: Game, play: Sequence[Union[int, Fraction]]) -> str:
    return ", ".join(f"{variable.name} = {value}" for variable, value in zip(game.variables, play))


def explain(
    game: Game, certificate: Certificate, of_refutation: bool = False, is_given: bool = False
) -> Iterator[str]:
    """The lines that explain a certificate: its policy, or its refutation where that is asked for or there is no policy."""
    if is_given:
        yield UNCHECKED
    yield head(game, certificate)
    if certificate.emptiness is not None:
        yield "Why there is no universal play:"
        yield from empty_lines(game, certificate.emptiness)
    elif certificate.policy is not None and not of_refutation:
        yield "Policy:"
        yield from PolicyExplainer(game).lines(certificate.policy)
        yield worst_line(game, certificate.policy)
    elif certificate.refutation is not None:
        side = "below" if game.is_minimized else "above"
        goal = "the rows can't be met" if certificate.value is None else f"nothing {side} {certificate.value} can be reached"
        yield f"Why {goal} (they: the universal player):"
        yield from RefutationExplainer(game).lines(certificate.refutation)
