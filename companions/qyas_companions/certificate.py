"""Certificates: the trees of their text, read line by line without recursion. Equal subtrees are one object."""

from __future__ import annotations

import re
from dataclasses import dataclass
from fractions import Fraction
from functools import lru_cache
from typing import Dict, Iterable, Iterator, List, Optional, Tuple, Union

from .faults import WrongCertificate
from .game import Game

WHOLE = re.compile(r"-?[1-9][0-9]*|0")
FRACTION = re.compile(r"(-?[1-9][0-9]*)/([1-9][0-9]*)")
ENTRY = re.compile(r"([ru])([1-9][0-9]*)=([1-9][0-9]*(?:/[1-9][0-9]*)?)")
LONGEST_WORD = 4000


@dataclass(eq=False)
class Leaf:
    """All whole variables are set, and here are the values of the continuous ones: every row holds, and the objective is
    at least the value."""

    __slots__ = ("point",)
    point: Tuple[Fraction, ...]


@dataclass(eq=False)
class Choose:
    """An existential variable takes a value."""

    __slots__ = ("value", "below")
    value: int
    below: "Node"


@dataclass(eq=False)
class Part:
    """The values from one to another, and what stands below them."""

    __slots__ = ("low", "high", "below")
    low: int
    high: int
    below: "Node"


@dataclass(eq=False)
class Answer:
    """A universal variable: each part is answered, or is illegal."""

    __slots__ = ("parts",)
    parts: Tuple[Part, ...]


@dataclass(eq=False)
class Illegal:
    """No universal play has its values here: the tree below shows it."""

    __slots__ = ("below",)
    below: "Node"


@dataclass(eq=False)
class Over:
    """Each part of the next variable's values is refuted."""

    __slots__ = ("parts",)
    parts: Tuple[Part, ...]


@dataclass(eq=False)
class Pick:
    """The universal player sets a value, and can go on with the completion."""

    __slots__ = ("value", "completion", "below")
    value: int
    completion: Tuple[int, ...]
    below: "Node"


@dataclass(eq=False)
class Split:
    """The values of a universal variable, counted from 0, part by part, in a tree below `illegal`."""

    __slots__ = ("variable", "parts")
    variable: int
    parts: Tuple[Part, ...]


@dataclass(eq=False)
class Close:
    """Rows, each by kind, number and multiplier, that can't hold together; or that bound the objective."""

    __slots__ = ("bounds_objective", "entries")
    bounds_objective: bool
    entries: Tuple[Tuple[str, int, Fraction], ...]


Node = Union[Leaf, Choose, Answer, Illegal, Over, Pick, Split, Close]


@dataclass(eq=False)
class Certificate:
    """How the game ends, and the trees that show it. The value is the one in the problem's own sense."""

    claim: str
    value: Optional[Fraction]
    legal: Tuple[int, ...]
    policy: Optional[Node]
    refutation: Optional[Node]
    emptiness: Optional[Illegal]


@lru_cache(maxsize=1 << 16)
def spelt_whole(word: str) -> Optional[int]:
    """The whole number that a word spells rightly."""
    return int(word) if len(word) <= LONGEST_WORD and WHOLE.fullmatch(word) else None


def whole(word: str, line: int) -> int:
    """A whole number, rightly spelt."""
    value = spelt_whole(word)
    if value is None:
        raise WrongCertificate(line, f"a whole number is due, not {word[:60]!r}")
    return value


def fraction(word: str, line: int) -> Fraction:
    """A whole number, or a fraction in lowest terms."""
    found = FRACTION.fullmatch(word)
    if found is None or len(word) > LONGEST_WORD:
        return Fraction(whole(word, line))
    value = Fraction(int(found[1]), int(found[2]))
    if str(value) != word:
        raise WrongCertificate(line, f"{word[:60]} isn't in lowest terms")
    return value


class Lines:
    """The lines of a text, one after the other, each as its words."""

    def __init__(self, data: Iterable[bytes]) -> None:
        self.source: Iterator[bytes] = iter(data)
        self.number = 0

    def next(self, due: str) -> List[str]:
        self.number += 1
        line = next(self.source, None)
        if line is None:
            raise WrongCertificate(self.number, f"the text ends where {due} is due")
        if not line.endswith(b"\n"):
            raise WrongCertificate(self.number, "the line has no end")
        return line[:-1].decode("latin-1").split(" ")

    def fixed(self, *words: str) -> None:
        if self.next(" ".join(words)) != list(words):
            raise WrongCertificate(self.number, f"`{' '.join(words)}` is due")

    def end(self) -> None:
        if next(self.source, None) is not None:
            raise WrongCertificate(self.number + 1, "the text goes on behind its end")

    def refuse(self, words: str) -> "WrongCertificate":
        return WrongCertificate(self.number, words)


class Frame:
    """A node whose parts are still being read."""

    __slots__ = ("kind", "value", "completion", "parts", "left", "at", "range", "outer", "mode", "depth", "after")

    def __init__(self, kind: str, at: int, mode: str, depth: int, after: int) -> None:
        self.kind = kind
        self.at = at
        self.mode = mode
        self.depth = depth
        self.after = after
        self.value = 0
        self.completion: Tuple[int, ...] = ()
        self.parts: List[Part] = []
        self.left = 1
        self.range = (0, 0)
        self.outer = (0, 0)


class TreeReader:
    """Reads one tree at a time. `mode` says which lines may come: of a policy, a refutation or an empty tree.

    A place is its depth, how many variables are set above, and `after`, the last split variable."""

    def __init__(self, game: Game, lines: Lines) -> None:
        self.game = game
        self.lines = lines
        self.box = list(game.box)
        self.shared: Dict[Tuple[object, ...], Node] = {}
        self.mode = ""
        self.depth = 0
        self.after = -1
        self.stack: List[Frame] = []

    def read(self, mode: str) -> Node:
        """The tree that stands here."""
        self.mode, self.depth, self.after = mode, 0, -1
        while True:
            node = self.begin()
            while node is not None and self.stack:
                node = self.close_frame(self.stack[-1], node)
            if node is not None:
                return node

    def share(self, key: Tuple[object, ...], node: Node) -> Node:
        return self.shared.setdefault(key, node)

    def begin(self) -> Optional[Node]:
        """Reads a node's own line: the node where nothing stands below it, else nothing, and a frame is begun."""
        words = self.lines.next(f"a line of a {self.mode}")
        kind = words[0]
        if self.mode == "policy" and kind in ("choose", "answer", "leaf", "illegal"):
            return self.begin_policy(kind, words)
        if self.mode == "refutation" and kind in ("over", "pick", "close"):
            return self.begin_refutation(kind, words)
        if self.mode == "empty tree" and kind in ("split", "close"):
            return self.begin_empty(kind, words)
        raise self.lines.refuse(f"{' '.join(words)[:60]!r} is no line of a {self.mode}")

    def begin_policy(self, kind: str, words: List[str]) -> Optional[Node]:
        if kind == "leaf":
            if self.depth != len(self.game.wholes):
                raise self.lines.refuse("a leaf where not all variables are set")
            self.count(words, 1 + len(self.game.variables) - self.depth)
            return self.share(tuple(words), Leaf(self.point(words[1:])))
        if kind == "illegal":
            self.count(words, 1)
            if not self.stack or self.stack[-1].kind != "answer":
                raise self.lines.refuse("`illegal` stands under a range of `answer` alone")
            self.push("illegal", self.depth)
            self.mode, self.after = "empty tree", -1
            return None
        self.is_due(kind == "answer")
        self.count(words, 2)
        if kind == "answer":
            return self.open_parts("answer", self.depth, words[1])
        value = whole(words[1], self.lines.number)
        self.fits(value, self.depth)
        self.push("choose", self.depth).value = value
        self.enter((value, value))
        return None

    def point(self, words: List[str]) -> Tuple[Fraction, ...]:
        """The values of the continuous variables, each within its bounds, by the rounding of the normal form."""
        found = tuple(fraction(word, self.lines.number) for word in words)
        for value, at in zip(found, range(self.depth, len(self.game.variables))):
            self.fits(value, at)
        return found

    def begin_refutation(self, kind: str, words: List[str]) -> Optional[Node]:
        if kind == "close":
            return self.closing(words)
        if kind == "over":
            self.any_due()
            self.count(words, 2)
            return self.open_parts("over", self.depth, words[1])
        self.is_due(True)
        later = [at for at in self.game.universals if at > self.depth]
        self.count(words, 2 + len(later))
        values = [whole(word, self.lines.number) for word in words[1:]]
        for value, at in zip(values, [self.depth, *later]):
            self.fits(value, at)
        frame = self.push("pick", self.depth)
        frame.value, frame.completion = values[0], tuple(values[1:])
        self.enter((values[0], values[0]))
        return None

    def begin_empty(self, kind: str, words: List[str]) -> Optional[Node]:
        if kind == "close":
            return self.closing(words)
        self.count(words, 3)
        at = whole(words[1], self.lines.number) - 1
        if at not in self.game.universals or at <= self.after:
            raise self.lines.refuse("`split` names no universal variable behind that of the split above")
        return self.open_parts("split", at, words[2])

    def count(self, words: List[str], due: int) -> None:
        if len(words) != due:
            raise self.lines.refuse(f"{len(words)} words where {due} are due")

    def any_due(self) -> None:
        if self.depth >= len(self.game.wholes):
            raise self.lines.refuse("all variables are set already")

    def is_due(self, is_universal: bool) -> None:
        """Whether the next variable is one of this player."""
        self.any_due()
        variable = self.game.variables[self.depth]
        if variable.is_universal != is_universal:
            player = "universal" if variable.is_universal else "existential"
            raise self.lines.refuse(f"the next variable, {variable.name}, is {player}")

    def fits(self, value: Union[int, Fraction], at: int) -> None:
        low, high = self.game.box[at]
        if not low <= value <= high:
            raise self.lines.refuse(f"{value} is outside {low}..{high}, the values of {self.game.variables[at].name}")

    def closing(self, words: List[str]) -> Node:
        """A line of rows with their multipliers; a line that came before in such a tree is the same node."""
        key = ("close", self.mode, *words)
        return self.shared[key] if key in self.shared else self.share(key, self.new_closing(words))

    def new_closing(self, words: List[str]) -> Close:
        entries: List[Tuple[str, int, Fraction]] = []
        bounds = len(words) > 1 and words[1] == "o" and self.mode == "refutation"
        for word in words[2 if bounds else 1 :]:
            found = ENTRY.fullmatch(word)
            if found is None or len(word) > LONGEST_WORD:
                raise self.lines.refuse(f"{word[:60]!r} is no row with a multiplier")
            kind, number = found[1], int(found[2])
            rows = self.game.rows if kind == "r" else self.game.uncertainty
            if number > len(rows) or (kind == "r" and self.mode == "empty tree"):
                raise self.lines.refuse(f"{kind}{number} is no row that may stand here")
            if entries and (kind, number) <= entries[-1][:2]:
                raise self.lines.refuse("the rows don't stand in their order")
            entries.append((kind, number, fraction(found[3], self.lines.number)))
        return Close(bounds, tuple(entries))

    def push(self, kind: str, at: int) -> Frame:
        """Begins a frame, which keeps the place to come back to and the range of the variable."""
        frame = Frame(kind, at, self.mode, self.depth, self.after)
        if kind != "illegal":
            frame.outer = self.box[at]
        self.stack.append(frame)
        return frame

    def enter(self, values: Tuple[int, int]) -> None:
        """Goes on below the frame's variable, which has these values there."""
        frame = self.stack[-1]
        self.mode, self.depth, self.after = frame.mode, frame.depth, frame.after
        self.box[frame.at] = values
        if frame.kind == "split":
            self.after = frame.at
        else:
            self.depth += 1

    def open_parts(self, kind: str, at: int, word: str) -> Optional[Node]:
        count = whole(word, self.lines.number)
        low, high = self.box[at]
        if low > high:
            if count != 0:
                raise self.lines.refuse("ranges of a variable without values")
            return self.build_parts(kind, at, ())
        if not 1 <= count <= high - low + 1:
            raise self.lines.refuse(f"{count} ranges can't cover {low}..{high}")
        if kind == "over" and count > 1 and self.game.variables[at].is_universal:
            raise self.lines.refuse("at a universal variable `over` has one range")
        self.push(kind, at).left = count
        self.next_range()
        return None

    def next_range(self) -> None:
        """Reads the line of a part's range, which follows on, and goes on below it."""
        frame = self.stack[-1]
        words = self.lines.next("a range")
        if words[0] != "range":
            raise self.lines.refuse("`range` is due")
        self.count(words, 3)
        low, high = whole(words[1], self.lines.number), whole(words[2], self.lines.number)
        due = frame.parts[-1].high + 1 if frame.parts else frame.outer[0]
        is_last = frame.left == 1
        if low != due or high < low or high > frame.outer[1] or is_last != (high == frame.outer[1]):
            raise self.lines.refuse(f"the ranges don't cover {frame.outer[0]}..{frame.outer[1]} one behind the other")
        frame.range = (low, high)
        self.enter((low, high))

    def close_frame(self, frame: Frame, node: Node) -> Optional[Node]:
        """Puts a read node into the frame above it: the frame's node where it is complete."""
        if frame.kind in ("answer", "over", "split"):
            frame.parts.append(Part(frame.range[0], frame.range[1], node))
            frame.left -= 1
            if frame.left:
                self.next_range()
                return None
        self.stack.pop()
        if frame.kind != "illegal":
            self.box[frame.at] = frame.outer
        self.mode, self.depth, self.after = frame.mode, frame.depth, frame.after
        if frame.kind == "choose":
            return self.share(("choose", frame.value, id(node)), Choose(frame.value, node))
        if frame.kind == "illegal":
            return self.share(("illegal", id(node)), Illegal(node))
        if frame.kind == "pick":
            key = ("pick", frame.value, frame.completion, id(node))
            return self.share(key, Pick(frame.value, frame.completion, node))
        return self.build_parts(frame.kind, frame.at, tuple(frame.parts))

    def build_parts(self, kind: str, at: int, parts: Tuple[Part, ...]) -> Node:
        key = (kind, at, tuple((part.low, part.high, id(part.below)) for part in parts))
        if kind == "answer":
            return self.share(key, Answer(parts))
        return self.share(key, Over(parts) if kind == "over" else Split(at, parts))


def read(game: Game, data: Iterable[bytes]) -> Certificate:
    """The certificate of a game from the lines of its text; a text that is none, or not of this game, is refused."""
    lines = Lines(data)
    first = lines.next("a claim")
    claim, value = first[0], None
    if claim == "optimal" and len(first) == 2:
        value = fraction(first[1], 1)
    elif claim not in ("infeasible", "empty") or len(first) != 1:
        raise lines.refuse("`optimal V`, `infeasible` or `empty` is due")
    lines.fixed("certificate", "1")
    trees = TreeReader(game, lines)
    legal: Tuple[int, ...] = ()
    policy = refutation = emptiness = None
    if claim == "empty":
        lines.fixed("illegal")
        emptiness = Illegal(trees.read("empty tree"))
    else:
        legal = read_legal(game, lines)
        if claim == "optimal":
            lines.fixed("policy")
            policy = trees.read("policy")
        lines.fixed("refute")
        refutation = trees.read("refutation")
    lines.fixed("end")
    lines.end()
    return Certificate(claim, value, legal, policy, refutation, emptiness)


def read_legal(game: Game, lines: Lines) -> Tuple[int, ...]:
    """The line of a universal play."""
    words = lines.next("`legal`")
    if words[0] != "legal" or len(words) != 1 + len(game.universals):
        raise lines.refuse("`legal` with a value for each universal variable is due")
    values = tuple(whole(word, lines.number) for word in words[1:])
    everyone = [low for low, _ in game.box]
    for at, value in zip(game.universals, values):
        everyone[at] = value
    if not game.is_play(everyone):
        raise lines.refuse("the values behind `legal` are no universal play")
    return values
