"""What several companions ask of a certificate's trees: equal parts as one, rows by their words, the worst play."""

from __future__ import annotations

from fractions import Fraction
from typing import Dict, List, Optional, Sequence, Tuple, Union

from .certificate import Answer, Choose, Close, Illegal, Leaf, Node, Part, Split
from .game import Game, GameRow

Entry = Tuple[str, int, Fraction]
Value = Union[int, Fraction]


def merged(parts: Sequence[Part]) -> List[Part]:
    """The parts, where neighbours with the same tree below are one."""
    found: List[Part] = []
    for part in parts:
        if found and found[-1].below is part.below:
            found[-1] = Part(found[-1].low, part.high, part.below)
        else:
            found.append(part)
    return found


def values(low: int, high: int) -> str:
    """A range of values as a reader writes it."""
    return str(low) if low == high else f"{low}..{high}"


def row_words(row: GameRow, kind: str) -> str:
    """A row by its number and its words."""
    if row.row is None:
        return f"the bound of {row.bound_of}"
    name = "row" if kind == "r" else "uncertainty row"
    side = f", taken as {row.side}," if row.side else ","
    return f"{name} {row.number}, `{row.row.shown()}`{side}"


def row_place(rows: Sequence[GameRow]) -> str:
    """The lines of rows in the problem's text, where they have any."""
    lines = sorted({row.row.line for row in rows if row.row is not None and row.row.line})
    if not lines:
        return ""
    return f" (line{'s' if len(lines) > 1 else ''} {', '.join(map(str, lines))})"


def entry_words(game: Game, entries: Sequence[Entry]) -> Tuple[str, str]:
    """Rows with their multipliers in words, and their lines."""
    rows = [game.row(kind, number) for kind, number, _ in entries]
    parts = []
    for row, (kind, _, multiplier) in zip(rows, entries):
        times = f"{multiplier} times " if multiplier != 1 and len(entries) > 1 else ""
        parts.append(times + row_words(row, kind).rstrip(","))
    return " and ".join(parts), row_place(rows)


def closing_words(game: Game, close: Close, box: Sequence[Tuple[int, int]]) -> str:
    """Why a combination of rows closes over a box."""
    words, place = entry_words(game, close.entries)
    if close.bounds_objective:
        side = "at least" if game.is_minimized else "at most"
        because = f", by {words}{place}" if words else ""
        return f"the objective is {side} {game.bound(close.entries, box)}{because}"
    if not words:
        return no_value_words(game)
    return f"{words}{',' if len(close.entries) == 1 else ', together,'} can't hold{place}"


def no_value_words(game: Game) -> str:
    """Which variable has no value, where no row is needed to close."""
    empty = next((v.name for v, (low, high) in zip(game.variables, game.box) if low > high), "a variable")
    return f"{empty} has no value within its bounds"


def illegal_words(game: Game, illegal: Illegal) -> str:
    """Which uncertainty rows forbid what stands above."""
    closings: Dict[int, Close] = {}
    seen = set()
    stack: List[Node] = [illegal.below]
    while stack:
        node = stack.pop()
        if id(node) in seen:
            continue
        seen.add(id(node))
        if isinstance(node, Close):
            closings[id(node)] = node
        elif isinstance(node, Split):
            stack.extend(part.below for part in reversed(node.parts))
    found = list(closings.values())
    if not found:
        return no_value_words(game)
    if len(found) == 1:
        return closing_words(game, found[0], ())
    entries = sorted({(kind, number, Fraction(1)) for close in found for kind, number, _ in close.entries})
    words, place = entry_words(game, entries)
    return f"whatever comes later, {words}{',' if len(entries) == 1 else ', together,'} can't hold{place}"


def least_sums(game: Game, policy: Node) -> Dict[int, Fraction]:
    """For each subtree of a policy, by its id, the least that the maximised objective gains below it."""
    sign = -1 if game.is_minimized else 1
    sums: Dict[int, Fraction] = {}
    stack: List[Tuple[Node, int, bool]] = [(policy, 0, False)]
    while stack:
        node, depth, is_below_done = stack.pop()
        if id(node) in sums:
            continue
        below = children(node)
        if not is_below_done:
            stack.append((node, depth, True))
            stack.extend((child, depth + 1, False) for child in below)
            continue
        weight = sign * game.weights.get(depth, Fraction(0))
        if isinstance(node, Choose):
            sums[id(node)] = weight * node.value + sums[id(node.below)]
        elif isinstance(node, Answer):
            sums[id(node)] = min((gain(weight, part, sums)[0] for part in answered(node)), default=Fraction(0))
        elif isinstance(node, Leaf):
            sums[id(node)] = sign * continuous_sum(game, node)
        else:
            sums[id(node)] = Fraction(0)
    return sums


def continuous_sum(game: Game, leaf: Leaf) -> Fraction:
    """What the continuous variables of a leaf add to the objective."""
    return sum((game.weights.get(at, Fraction(0)) * v for at, v in enumerate(leaf.point, len(game.wholes))), Fraction(0))


def children(node: Node) -> List[Node]:
    """The subtrees of a policy in which play goes on."""
    if isinstance(node, Choose):
        return [node.below]
    if isinstance(node, Answer):
        return [part.below for part in answered(node)]
    return []


def answered(node: Answer) -> List[Part]:
    """The parts that aren't illegal."""
    return [part for part in node.parts if not isinstance(part.below, Illegal)]


def gain(weight: Fraction, part: Part, sums: Dict[int, Fraction]) -> Tuple[Fraction, int]:
    """The least gain in a part, and the value of the variable that gives it."""
    value = part.low if weight >= 0 else part.high
    return weight * value + sums[id(part.below)], value


def worst_play(game: Game, policy: Node) -> Optional[List[Value]]:
    """A play of the policy that earns least; none where the one that is found isn't legal, or there is none."""
    sign = -1 if game.is_minimized else 1
    sums = least_sums(game, policy)
    play: List[Value] = []
    node = policy
    while not isinstance(node, Leaf):
        if isinstance(node, Choose):
            play.append(node.value)
            node = node.below
        elif isinstance(node, Answer) and answered(node):
            weight = sign * game.weights.get(len(play), Fraction(0))
            (_, value), best = min(((gain(weight, p, sums), p) for p in answered(node)), key=lambda pair: pair[0])
            play.append(value)
            node = best.below
        else:
            return None
    return [*play, *node.point] if game.is_play(play) else None
