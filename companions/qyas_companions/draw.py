"""Draws a policy or a refutation: as DOT, and as SVG or PNG by Graphviz's `dot`, where it is installed."""

from __future__ import annotations

import shutil
import subprocess
from collections import deque
from fractions import Fraction
from pathlib import Path
from typing import Deque, Dict, List, Optional, Tuple

from .certificate import Answer, Certificate, Choose, Illegal, Leaf, Node, Over, Part, Pick, Split
from .explain import UNCHECKED, head, sums_words
from .faults import FileFault, NoGraphviz, WrongWords
from .game import Game
from .tree import closing_words, continuous_sum, illegal_words, merged, values

MOST_NODES = 300
LABEL_WIDTH = 34
LONGEST_LABEL = 400
FORMATS = (".dot", ".svg", ".png")
STYLE = [
    "  rankdir=TB;",
    '  node [fontname="Helvetica", fontsize=11];',
    '  edge [fontname="Helvetica", fontsize=10];',
    '  graph [fontname="Helvetica", fontsize=11, labelloc=b];',
]


class Place:
    """A node to be drawn: the tree, its depth, the box above it, and what the objective comes to so far."""

    def __init__(
        self, node: Node, depth: int, box: Tuple[Tuple[int, int], ...], sums: Tuple[Fraction, Fraction], level: int
    ) -> None:
        self.node = node
        self.depth = depth
        self.box = box
        self.sums = sums
        self.level = level


class Drawing:
    """Draws one tree, the nodes nearest to the root first."""

    def __init__(self, game: Game, depth: Optional[int], nodes: int) -> None:
        self.game = game
        self.depth = depth
        self.nodes = nodes
        self.lines: List[str] = []
        self.sizes: Dict[int, int] = {}
        self.left_out = 0
        self.count = 0

    def name(self, depth: int) -> str:
        return self.game.variables[depth].name

    def place(self, node: Node, depth: int, path: Tuple[Tuple[int, int], ...], level: int) -> Place:
        low, high = self.game.constant, self.game.constant
        for at, (least, most) in enumerate(path):
            weight = self.game.weights.get(at, Fraction(0))
            ends = sorted((weight * least, weight * most))
            low, high = low + ends[0], high + ends[1]
        return Place(node, depth, path, (low, high), level)

    def draw(self, root: Node) -> None:
        """Adds the lines of all nodes that are drawn."""
        self.sizes = drawn_sizes(root)
        waiting: Deque[Tuple[int, str, Place]] = deque([(0, "", self.place(root, 0, (), 1))])
        while waiting:
            parent, edge, place = waiting.popleft()
            number = self.count
            is_cut = self.count >= self.nodes or (self.depth is not None and place.level > self.depth)
            if is_cut:
                self.left_out += self.sizes[id(place.node)]
                self.rest(parent, edge, self.sizes[id(place.node)])
                continue
            self.count += 1
            below = self.draw_node(number, place)
            if place.level > 1:
                self.edge(parent, number, edge)
            for words, child in below:
                waiting.append((number, words, child))

    def rest(self, parent: int, edge: str, size: int) -> None:
        """A node that stands for what is left out below."""
        name = f"m{len(self.lines)}"
        self.lines.append(f"  {name} [shape=plaintext, label={quoted(f'.. {size} left out')}];")
        self.lines.append(f"  n{parent} -> {name} [style=dotted, label={quoted(edge)}];")

    def edge(self, parent: int, number: int, words: str) -> None:
        self.lines.append(f"  n{parent} -> n{number}{f' [label={quoted(words)}]' if words else ''};")

    def shape(self, number: int, words: str, shape: str, style: str = "") -> None:
        more = f", style={style}" if style else ""
        self.lines.append(f"  n{number} [shape={shape}{more}, label={quoted(words)}];")

    def draw_node(self, number: int, place: Place) -> List[Tuple[str, Place]]:
        """Draws a node with the moves of the same player that follow at once: what stands below it."""
        node = place.node
        if isinstance(node, (Choose, Pick)):
            return self.draw_moves(number, place)
        if isinstance(node, (Answer, Over)):
            is_universal = self.game.variables[place.depth].is_universal
            self.shape(number, self.name(place.depth), "ellipse" if is_universal else "box")
            return [self.part(place, part) for part in merged(node.parts)]
        if isinstance(node, Illegal):
            self.shape(number, "illegal: " + illegal_words(self.game, node), "box", "dashed")
        elif isinstance(node, Leaf):
            self.shape(number, self.leaf_words(node, place), "plaintext")
        elif isinstance(node, Split):
            name = self.game.variables[node.variable].name
            self.shape(number, name, "ellipse", "dashed")
            parts = merged(node.parts)
            return [(values(p.low, p.high), self.place(p.below, 0, (), place.level + 1)) for p in parts]
        else:
            box = list(place.box) + list(self.game.box[len(place.box) :])
            self.shape(number, closing_words(self.game, node, box), "plaintext")
        return []

    def leaf_words(self, leaf: Leaf, place: Place) -> str:
        """The values of the continuous variables, and what the play earns."""
        added = continuous_sum(self.game, leaf)
        sums = [total + added for total in place.sums]
        moves = [f"{self.name(at)} = {value}" for at, value in enumerate(leaf.point, place.depth)]
        return "\n".join([*moves, sums_words(self.game, *sums)])

    def part(self, place: Place, part: Part) -> Tuple[str, Place]:
        path = place.box + ((part.low, part.high),)
        return values(part.low, part.high), self.place(part.below, place.depth + 1, path, place.level + 1)

    def draw_moves(self, number: int, place: Place) -> List[Tuple[str, Place]]:
        node, depth, path = place.node, place.depth, place.box
        kind = type(node)
        moves: List[str] = []
        while isinstance(node, (Choose, Pick)) and type(node) is kind:
            moves.append(f"{self.name(depth)} = {node.value}")
            path = path + ((node.value, node.value),)
            node, depth = node.below, depth + 1
        self.shape(number, "\n".join(moves), "box" if kind is Choose else "ellipse")
        return [("", self.place(node, depth, path, place.level + 1))]


def next_nodes(node: Node) -> List[Node]:
    """What is drawn below a node: moves of one player that follow each other are drawn as one."""
    if isinstance(node, (Choose, Pick)):
        kind = type(node)
        while isinstance(node, (Choose, Pick)) and type(node) is kind:
            node = node.below
        return [node]
    if isinstance(node, (Answer, Over, Split)):
        return [part.below for part in merged(node.parts)]
    return []


def drawn_sizes(root: Node) -> Dict[int, int]:
    """For each subtree, by its id, how many nodes a whole drawing of it has."""
    sizes: Dict[int, int] = {}
    stack: List[Tuple[Node, bool]] = [(root, False)]
    while stack:
        node, is_below_done = stack.pop()
        if id(node) in sizes:
            continue
        below = next_nodes(node)
        if is_below_done:
            sizes[id(node)] = 1 + sum(sizes[id(child)] for child in below)
        else:
            stack.append((node, True))
            stack.extend((child, False) for child in below)
    return sizes


def quoted(words: str) -> str:
    """A label of DOT, on lines that aren't too long."""
    if len(words) > LONGEST_LABEL:
        words = words[:LONGEST_LABEL] + " .."
    escaped = [line.replace("\\", "\\\\").replace('"', '\\"') for line in folded(words)]
    return '"' + "\\n".join(escaped) + '"'


def folded(words: str) -> List[str]:
    """Words on lines of at most about so many characters."""
    lines: List[str] = []
    for part in words.split("\n"):
        lines.append("")
        for word in part.split(" "):
            if lines[-1] and len(lines[-1]) + 1 + len(word) > LABEL_WIDTH:
                lines.append(word)
            else:
                lines[-1] += (" " if lines[-1] else "") + word
    return lines


def dot(
    game: Game,
    certificate: Certificate,
    depth: Optional[int] = None,
    nodes: int = MOST_NODES,
    of_refutation: bool = False,
    is_given: bool = False,
) -> str:
    """The policy, or the refutation where that is asked for or there is no policy, as DOT."""
    drawing = Drawing(game, depth, nodes)
    root = certificate.emptiness or certificate.refutation
    if certificate.policy is not None and not of_refutation:
        root = certificate.policy
    assert root is not None
    drawing.draw(root.below if isinstance(root, Illegal) else root)
    told = [head(game, certificate)] + ([UNCHECKED] if is_given else [])
    if drawing.left_out:
        told.append(f"Left out: {drawing.left_out} of {drawing.left_out + drawing.count} nodes.")
    label = '"' + "\\n".join(line.replace('"', '\\"') for line in told) + '"'
    return "\n".join(["digraph qyas {", *STYLE, f"  label={label};", *drawing.lines, "}"]) + "\n"


def check(path: str, depth: Optional[int], nodes: int) -> None:
    """Refuses a drawing that can't be made, before anything is solved for it."""
    if Path(path).suffix not in FORMATS:
        raise WrongWords(f"{path}: a drawing's name ends with {', '.join(FORMATS)}")
    if (depth is not None and depth < 1) or nodes < 1:
        raise WrongWords("a drawing has a depth of at least 1, and at least 1 node")


def write(path: str, text: str) -> None:
    """Writes DOT to a file of this name: as it is, or as the SVG or PNG that `dot` makes of it."""
    kind = Path(path).suffix
    data = text.encode() if kind == ".dot" else rendered(text, kind[1:])
    try:
        Path(path).write_bytes(data)
    except OSError as error:
        raise FileFault(f"{path} can't be written: {error.strerror}") from None


def rendered(text: str, kind: str) -> bytes:
    """What Graphviz's `dot` makes of DOT."""
    program = shutil.which("dot")
    if program is None:
        raise NoGraphviz("`dot` isn't installed: install Graphviz (as by `apt install graphviz`), or draw to a .dot file")
    done = subprocess.run([program, f"-T{kind}"], input=text.encode(), stdout=subprocess.PIPE, stderr=subprocess.PIPE)
    if done.returncode != 0:
        words = done.stderr.decode("utf-8", "replace").strip().splitlines()
        raise NoGraphviz(f"`dot` failed: {words[0] if words else done.returncode}")
    return done.stdout
