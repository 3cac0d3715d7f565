"""Certificates: read by the grammar; mutated ones are refused with their line, or read as what they say."""

import io
import random
import sys
import unittest
from typing import List

import support
from qyas_companions import certificate, game, text
from qyas_companions.certificate import Answer, Choose, Close, Illegal, Leaf, Node, Over, Pick, Split
from qyas_companions.faults import WrongCertificate


def written(found: certificate.Certificate) -> bytes:
    """The text of a certificate, written without recursion."""
    lines: List[str] = [f"optimal {found.value}" if found.value is not None else found.claim, "certificate 1"]
    if found.emptiness is not None:
        lines += tree_lines(found.emptiness)
    else:
        lines.append(" ".join(["legal", *map(str, found.legal)]))
        if found.policy is not None:
            lines += ["policy", *tree_lines(found.policy)]
        assert found.refutation is not None
        lines += ["refute", *tree_lines(found.refutation)]
    return ("\n".join([*lines, "end"]) + "\n").encode()


def tree_lines(root: Node) -> List[str]:
    lines: List[str] = []
    stack: List[object] = [root]
    while stack:
        node = stack.pop()
        if isinstance(node, str):
            lines.append(node)
        elif isinstance(node, (Choose, Pick)):
            more = node.completion if isinstance(node, Pick) else ()
            lines.append(" ".join(["choose" if isinstance(node, Choose) else "pick", str(node.value), *map(str, more)]))
            stack.append(node.below)
        elif isinstance(node, Illegal):
            lines.append("illegal")
            stack.append(node.below)
        elif isinstance(node, (Answer, Over, Split)):
            word = {Answer: "answer", Over: "over", Split: "split"}[type(node)]
            which = [str(node.variable + 1)] if isinstance(node, Split) else []
            lines.append(" ".join([word, *which, str(len(node.parts))]))
            for part in reversed(node.parts):
                stack += [part.below, f"range {part.low} {part.high}"]
        elif isinstance(node, Close):
            entries = [f"{kind}{number}={multiplier}" for kind, number, multiplier in node.entries]
            lines.append(" ".join(["close", *(["o"] if node.bounds_objective else []), *entries]))
        else:
            assert isinstance(node, Leaf)
            lines.append(" ".join(["leaf", *map(str, node.point)]))
    return lines


def read(problem: game.Game, data: bytes) -> certificate.Certificate:
    return certificate.read(problem, io.BytesIO(data))


class CertificateTest(unittest.TestCase):
    def test_each_example_is_read_whole(self) -> None:
        for path in support.EXAMPLES:
            data = support.certificate_text(path)
            self.assertEqual(written(read(support.solved(path).game, data)), data, path.name)

    def test_mutated_certificates_are_refused_or_read(self) -> None:
        chance = random.Random(11)
        refused = 0
        for _ in range(300):
            path = chance.choice(support.EXAMPLES)
            data = mutated(chance, support.certificate_text(path))
            try:
                self.assertEqual(written(read(support.solved(path).game, data)), data)
            except WrongCertificate as fault:
                refused += 1
                self.assertLessEqual(fault.line, data.count(b"\n") + 2)
        self.assertGreater(refused, 200)

    def test_a_certificate_of_another_problem_is_refused(self) -> None:
        data = support.certificate_text(support.example("crew-after"))
        with self.assertRaisesRegex(WrongCertificate, "certificate, line 3: "):
            read(support.solved(support.example("fleet")).game, data)

    def test_the_line_is_told(self) -> None:
        lines = support.certificate_text(support.example("crew-after")).split(b"\n")
        for at, line, words in (
            (0, b"optimal 4/2", "lowest terms"),
            (1, b"certificate 2", "certificate 1"),
            (2, b"legal 2", "no universal play"),
            (4, b"answer 3", "can't cover"),
            (5, b"range 0 1", "don't cover"),
            (6, b"choose 2", "outside 0..1"),
            (8, b"choose 0", "all variables are set"),
            (14, b"pick 0 1", "3 words"),
            (19, b"close r4=1", "r4 is no row"),
            (19, b"close r3=1 r1=1", "order"),
            (19, b"close u1=1", "u1 is no row"),
            (19, b"leaf", "no line of a refutation"),
        ):
            changed = b"\n".join([*lines[:at], line, *lines[at + 1 :]])
            problem = support.solved(support.example("crew-after")).game
            with self.assertRaisesRegex(WrongCertificate, words) as caught:
                read(problem, changed)
            self.assertEqual(caught.exception.line, at + 1)

    def test_a_thousand_variables_need_no_recursion(self) -> None:
        names = [f"x{at}" for at in range(1000)]
        data = f"MAX ST BINARIES {' '.join(names)} ALL {' '.join(names[::2])} ORDER {' '.join(names)} END".encode()
        problem = game.Game(text.read(data))
        policy = "\n".join("answer 1\nrange 0 1" if at % 2 == 0 else "choose 1" for at in range(1000))
        lines = ["optimal 0", "certificate 1", "legal" + " 0" * 500, "policy", policy, "leaf", "refute", "close o", "end"]
        limit = sys.getrecursionlimit()
        try:
            sys.setrecursionlimit(250)
            found = read(problem, ("\n".join(lines) + "\n").encode())
            said = list(support.solution.Solution(problem, found, True).explain())
            drawn = support.solution.Solution(problem, found, True).dot(nodes=20)
            moves = list(support.solution.Solution(problem, found, True).follow(["0"] * 500))
        finally:
            sys.setrecursionlimit(limit)
        self.assertEqual(len(said), 5)
        self.assertIn("left out", drawn)
        self.assertEqual(moves[-1], "value 0")

    def test_equal_subtrees_are_one(self) -> None:
        problem = game.Game(text.read(b"MAXIMIZE x\nSUBJECT TO\nBINARIES x u\nALL u\nORDER u x\nEND\n"))
        below = b"choose 1\nleaf\n"
        data = b"optimal 1\ncertificate 1\nlegal 0\npolicy\nanswer 2\nrange 0 0\n" + below + b"range 1 1\n" + below
        policy = read(problem, data + b"refute\npick 0\nclose o\nend\n").policy
        assert isinstance(policy, Answer)
        self.assertIs(policy.parts[0].below, policy.parts[1].below)


def mutated(chance: random.Random, data: bytes) -> bytes:
    lines = data.split(b"\n")
    at = chance.randrange(len(lines) - 1)
    kind = chance.randrange(6)
    if kind == 0:
        del lines[at]
    elif kind == 1:
        lines[at] = lines[chance.randrange(len(lines))]
    elif kind == 2:
        lines.insert(at, lines[chance.randrange(len(lines))])
    elif kind == 3:
        lines = lines[:at]
    else:
        words = lines[at].split(b" ")
        place = chance.randrange(len(words))
        words[place] = chance.choice([b"0", b"1", b"2", b"-1", b"01", b"", b"o", b"r1=1", b"u1=1/2", b"9" * 50, b"\xff"])
        lines[at] = b" ".join(words)
    return b"\n".join(lines)


if __name__ == "__main__":
    unittest.main()
