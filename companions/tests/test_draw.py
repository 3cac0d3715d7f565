"""Drawings: each example's policy and refutation, whole and cut, with and without Graphviz."""

import os
import re
import unittest
from unittest import mock

import support
from qyas_companions import draw
from qyas_companions.faults import NoGraphviz, WrongWords


class DrawTest(unittest.TestCase):
    def test_each_example_is_drawn(self) -> None:
        for path in support.EXAMPLES:
            found = support.solved(path)
            for of_refutation in (False, True):
                drawn = found.dot(of_refutation=of_refutation, nodes=10_000)
                nodes = re.findall(r"^  (n\d+) \[", drawn, re.M)
                edges = re.findall(r"^  (n\d+) -> (n\d+)", drawn, re.M)
                self.assertEqual(len(edges), len(nodes) - 1)
                self.assertEqual({end for _, end in edges} | {"n0"}, set(nodes))
                self.assertNotIn("left out", drawn.lower())

    def test_a_cut_drawing_tells_what_is_left_out(self) -> None:
        found = support.solved(support.example("surge"))
        whole = len(re.findall(r"^  n\d+ \[", found.dot(), re.M))
        for depth, nodes in ((2, 300), (None, 5), (1, 1)):
            drawn = found.dot(depth, nodes)
            shown = len(re.findall(r"^  n\d+ \[", drawn, re.M))
            self.assertIn(f"Left out: {whole - shown} of {whole} nodes.", drawn)
            sizes = re.findall(r'label="\.\. (\d+) left out"', drawn)
            self.assertEqual(sum(map(int, sizes)), whole - shown)

    def test_shapes(self) -> None:
        drawn = support.solved(support.example("surge")).dot()
        self.assertIn('n0 [shape=box, label="stockEast = 2\\nstockWest = 1"]', drawn)
        self.assertIn('n1 [shape=ellipse, label="surgeEast"]', drawn)
        self.assertIn("shape=box, style=dashed, label=\"illegal: uncertainty row 1,", drawn)
        self.assertIn('label="costs 12"', drawn)

    def test_without_graphviz_the_error_says_how(self) -> None:
        with support.room() as folder, mock.patch.dict(os.environ, {"PATH": folder}):
            with self.assertRaisesRegex(NoGraphviz, "install Graphviz"):
                draw.write(f"{folder}/x.svg", "digraph {}")
            draw.write(f"{folder}/x.dot", "digraph {}")
            self.assertEqual(os.listdir(folder), ["x.dot"])

    def test_wrong_words(self) -> None:
        for path, depth, nodes in (("x.gif", None, 1), ("x.svg", 0, 1), ("x.svg", 1, 0)):
            with self.assertRaises(WrongWords):
                draw.check(path, depth, nodes)

    @unittest.skipUnless(support.has("dot"), "Graphviz isn't installed")
    def test_graphviz_draws(self) -> None:
        with support.room() as folder:
            for name, kind, begin in (("network", "svg", b"<?xml"), ("crew-after", "png", b"\x89PNG")):
                path = f"{folder}/x.{kind}"
                draw.write(path, support.solved(support.example(name)).dot())
                with open(path, "rb") as made:
                    self.assertTrue(made.read().startswith(begin))
        with self.assertRaisesRegex(NoGraphviz, "failed"):
            draw.rendered("no drawing", "svg")


if __name__ == "__main__":
    unittest.main()
