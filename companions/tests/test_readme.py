"""The README: its problem is solved, and what it shows is what is printed."""

import re
import unittest
from typing import List

import support
from qyas_companions import solve, text

README = (support.TOP / "README.md").read_text()


def blocks() -> List[str]:
    """The indented blocks of the README."""
    found = re.findall(r"(?:^    .*\n)+", README, re.M)
    return [re.sub(r"^    ", "", block, flags=re.M) for block in found]


class ReadmeTest(unittest.TestCase):
    def test_its_problem_has_the_answer_that_it_shows(self) -> None:
        problem = next(block for block in blocks() if "MAXIMIZE" in block)
        shown = next(block for block in blocks() if block.startswith("optimal "))
        self.assertEqual("".join(f"{line}\n" for line in solve(problem.encode()).explain()), shown)
        for section in ("SUBJECT TO", "UNCERTAINTY", "BOUNDS", "GENERALS", "BINARIES", "EXISTS", "ALL", "ORDER", "END"):
            self.assertIn(f"\n{section}", problem)

    def test_its_certificate_is_the_one_that_is_kept(self) -> None:
        table = README[README.index("| Text | Meaning |") : README.index("The refutation: ")]
        words = [words for row in table.splitlines()[2:] if row for words in re.findall(r"`([^`]*)`", row.split("|")[1])]
        kept = support.example("crew-after").with_suffix(".cert").read_text().splitlines()
        self.assertEqual(kept[: len(words)], words)

    def test_its_answers_are_those_of_the_examples(self) -> None:
        expected = dict(line.split(" ", 1) for line in (support.TOP / "examples" / "expected").read_text().splitlines())
        shown = dict(re.findall(r"^\| `([a-z-]+)` \| .* \| `(.*)` \|$", README, re.M))
        self.assertEqual({f"{name}.qlp": answer for name, answer in shown.items()}, expected)

    def test_it_is_short(self) -> None:
        self.assertLess(README.count("\n"), 150)
        self.assertLess(len(README.split()), 1600)

    def test_each_example_asks_its_question_in_two_lines(self) -> None:
        for path in support.EXAMPLES:
            comments = text.read(path.read_bytes()).comments
            self.assertGreaterEqual(len(comments), 2, path.name)
            self.assertTrue(comments[1].endswith(("?", ".")), path.name)
            self.assertIn("?", " ".join(comments[:2]), path.name)

    def test_files_that_documents_name_are_there(self) -> None:
        for document in (support.TOP / name for name in ("README.md", "docs/COMPANIONS.md", "docs/PROOFS.md")):
            named = r"\b((?:docs|examples|companions|editors)/[A-Za-z0-9_./-]*[A-Za-z0-9_])"
            for name in re.findall(named, document.read_text()):
                if not name.endswith("/NAME.qlp") and "NAME" not in name:
                    self.assertTrue((support.TOP / name).exists(), (document.name, name))


if __name__ == "__main__":
    unittest.main()
