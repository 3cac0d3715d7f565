"""LP and MPS files, each odd feature once: their answers by the program and by other solvers, or their faults."""

import random
import re
import subprocess
import unittest
from fractions import Fraction
from pathlib import Path
from typing import Dict, List, Optional, Tuple

import support
from qyas_companions import convert, lp_file, mps_file, quantifiers, solve, text
from qyas_companions.faults import Fault, Unconvertible

# For each file its value, and the other solvers that read it the same way.
VALUES: Dict[str, Tuple[Fraction, List[str]]] = {
    "basic.lp": (Fraction(11), ["glpsol --lp", "cbc"]),
    "ranges.lp": (Fraction(10), ["cbc"]),
    "names.lp": (Fraction(12), ["glpsol --lp", "cbc"]),
    "headings.lp": (Fraction(7), ["glpsol --lp", "cbc"]),
    "hexadecimal.lp": (Fraction(8), ["glpsol --lp"]),
    "repeated.lp": (Fraction(5), []),
    "twice.lp": (Fraction(-5), ["glpsol --lp", "cbc"]),
    "constant.lp": (Fraction(27, 2), ["cbc"]),
    "binary.lp": (Fraction(3), ["glpsol --lp", "cbc"]),
    "large.lp": (Fraction(3), ["glpsol --lp"]),
    "continuous.lp": (Fraction(11, 4), ["glpsol --lp", "cbc"]),
    "free.mps": (Fraction(9), []),
    "no_sets.mps": (Fraction(8), []),
    "fixed.mps": (Fraction(5), ["glpsol --mps", "cbc"]),
    "columns.mps": (Fraction(-3), ["cbc"]),
    "spans.mps": (Fraction(-7), ["glpsol --freemps"]),
    "kinds.mps": (Fraction(0), []),
    "objective_right.mps": (Fraction(11), []),
}
FAULTS: Dict[str, Tuple[int, str]] = {
    "constant_left.lp": (5, "row c has a constant on the left"),
    "lazy.lp": (7, "lazy constraints, which the format can't say: l"),
    "cuts.lp": (7, "user cuts, which the format can't say: k"),
    "indicator.lp": (5, "row c is an indicator constraint, which the format can't say"),
    "quadratic.lp": (5, "row q has a quadratic term, which the format can't say"),
    "product.lp": (5, "row q has a quadratic term, which the format can't say"),
    "sos.lp": (12, "SOS sets, which the format can't say: s1"),
    "semi.lp": (12, "semi-continuous variables, which the format can't say: y"),
    "right.lp": (5, "row c has the variable y on the right"),
    "infinite.lp": (5, "row c has an infinite right side"),
    "turned.lp": (5, "row c has two relations that aren't a range"),
    "no_end.lp": (6, "the file has no End"),
    "no_upper.lp": (3, "y has no upper bound (the quantifier file's `bounds` can give one)"),
    "below.lp": (7, "x has an upper bound below 0 and no lower one"),
    "binary_wrong.lp": (7, "x stands in Binary, and has a bound that is neither 0 nor 1"),
    "no_bounds.mps": (8, "x has no upper bound (the quantifier file's `bounds` can give one)"),
    "semi.mps": (12, "semi-continuous variables, which the format can't say: x"),
    "second_set.mps": (13, "a second set, o, in BOUNDS"),
    "quadratic.mps": (14, "quadratic terms, which the format can't say: x"),
    "sos.mps": (14, "SOS sets, which the format can't say: S1"),
    "unknown_row.mps": (12, "the row 'nothing' isn't known"),
    "nan.mps": (12, "nan is no decimal number"),
}


def converted(name: str, quantifier: Optional[str] = None) -> convert.Converted:
    path = str(support.FILES / quantifier) if quantifier else None
    return convert.convert(str(support.FILES / name), path)


def with_quantifiers(name: str, lines: str) -> convert.Converted:
    linear = convert.read_linear(str(support.FILES / name), None)
    return convert.Conversion(linear, quantifiers.read(lines), name).make(None)


def second_opinion(words: str, path: Path) -> Fraction:
    """The optimal value that another solver finds."""
    with support.room() as folder:
        out = f"{folder}/out"
        how = [*words.split(), str(path), "-o", out] if words.startswith("glpsol") else ["cbc", str(path), "solve", "solu", out]
        subprocess.run(how, stdout=subprocess.DEVNULL, stderr=subprocess.DEVNULL, timeout=30, check=False)
        told = Path(out).read_text() if Path(out).exists() else ""
    found = re.search(r"(?:Objective: .* = |objective value )(-?[0-9.e+]+)", told)
    assert found is not None, (words, path, told)
    return Fraction(found[1])


def mutated(chance: random.Random, data: bytes) -> bytes:
    """A file with a word changed, left out or moved, or a byte changed."""
    words = data.replace(b"\n", b" \n ").split(b" ")
    at, other = chance.randrange(len(words)), chance.randrange(len(words))
    kind = chance.randrange(5)
    if kind == 0:
        del words[at]
    elif kind == 1:
        words[at] = words[other]
    elif kind == 2:
        words.insert(at, words[other])
    elif kind == 3:
        words[at] = chance.choice([b"1e400", b"-", b"<=", b"inf", b"[", b"\xff", b"end", b"3", b"->", b"$", b"RHS", b":", b"free"])
    else:
        place = chance.randrange(len(data))
        return data[:place] + bytes([chance.randrange(256)]) + data[place + 1 :]
    return b" ".join(words)


class ConvertTest(unittest.TestCase):
    def test_every_file_is_tried(self) -> None:
        names = {path.name for path in support.FILES.iterdir() if path.suffix in (".lp", ".mps")}
        self.assertEqual(names, set(VALUES) | set(FAULTS) | {"network.lp"})

    def test_values(self) -> None:
        for name, (value, _) in VALUES.items():
            made = converted(name)
            self.assertEqual(made.warnings, [])
            again = text.read(made.program.text().encode("latin-1"))
            self.assertEqual(again.described(), made.program.described())
            self.assertEqual(solve(made.program).value, value, name)

    def test_other_solvers_find_the_same(self) -> None:
        for name, (value, solvers) in VALUES.items():
            for words in solvers:
                if support.has(words.split()[0]):
                    self.assertEqual(second_opinion(words, support.FILES / name), value, (name, words))

    def test_faults(self) -> None:
        for name, (line, words) in FAULTS.items():
            with self.assertRaises(Unconvertible, msg=name) as caught:
                converted(name)
            self.assertEqual((caught.exception.line, caught.exception.words), (line, words), name)
            self.assertEqual(str(caught.exception), f"{name}, line {line}: {words}")

    def test_a_game(self) -> None:
        made = converted("network.lp", "network.quant")
        self.assertEqual(made.warnings, [])
        self.assertEqual(solve(made.program).value, 9)
        self.assertEqual(len(made.program.uncertainty), 1)
        without = with_quantifiers("network.lp", "all fail,1 fail,2 fail,3")
        self.assertEqual(len(without.warnings), 1)
        self.assertIn("row #8 has universal variables alone", without.warnings[0])

    def test_both_rows_of_a_range_are_uncertain(self) -> None:
        made = with_quantifiers("ranges.lp", "all x y\nuncertain band back")
        self.assertEqual((len(made.program.rows), len(made.program.uncertainty), made.warnings), (0, 4, []))

    def test_numbers_name_rows_without_names(self) -> None:
        text_of = "Max\n x\nST\n x <= 1\n {}: x <= 2\n x <= 3\nBounds\n x <= 3\nGeneral\n x\nEnd\n"
        for name, row, right in (("c", "#1", 1), ("c", "#3", 3), ("#1", "#1", 2)):
            linear = lp_file.read(text_of.format(name))
            said = quantifiers.read(f"all x\nuncertain {row}")
            made = convert.Conversion(linear, said, "a.lp").make(None).program
            self.assertEqual([r.right for r in made.uncertainty], [right], (name, row))
        with self.assertRaisesRegex(Unconvertible, "the row #2 isn't known"):
            convert.Conversion(lp_file.read(text_of.format("c")), quantifiers.read("uncertain #2"), "a.lp").make(None)

    def test_rows_are_exact(self) -> None:
        made = converted("spans.mps").program
        self.assertEqual(
            [row.text() for row in made.rows],
            [
                "most: a >= 3",
                "most_2: a <= 5",
                "least: b >= 2",
                "least_2: b <= 5",
                "up: c >= 3",
                "up_2: c <= 5",
                "down: d >= 1",
                "down_2: d <= 4",
            ],
        )

    def test_names_are_mended(self) -> None:
        made = converted("names.lp").program
        self.assertEqual(list(made.variables), ["x(1_2)_2", "x(1_2)", "_~r_1", "_max", "a_b"])
        self.assertIn("The variable x(1_2)_2 was x(1,2)", made.comments)

    def test_comments_say_how_it_was_read(self) -> None:
        self.assertEqual(
            converted("fixed.mps").program.comments[:2],
            [
                "Converted from fixed.mps, read as fixed MPS, by its columns, as it is no free MPS.",
                "Sense: minimize, as the file says none.",
            ],
        )
        turned = convert.convert(str(support.FILES / "basic.lp"), sense="minimize").program
        self.assertEqual(turned.sense, "minimize")
        self.assertEqual(turned.comments[1], "Sense: minimize, as asked for; the file says maximize.")
        self.assertIn("The free row other (line 7) is left out.", converted("free.mps").program.comments)

    def test_bounds_of_quantifier_files(self) -> None:
        self.assertEqual(solve(converted("no_upper.lp", "no_upper.quant").program).value, 5)
        self.assertIn("x >= - 3\nx <= - 1\n", with_quantifiers("below.lp", "bounds x -3 -1").program.text())

    def test_faults_of_quantifier_files(self) -> None:
        for lines, line, words in (
            ("\norder x nothing", 2, "the variable nothing isn't known"),
            ("order x x", 1, "x stands in order a second time"),
            ("all x\nall x", 2, "x stands in all a second time"),
            ("uncertain #9", 1, "the row #9 isn't known"),
            ("uncertain one", 1, "the existential x stands in the uncertain row one"),
            ("bounds x 3 2", 1, "the bounds of x: 3 is above 2"),
            ("bounds x 3", 1, "`bounds` has a name and two numbers"),
            ("bounds x 3 inf", 1, "inf is no decimal number"),
            ("free x", 1, "a line begins with order, all, uncertain or bounds, not 'free'"),
            ('order "x', 1, "a name in double quotes doesn't end"),
        ):
            with self.assertRaises(Unconvertible, msg=lines) as caught:
                with_quantifiers("basic.lp", lines)
            self.assertEqual((caught.exception.file, caught.exception.line, caught.exception.words), ("quantifiers", line, words))
        for name, lines, words in (
            ("continuous.lp", "all y", "y is universal and continuous"),
            ("continuous.lp", "order y\nall x", "the continuous y stands before the universal x"),
            ("binary.lp", "bounds x 0 1", "bounds of x, which stands in Binary"),
            ("free.mps", "uncertain other", "the free row other can't be uncertain"),
        ):
            with self.assertRaisesRegex(Unconvertible, words):
                with_quantifiers(name, lines)

    def test_lines_that_can_be_read_in_two_ways_are_refused(self) -> None:
        for rows, line, words in (
            ("3 <= x", 4, "row #1 has its number on the left alone"),
            ("3 <= x\n -1 <= y <= 2", 5, "row #1 has a constant on the left"),
            ("x <= 3 y", 4, "row #1: the end of the row is due, not 'y'"),
            ("x <= 3 + 1", 4, "row #1: the end of the row is due, not '+'"),
            ("x 2 y <= 3", 4, "row #1: a sign or a relation is due, not '2'"),
        ):
            with self.assertRaises(Unconvertible, msg=rows) as caught:
                lp_file.read(f"Max\n x + y\nST\n {rows}\nEnd\n")
            self.assertEqual((caught.exception.line, caught.exception.words), (line, words))
        with self.assertRaisesRegex(Unconvertible, "line 3: Subject To is due"):
            lp_file.read("Max\n x + y\nEnd\n")

    def test_mutated_files_are_refused_or_read(self) -> None:
        chance = random.Random(5)
        files = [path for path in support.FILES.iterdir() if path.suffix in (".lp", ".mps")]
        read = 0
        with support.room() as folder:
            for _ in range(600):
                source = chance.choice(files)
                path = Path(folder) / source.name
                path.write_bytes(mutated(chance, source.read_bytes()))
                try:
                    made = convert.convert(str(path), str(support.FILES / "network.quant") if chance.random() < 0.1 else None)
                except Fault:
                    continue
                read += 1
                again = text.parse(made.program.text())
                self.assertEqual(again.described(), made.program.described())
        self.assertGreater(read, 50)

    def test_a_sense_at_the_beginning_of_its_line(self) -> None:
        linear = mps_file.read("NAME\nOBJSENSE\nMAX\nROWS\n N o\nCOLUMNS\n x o 1\nENDATA\n", False)
        self.assertTrue(linear.is_maximized)

    def test_a_bound_of_a_heading_word_is_a_bound(self) -> None:
        linear = lp_file.read("Max\n 2 st + end\nST\n c: st + end <= 3\n end + st >= 0\nBounds\n end <= 1\n st <= 9\nEnd\n")
        self.assertEqual(list(linear.columns), ["st", "end"])
        self.assertEqual(len(linear.rows), 2)


if __name__ == "__main__":
    unittest.main()
