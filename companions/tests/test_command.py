"""The command line: what it prints, its statuses, and that it never shows a traceback."""

import io
import os
import signal
import subprocess
import unittest
from pathlib import Path
from typing import Tuple
from unittest import mock

import support
from qyas_companions import command

CREW = str(support.example("crew-after"))
LEAVES = b"MAXIMIZE .000000007 y ST 1e30 y <= 3\nBOUNDS y <= 2\nORDER y END"
COMMANDS = ("solve", "explain", "draw", "follow", "convert", "equivalent")


def plan(*words: str, given: str = "", **environment: str) -> Tuple[int, str, str]:
    """The status, the output and the errors of `plan`, run within this process."""
    out, told = (io.TextIOWrapper(io.BytesIO(), write_through=True) for _ in range(2))
    before = signal.getsignal(signal.SIGTERM)
    with mock.patch.dict(os.environ, environment), mock.patch("sys.stdin", io.StringIO(given)):
        with mock.patch("sys.stdout", out), mock.patch("sys.stderr", told):
            status = command.main(list(words))
    signal.signal(signal.SIGTERM, before)
    return status, out.buffer.getvalue().decode(), told.buffer.getvalue().decode()  # type: ignore[attr-defined]


class CommandTest(unittest.TestCase):
    def test_it_runs_in_place(self) -> None:
        for words, status in (((CREW,), 0), ((CREW + "-not",), 1), ((), 2)):
            done = subprocess.run([support.PLAN, "solve", *words], stdout=subprocess.PIPE, stderr=subprocess.PIPE, check=False)
            self.assertEqual(done.returncode, status)
            self.assertEqual(bool(done.stdout), status == 0)
            self.assertNotIn(b"Traceback", done.stderr)

    def test_help_has_an_example(self) -> None:
        self.assertEqual(plan("--help")[0], 0)
        for name in COMMANDS:
            status, out, _ = plan(name, "--help")
            self.assertEqual(status, 0)
            self.assertIn(f"example: plan {name} ", out)

    def test_wrong_words_end_with_2(self) -> None:
        for words in ((), ("frob",), ("solve",), ("solve", CREW, "--frob"), ("solve", CREW, "--nodes", "0"), ("draw", CREW, "-o", "x.gif"), ("draw", CREW)):
            status, out, told = plan(*words)
            self.assertEqual((status, out), (2, ""), words)
            self.assertTrue(told)

    def test_solve_saves_what_explain_and_draw_take(self) -> None:
        with support.room() as folder:
            kept, drawn = f"{folder}/crew.cert", f"{folder}/crew.dot"
            status, out, told = plan("solve", CREW, "--save", kept)
            self.assertEqual((status, told), (0, ""))
            self.assertTrue(out.startswith("optimal 2: "))
            self.assertEqual(Path(kept).read_bytes(), Path(CREW).with_suffix(".cert").read_bytes())
            status, again, _ = plan("explain", CREW, "--cert", kept, QYAS="/nothing")
            self.assertEqual((status, again), (0, "This certificate was given, and wasn't checked.\n" + out))
            status, reasons, _ = plan("explain", CREW, "--refutation")
            self.assertEqual(status, 0)
            self.assertIn("row 3, `- failA - crewB <= - 1`, can't hold", reasons)
            self.assertEqual(plan("draw", CREW, "--cert", kept, "-o", drawn)[0], 0)
            self.assertTrue(Path(drawn).read_text().startswith("digraph"))
            self.assertEqual(plan("follow", CREW, "--cert", kept, "failA=1")[1], "failA ? 0..1\ncrewA = 1\ncrewB = 0\nvalue 3\n")

    def test_follow_by_words_and_by_lines(self) -> None:
        self.assertEqual(plan("follow", CREW, given="9\n0\n")[1].split("\n")[1], "illegal: 9 is outside 0..1")
        self.assertEqual(plan("follow", CREW, given="0\n")[0], 0)
        status, out, told = plan("follow", CREW)
        self.assertEqual((status, out), (1, "failA ? 0..1\n"))
        self.assertIn("failA", told)
        self.assertEqual(plan("follow", CREW, "0", "1")[0], 1)
        self.assertEqual(plan("follow", str(support.example("crew-before")), "0")[0], 1)

    def test_named_errors_are_one_line(self) -> None:
        with support.room() as folder:
            wrong = Path(folder) / "wrong.qlp"
            for data, status, line in (
                (b"MAX 2*x", 5, "text 1 6 byte"),
                (b"MAX ST BOUNDS n <= 1048576\nGENERALS n ORDER n END", 6, "limit domain n"),
                (LEAVES, 7, "leaves: the linear program of a leaf needs numbers beyond 128 bits (prefix, at "),
            ):
                wrong.write_bytes(data)
                for words in (("solve",), ("explain",), ("follow",), ("draw", "-o", f"{folder}/x.dot")):
                    found, out, told = plan(words[0], str(wrong), *words[1:])
                    self.assertEqual((found, out, told.count("\n")), (status, "", 1))
                    self.assertTrue(told.startswith(line))
            certificate = Path(folder) / "wrong.cert"
            certificate.write_text("optimal 2\n")
            found, _, told = plan("explain", CREW, "--cert", str(certificate))
            self.assertEqual((found, told), (1, "certificate, line 2: the text ends where certificate 1 is due\n"))
            for words in (("solve", f"{folder}/none"), ("explain", CREW, "--cert", f"{folder}/none"), ("solve", folder)):
                found, _, told = plan(*words)
                self.assertEqual((found, told.count("\n")), (1, 1))
        self.assertEqual(plan("solve", CREW, QYAS="/nothing")[0], 1)

    def test_a_spent_budget_is_one_line(self) -> None:
        status, out, told = plan("solve", CREW, "--nodes", "1")
        self.assertEqual((status, out, told.count("\n")), (8, "", 1))
        self.assertTrue(told.startswith("spent 1: "))

    def test_convert_and_equivalent(self) -> None:
        with support.room() as folder:
            made, back = f"{folder}/made.qlp", f"{folder}/back.lp"
            network = str(support.FILES / "network.lp")
            quantifier = str(support.FILES / "network.quant")
            self.assertEqual(plan("convert", network, "-q", quantifier, "-o", made), (0, "", ""))
            self.assertEqual(plan("convert", network, "-q", quantifier)[1], Path(made).read_text())
            self.assertTrue(plan("solve", made)[1].startswith("optimal 9: "))
            self.assertEqual(plan("equivalent", made, "-o", back)[0], 0)
            self.assertEqual(plan("equivalent", made, "--plays", "3")[0], 1)
            self.assertTrue(Path(back).read_text().endswith("End\n"))
        status, out, told = plan("convert", str(support.FILES / "no_upper.lp"))
        self.assertEqual((status, out), (1, ""))
        self.assertTrue(told.startswith("no_upper.lp, line 3: y has no upper bound"))
        self.assertEqual(plan("convert", str(support.FILES / "basic.lp"), "--max", "--min")[0], 2)
        self.assertIn("MINIMIZE", plan("convert", str(support.FILES / "basic.lp"), "--min", "--format", "lp")[1])

    def test_seconds_are_told_while_it_works(self) -> None:
        with support.room() as folder:
            script = ["sleep 2.3", f"cat '{Path(CREW).with_suffix('.cert')}'"]
            _, out, told = plan("solve", CREW, QYAS=support.fake_program(folder, script))
            self.assertTrue(out.startswith("optimal 2: "))
            self.assertTrue(told.startswith("solving: "))


if __name__ == "__main__":
    unittest.main()
