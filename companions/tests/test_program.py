"""The program: how it is found, what its statuses become, and that it ends with the companions."""

import os
import signal
import subprocess
import sys
import time
import unittest
from pathlib import Path
from typing import Any
from unittest import mock

import support
from qyas_companions import faults, program

STATUSES = {
    "3": (faults.ReadFault, "read problem"),
    "4": (faults.OutputFault, "the program couldn't write its output"),
    "6": (faults.Limit, "limit variables 1001"),
    "10": (faults.Memory, "memory: it ran out in the program"),
    "7": (faults.NumberLeaves, "leaves: the linear program of a leaf needs numbers beyond 128 bits"),
    "8": (faults.Spent, "spent 3: the search has made all its entries; give it more (--nodes, at most 50000000)"),
    "13": (faults.ProgramFault, "the program ended with status 13: "),
    "77": (faults.ProgramFault, "the program ended with status 77: "),
}


class ProgramTest(unittest.TestCase):
    def test_each_status_is_a_named_error(self) -> None:
        with support.room() as folder:
            for status, (kind, line) in STATUSES.items():
                words = [f"echo '{line}'"] if status == "6" else ["echo 'spent 3'", "echo 'g 0 0'"] if status == "8" else []
                fake = support.fake_program(folder, [*words, f"exit {status}"])
                with self.assertRaises(kind) as caught:
                    program.solve_text(b"", fake)
                self.assertEqual((str(caught.exception), caught.exception.status), (line, int(status)))
            fake = support.fake_program(folder, ["echo 'text 3 14 expected line end'", "exit 5"])
            with self.assertRaises(faults.TextFault) as told:
                program.solve_text(b"", fake)
            fault = told.exception
            self.assertEqual((fault.line, fault.column, fault.words), (3, 14, "expected line end"))
            self.assertEqual(fault.status, 5)

    def test_a_budget_is_handed_on(self) -> None:
        with support.room() as folder:
            told = f"{folder}/words"
            fake = support.fake_program(folder, [f'shift 2; echo "$@" > {told}'])
            for nodes, words in ((None, ""), (1, "--nodes 1"), (50_000_000, "--nodes 50000000")):
                program.solve_text(b"", fake, nodes=nodes).close()
                self.assertEqual(Path(told).read_text(), f"{words}\n")
            for nodes in (0, -1, 50_000_001):
                with self.assertRaises(faults.WrongWords):
                    program.solve_text(b"", fake, nodes=nodes)

    def test_a_killed_program_is_told(self) -> None:
        with support.room() as folder:
            for name, kind in (("TERM", faults.Interrupted), ("INT", faults.Interrupted), ("KILL", faults.Memory)):
                with self.assertRaises(kind):
                    program.solve_text(b"", support.fake_program(folder, [f"kill -{name} $$"]))

    def test_where_the_program_is_looked_for(self) -> None:
        with support.room() as folder, mock.patch.dict(os.environ, {"PATH": folder}):
            fake = support.fake_program(folder, ["exit 0"])
            self.assertEqual(program.find(fake), fake)
            os.environ["QYAS"] = fake
            self.assertEqual(program.find(), fake)
            os.environ["QYAS"] = fake + "-not"
            with self.assertRaises(faults.NoProgram):
                program.find()
            del os.environ["QYAS"]
            Path(fake).rename(Path(folder) / "qyas")
            self.assertEqual(program.find(), str(Path(folder) / "qyas"))
            os.environ["PATH"] = ""
            with mock.patch.object(program, "BUILT", Path(folder) / "nothing"):
                with self.assertRaisesRegex(faults.NoProgram, "rt run"):
                    program.find()
            with mock.patch.object(program, "BUILT", Path(folder) / "qyas"):
                self.assertEqual(program.find(), str(Path(folder) / "qyas"))

    def test_an_interrupt_ends_the_program(self) -> None:
        with support.room() as folder:
            mark = Path(folder) / "running"
            fake = support.fake_program(folder, [f"echo $$ > {mark}", "exec sleep 60"])
            problem = str(support.example("crew-after"))
            for number, status in ((signal.SIGINT, 130), (signal.SIGTERM, 130)):
                mark.unlink(missing_ok=True)
                child = subprocess.Popen(
                    [sys.executable, "-B", support.PLAN, "solve", problem],
                    env={**os.environ, "QYAS": fake},
                    stdout=subprocess.PIPE,
                    stderr=subprocess.PIPE,
                    preexec_fn=heed_interrupts,
                )
                running = wait_for(mark)
                child.send_signal(number)
                _, told = child.communicate(timeout=20)
                self.assertEqual(child.returncode, status)
                self.assertNotIn(b"Traceback", told)
                with self.assertRaises(ProcessLookupError):
                    os.kill(running, 0)

    def test_an_interrupt_while_the_program_starts_ends_it(self) -> None:
        started = []
        begin = subprocess.Popen

        def interrupted(*words: Any, **more: Any) -> Any:
            started.append(begin(*words, **more))
            os.kill(os.getpid(), signal.SIGINT)
            return started[0]

        before = signal.signal(signal.SIGINT, signal.default_int_handler)
        try:
            with support.room() as folder, mock.patch.object(subprocess, "Popen", interrupted):
                with self.assertRaises(faults.Interrupted):
                    program.solve_text(b"", support.fake_program(folder, ["exec sleep 60"]))
        finally:
            signal.signal(signal.SIGINT, before)
        self.assertEqual(started[0].returncode, -signal.SIGTERM)


def heed_interrupts() -> None:
    """What runs in the background ignores interrupts, and hands that on to what it starts."""
    signal.signal(signal.SIGINT, signal.SIG_DFL)


def wait_for(path: Path) -> int:
    """The number that a program writes once it runs."""
    for _ in range(400):
        if path.exists() and path.read_text().strip():
            return int(path.read_text())
        time.sleep(0.05)
    raise AssertionError("the program didn't begin")


if __name__ == "__main__":
    unittest.main()
