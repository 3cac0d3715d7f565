"""Finds the program `qyas` and runs it. What it prints is proved; what the companions make of it isn't."""

from __future__ import annotations

import os
import shutil
import signal
import subprocess
import tempfile
import time
from pathlib import Path
from typing import IO, Iterable, List, Optional, TextIO

from .faults import (
    Interrupted,
    Limit,
    Memory,
    NoProgram,
    NumberLeaves,
    OutputFault,
    ProgramFault,
    ReadFault,
    Spent,
    TextFault,
    WrongWords,
)

ENDING = (signal.SIGINT, signal.SIGTERM)
MOST_NODES = 50_000_000
BUILT = Path(__file__).resolve().parents[2] / "crates" / "qyas" / "out" / "qyas"


def find(given: Optional[str] = None) -> str:
    """The program's path: the given one, else that of QYAS, else `qyas` on PATH, else the one that this checkout built."""
    for place, path in (("the argument", given), ("QYAS", os.environ.get("QYAS"))):
        if path:
            found = shutil.which(path)
            if found is None:
                raise NoProgram(f"{place} says {path}, which is no program that can be run")
            return found
    found = shutil.which("qyas")
    if found is None and os.access(BUILT, os.X_OK):
        found = str(BUILT)
    if found is None:
        raise NoProgram("qyas isn't found: build it by `rt run` in crates/qyas, or set QYAS to its path")
    return found


def solve_text(
    data: bytes, given: Optional[str] = None, clock: Optional[TextIO] = None, nodes: Optional[int] = None
) -> IO[bytes]:
    """Solves the problem of this text, within a budget of `nodes`: a file open at the beginning of the certificate."""
    program = find(given)
    with tempfile.TemporaryDirectory(prefix="qyas-") as folder:
        path = Path(folder) / "problem.qlp"
        path.write_bytes(data)
        return run([program, "solve", str(path), *budget(nodes)], clock)


def budget(nodes: Optional[int]) -> List[str]:
    """The words for a budget, where one is given."""
    if nodes is None:
        return []
    if not 1 <= nodes <= MOST_NODES:
        raise WrongWords(f"a budget has 1 to {MOST_NODES} entries, and not {nodes}")
    return ["--nodes", str(nodes)]


def run(words: List[str], clock: Optional[TextIO] = None) -> IO[bytes]:
    """Runs `qyas solve`: a file open at the beginning of the certificate, or the named error of its status."""
    output = tempfile.TemporaryFile(prefix="qyas-")
    try:
        status = watched(words, output, clock)
        output.seek(0)
        if status != 0:
            raise fault_of(status, output.read().decode("latin-1").strip())
        return output
    except BaseException:
        output.close()
        raise


def watched(words: List[str], output: IO[bytes], clock: Optional[TextIO]) -> int:
    """Runs the program to its end. Where this is interrupted, the program is ended first."""
    before = signal.pthread_sigmask(signal.SIG_BLOCK, ENDING)
    try:
        child = begun_with(words, output, before)
    except BaseException:
        signal.pthread_sigmask(signal.SIG_SETMASK, before)
        raise
    begun = time.monotonic()
    told = 0
    try:
        signal.pthread_sigmask(signal.SIG_SETMASK, before)  # an interrupt of the start is heeded here
        while True:
            try:
                return child.wait(timeout=1)
            except subprocess.TimeoutExpired:
                told = tell_seconds(clock, int(time.monotonic() - begun), told)
    except KeyboardInterrupt:
        raise Interrupted("interrupted; the program was ended") from None
    finally:
        end(child)
        if clock is not None and told > 0 and clock.isatty():
            clock.write("\n")


def begun_with(words: List[str], output: IO[bytes], heeded: Iterable[int]) -> "subprocess.Popen[bytes]":
    """The program begun, while interrupts are held back: one that came before the child is known would leave it running."""
    try:
        return subprocess.Popen(
            words,
            stdin=subprocess.DEVNULL,
            stdout=output,
            preexec_fn=lambda: signal.pthread_sigmask(signal.SIG_SETMASK, heeded),
        )
    except OSError as error:
        raise NoProgram(f"{words[0]} can't be run: {error.strerror}") from None


def tell_seconds(clock: Optional[TextIO], seconds: int, told: int) -> int:
    """Says how long it has taken: each second on a terminal, else whenever the time has doubled."""
    if clock is None or seconds <= told:
        return told
    if clock.isatty():
        clock.write(f"\rsolving: {seconds} s")
    elif seconds < 2 * told:
        return told
    else:
        clock.write(f"solving: {seconds} s\n")
    clock.flush()
    return seconds


def end(child: "subprocess.Popen[bytes]") -> None:
    """Ends a program that still runs."""
    if child.poll() is None:
        child.terminate()
        try:
            child.wait(timeout=5)
        except subprocess.TimeoutExpired:
            child.kill()
            child.wait()


def fault_of(status: int, line: str) -> Exception:
    """The named error of a status, with the line that the program printed."""
    words = line.split(" ", 3)
    if status == 5 and len(words) == 4 and words[0] == "text" and words[1].isdigit() and words[2].isdigit():
        return TextFault(int(words[1]), int(words[2]), words[3])
    if status == 3:
        return ReadFault("read problem")
    if status == 4:
        return OutputFault("the program couldn't write its output")
    if status == 6:
        return Limit(line)
    if status == 10:
        return Memory("memory: it ran out in the program")
    if status == 7:
        return NumberLeaves(f"leaves: the linear program of a leaf needs numbers beyond 128 bits {place_of(line)}".strip())
    if status == 8:
        return Spent(f"{line.split(chr(10), 1)[0]}: the search has made all its entries; give it more (--nodes, at most {MOST_NODES})")
    if status in (-2, -15):
        return Interrupted("the program was interrupted")
    if status == -9:
        return Memory("memory: the program was killed, as it is where memory runs out")
    return ProgramFault(f"the program ended with status {status}: {line[:2000]}", status)


def place_of(report: str) -> str:
    """Where the first of them is met, by the program's report: the prefix of the leaf, and the operation."""
    lines = [line for line in report.split("\n") if line.startswith(("prefix", "at "))]
    return f"({', '.join(line[:200] for line in lines)})" if lines else ""
