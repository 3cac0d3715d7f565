"""What the tests share: where things lie, and the examples with their solutions."""

from __future__ import annotations

import functools
import shutil
import sys
import tempfile
from fractions import Fraction
from itertools import product
from pathlib import Path
from typing import Dict, Iterator, List, Sequence

HERE = Path(__file__).resolve().parent
TOP = HERE.parents[1]
sys.path.insert(0, str(HERE.parent))

from qyas_companions import solution  # noqa: E402
from qyas_companions.model import Program  # noqa: E402
from qyas_companions.row import Row, summed  # noqa: E402

EXAMPLES = sorted((TOP / "examples").glob("*.qlp"))
PLAN = str(HERE.parent / "plan")
FILES = HERE / "files"


@functools.lru_cache(maxsize=None)
def solved(path: Path) -> solution.Solution:
    """An example with its solution, solved once."""
    return solution.solve(path.read_bytes())


@functools.lru_cache(maxsize=None)
def certificate_text(path: Path) -> bytes:
    from qyas_companions import program

    with program.solve_text(path.read_bytes()) as output:
        return output.read()


def example(name: str) -> Path:
    return TOP / "examples" / f"{name}.qlp"


def holds(row: Row, values: Dict[str, int]) -> bool:
    """Whether a row holds, by its own terms."""
    left = sum((c * values[name] for name, c in summed(row.terms).items()), Fraction(0))
    return {"<=": left <= row.right, ">=": left >= row.right, "=": left == row.right}[row.relation]


def objective(program: Program, values: Dict[str, int]) -> Fraction:
    """What the objective comes to, by its own terms."""
    return program.objective_constant + sum(c * values[name] for name, c in program.objective_terms)


def is_legal(program: Program, values: Dict[str, int]) -> bool:
    return all(holds(row, values) for row in program.uncertainty)


def universal_values(program: Program) -> Iterator[Dict[str, int]]:
    """All values of the universal variables, whether legal or not."""
    universal = [v for v in program.variables.values() if v.is_universal]
    for values in product(*(range(int(v.low), int(v.high) + 1) for v in universal)):
        yield dict(zip((v.name for v in universal), values))


def fake_program(folder: str, script: Sequence[str]) -> str:
    """A program that stands for `qyas`."""
    path = Path(folder) / "fake"
    path.write_text("\n".join(["#!/bin/sh", *script, ""]))
    path.chmod(0o755)
    return str(path)


def has(tool: str) -> bool:
    return shutil.which(tool) is not None


def room() -> "tempfile.TemporaryDirectory[str]":
    return tempfile.TemporaryDirectory(prefix="qyas-test-")


def lines(found: Iterator[str]) -> List[str]:
    return list(found)
