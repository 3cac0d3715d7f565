"""Named errors. Each has one line that a planner can read, and the status with which the command line ends."""

from __future__ import annotations


class Fault(Exception):
    """Anything that the companions refuse; its text is one line."""

    status = 1


class WrongWords(Fault):
    """The words of the command line are none of its forms."""

    status = 2


class FloatGiven(Fault):
    """A float where only exact numbers may stand."""


class NotANumber(Fault):
    """Something else than an exact number."""


class NumberRange(Fault):
    """A number that the format can't write: no finite decimal, too many digits, or too large or small."""


class WrongName(Fault):
    """A name that the format couldn't read."""


class Duplicate(Fault):
    """A name that is taken already."""


class Foreign(Fault):
    """A variable of another program."""


class WrongRow(Fault):
    """A row that the format can't say."""


class WrongVariable(Fault):
    """A variable that the format can't say: without an upper bound, or continuous where it may not be."""


class FileFault(Fault):
    """A file that is missing, or can't be read or written."""


class ReadFault(FileFault):
    """The program couldn't open or read the problem."""

    status = 3


class NoProgram(Fault):
    """The program `qyas` wasn't found."""


class ProgramFault(Fault):
    """The program ended otherwise than it says it does, with this status."""

    def __init__(self, words: str, status: int = 1) -> None:
        super().__init__(words)
        self.status = status if status > 0 else 1


class OutputFault(Fault):
    """The program couldn't write its output."""

    status = 4


class TextFault(Fault):
    """The program refused the problem's text: `text LINE COLUMN WORDS`."""

    status = 5

    def __init__(self, line: int, column: int, words: str) -> None:
        super().__init__(f"text {line} {column} {words}")
        self.line = line
        self.column = column
        self.words = words


class Limit(Fault):
    """The problem is beyond a limit of the program: its line."""

    status = 6


class Memory(Fault):
    """Memory ran out in the program."""

    status = 10


class Spent(Fault):
    """The program's budget is spent: how many entries that is."""

    status = 8


class NumberLeaves(Fault):
    """A number leaves 128 bits in the linear program of a leaf: where it does."""

    status = 7


class Interrupted(Fault):
    """The work was interrupted, and the program that was started has been ended."""

    status = 130


class WrongCertificate(Fault):
    """A text that is no certificate, or not one of this problem."""

    def __init__(self, line: int, words: str) -> None:
        super().__init__(f"certificate, line {line}: {words}")
        self.line = line
        self.words = words


class NoPolicy(Fault):
    """The game has no policy: it is infeasible or empty."""


class Unfinished(Fault):
    """The moves end before the play does."""


class LeftOver(Fault):
    """Moves are left when the play has ended."""


class NoGraphviz(Fault):
    """Graphviz's `dot` isn't installed, or failed."""


class Unconvertible(Fault):
    """What the format can't say, or a file says unclearly, at a line of that file."""

    def __init__(self, line: int, words: str, file: str = "") -> None:
        super().__init__(f"{file + ', ' if file else ''}line {line}: {words}")
        self.line = line
        self.words = words
        self.file = file


class TooMany(Fault):
    """More legal plays, or more prefixes, than a limit."""


class Nothing(Fault):
    """There is nothing to write."""
