"""The command line `plan`."""

from __future__ import annotations

import argparse
import os
import signal
import sys
from pathlib import Path
from typing import Callable, Dict, Iterable, List, NamedTuple, Optional

from . import convert, draw, equivalent, follow, solution, text
from .convert import read_file
from .explain import UNCHECKED
from .faults import Fault, FileFault
from .game import Game
from .model import Program
from .program import MOST_NODES

Words = argparse.Namespace
INTERRUPTED = 130


def tell(line: str) -> None:
    """One line on standard output, at once."""
    sys.stdout.write(line.encode("ascii", "backslashreplace").decode() + "\n")
    sys.stdout.flush()


def warn(line: str) -> None:
    sys.stderr.write(line.encode("ascii", "backslashreplace").decode() + "\n")


def tell_all(lines: Iterable[str]) -> None:
    for line in lines:
        tell(line)


def write_text(path: Optional[str], made: str) -> None:
    """Writes a text to a file, or to standard output."""
    data = made.encode("latin-1")
    if path is None:
        sys.stdout.buffer.write(data)
        sys.stdout.buffer.flush()
        return
    try:
        Path(path).write_bytes(data)
    except OSError as error:
        raise FileFault(f"{path} can't be written: {error.strerror}") from None


def solved(words: Words, save: Optional[str] = None, nodes: Optional[int] = None) -> solution.Solution:
    """The problem with the given certificate, or solved anew where none is given."""
    data = read_file(words.file)
    if getattr(words, "cert", None) is not None:
        return solution.given(data, words.cert)
    return solution.solve(data, clock=sys.stderr, save=save, nodes=nodes)


def run_solve(words: Words) -> None:
    tell_all(solved(words, words.save, words.nodes).explain())


def run_explain(words: Words) -> None:
    tell_all(solved(words).explain(words.refutation))


def run_draw(words: Words) -> None:
    draw.check(words.output, words.depth, words.nodes)
    draw.write(words.output, solved(words).dot(words.depth, words.nodes, words.refutation))


def run_follow(words: Words) -> None:
    found = solved(words)
    if found.is_given:
        warn(UNCHECKED)
    moves: Iterable[str] = words.moves or (line.rstrip("\r\n") for line in sys.stdin)
    tell_all(follow.follow(found.game, found.certificate, moves, not words.moves))


def run_convert(words: Words) -> None:
    made = convert.convert(words.file, words.quantifiers, words.format, words.sense)
    for warning in made.warnings:
        warn(f"warning: {warning}")
    write_text(words.output, made.program.text())


def run_equivalent(words: Words) -> None:
    program: Program = text.read(read_file(words.file))
    write_text(words.output, equivalent.equivalent(Game(program), words.plays))


class Command(NamedTuple):
    """A command: what it does in a line, an example, its options and its work."""

    line: str
    example: str
    options: Callable[[argparse.ArgumentParser], None]
    work: Callable[[Words], None]


def add_problem(parser: argparse.ArgumentParser, has_certificate: bool = True) -> None:
    parser.add_argument("file", metavar="FILE", help="a problem in the format of docs/FORMAT.md")
    if has_certificate:
        parser.add_argument("--cert", metavar="CERT", help="a certificate of it, which is read and not checked")


def solve_options(parser: argparse.ArgumentParser) -> None:
    add_problem(parser, False)
    nodes = f"let the search make so many entries at most, up to {MOST_NODES} (without this 1000000)"
    parser.add_argument("--nodes", metavar="N", type=int, help=nodes)
    parser.add_argument("--save", metavar="CERT", help="keep the certificate in this file")


def refutation_option(parser: argparse.ArgumentParser) -> None:
    parser.add_argument("--refutation", action="store_true", help="why nothing better can be reached, in place of the policy")


def explain_options(parser: argparse.ArgumentParser) -> None:
    add_problem(parser)
    refutation_option(parser)


def draw_options(parser: argparse.ArgumentParser) -> None:
    add_problem(parser)
    parser.add_argument("-o", dest="output", metavar="OUT", required=True, help="a file that ends with .dot, .svg or .png")
    parser.add_argument("--depth", metavar="D", type=int, help="draw so many levels at most")
    nodes = f"draw so many nodes at most (without this {draw.MOST_NODES})"
    parser.add_argument("--nodes", metavar="N", type=int, default=draw.MOST_NODES, help=nodes)
    refutation_option(parser)


def follow_options(parser: argparse.ArgumentParser) -> None:
    add_problem(parser)
    words = "VALUE or NAME=VALUE, as it is asked for; without any they come from standard input"
    parser.add_argument("moves", metavar="MOVE", nargs="*", help=words)


def convert_options(parser: argparse.ArgumentParser) -> None:
    parser.add_argument("file", metavar="IN", help="an LP or MPS file")
    parser.add_argument("-q", dest="quantifiers", metavar="QUANT", help="a quantifier file (docs/COMPANIONS.md)")
    parser.add_argument("-o", dest="output", metavar="OUT", help="the text's file, in place of standard output")
    parser.add_argument("--format", choices=convert.FORMATS, help="the kind of file; without this the end of its name says it")
    sense = parser.add_mutually_exclusive_group()
    sense.add_argument("--max", dest="sense", action="store_const", const="maximize", help="maximise, whatever the file says")
    sense.add_argument("--min", dest="sense", action="store_const", const="minimize", help="minimise, whatever the file says")


def equivalent_options(parser: argparse.ArgumentParser) -> None:
    add_problem(parser, False)
    parser.add_argument("-o", dest="output", metavar="OUT.lp", help="the LP file, in place of standard output")
    plays = f"refuse problems with more legal plays (without this {equivalent.MOST_PLAYS})"
    parser.add_argument("--plays", metavar="N", type=int, default=equivalent.MOST_PLAYS, help=plays)


COMMANDS: Dict[str, Command] = {
    "solve": Command(
        "solves a problem and explains its policy",
        "plan solve examples/crew-after.qlp --save crew.cert",
        solve_options,
        run_solve,
    ),
    "explain": Command(
        "tells a policy or a refutation in words",
        "plan explain examples/crew-after.qlp --refutation",
        explain_options,
        run_explain,
    ),
    "draw": Command(
        "draws a policy or a refutation", "plan draw examples/surge.qlp -o surge.svg --depth 4", draw_options, run_draw
    ),
    "follow": Command(
        "plays against a policy, move by move", "plan follow examples/crew-after.qlp failA=1", follow_options, run_follow
    ),
    "convert": Command(
        "makes a problem of an LP or MPS file", "plan convert model.lp -q model.quant -o model.qlp", convert_options, run_convert
    ),
    "equivalent": Command(
        "writes a small problem as an LP file for other solvers",
        "plan equivalent examples/surge.qlp -o surge.lp",
        equivalent_options,
        run_equivalent,
    ),
}


def overview() -> str:
    """What `plan --help` prints."""
    lines = [f"  {name:<11} {command.line}" for name, command in COMMANDS.items()]
    return "\n".join(["usage: plan COMMAND ..  (plan COMMAND --help says more)", "", *lines])


def parser_of(name: str) -> argparse.ArgumentParser:
    """The parser of a command's words."""
    command = COMMANDS[name]
    parser = argparse.ArgumentParser(
        prog=f"plan {name}",
        description=f"{command.line[0].upper()}{command.line[1:]}.",
        epilog=f"example: {command.example}",
        allow_abbrev=False,
    )
    command.options(parser)
    return parser


def stop(_signal: int, _frame: object) -> None:
    """A signal that ends the program ends the one that it started, too."""
    raise KeyboardInterrupt


def main(words: Optional[List[str]] = None) -> int:
    """Runs the command line: the exit status."""
    given = sys.argv[1:] if words is None else words
    if given and given[0] in ("--help", "-h"):
        print(overview())
        return 0
    if not given or given[0] not in COMMANDS:
        print(overview(), file=sys.stderr)
        return 2
    try:
        read = parser_of(given[0]).parse_intermixed_args(given[1:])
    except SystemExit as end:
        return int(end.code or 0)
    return work(COMMANDS[given[0]], read)


def work(command: Command, words: Words) -> int:
    """Does a command's work: 0, or the status of its named error, whose line this tells."""
    signal.signal(signal.SIGTERM, stop)
    try:
        command.work(words)
        return 0
    except Fault as fault:
        warn(str(fault))
        return fault.status
    except KeyboardInterrupt:
        warn("interrupted")
        return INTERRUPTED
    except MemoryError:
        warn("memory: it ran out in the companions")
        return 1
    except BrokenPipeError:
        os.dup2(os.open(os.devnull, os.O_WRONLY), sys.stdout.fileno())
        return 1
