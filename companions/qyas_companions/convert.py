"""Makes a program of an LP or MPS file and a quantifier file, exactly; what the format can't say is refused."""

from __future__ import annotations

from fractions import Fraction
from pathlib import Path
from typing import List, NamedTuple, Optional, Set, Tuple

from . import lp_file, mps_file, quantifiers
from .faults import Fault, FileFault, Unconvertible, WrongWords
from .linear import Column, LinearProgram, LinearRow
from .model import Kind, Program, Variable
from .names import free_name, renamed
from .quantifiers import FILE, Quantifiers
from .row import Row, summed

FORMATS = ("lp", "mps", "fixed-mps")


class Converted(NamedTuple):
    """A program, and warnings that a planner should read."""

    program: Program
    warnings: List[str]


def read_file(path: str) -> bytes:
    """The bytes of a file."""
    try:
        return Path(path).read_bytes()
    except OSError as error:
        raise FileFault(f"{path} can't be read: {error.strerror}") from None


def read_linear(path: str, kind: Optional[str]) -> LinearProgram:
    """The linear program of a file, by its kind, else by the end of its name."""
    if kind is not None and kind not in FORMATS:
        raise WrongWords(f"the format {kind!r} is none of {', '.join(FORMATS)}")
    text = read_file(path).decode("latin-1")
    try:
        if kind == "lp" or (kind is None and path.lower().endswith(".lp")):
            return lp_file.read(text)
        return mps_file.read(text, kind == "fixed-mps")
    except Unconvertible as fault:
        raise Unconvertible(fault.line, fault.words, Path(path).name) from None


def convert(
    path: str, quantifier_path: Optional[str] = None, kind: Optional[str] = None, sense: Optional[str] = None
) -> Converted:
    """The program of a file. `sense`, "maximize" or "minimize", replaces the file's own."""
    linear = read_linear(path, kind)
    said = Quantifiers()
    if quantifier_path is not None:
        said = quantifiers.read(read_file(quantifier_path).decode("latin-1"))
    return Conversion(linear, said, Path(path).name).make(sense)


class Conversion:
    """Puts a linear program and quantifiers together."""

    def __init__(self, linear: LinearProgram, said: Quantifiers, file: str) -> None:
        self.linear = linear
        self.said = said
        self.file = file
        self.names = renamed(linear.columns)
        self.labels = renamed(row.name for row in linear.rows if row.name is not None)
        self.taken = set(self.labels.values())
        self.warnings: List[str] = []

    def fault(self, line: int, words: str) -> Unconvertible:
        return Unconvertible(line, words, self.file)

    def make(self, sense: Optional[str]) -> Converted:
        self.known_names()
        own = "maximize" if self.linear.is_maximized else "minimize"
        program = Program(sense or own)
        for name in self.order():
            variable = self.variable(program, self.linear.columns[name])
            program.variables[variable.name] = variable
        uncertain = self.uncertain_rows()
        for number, row in enumerate(self.linear.rows):
            rows = program.uncertainty if number in uncertain else program.rows
            rows.extend(self.rows_of(row, number in uncertain))
        self.place_objective(program)
        program.comments = self.comments(sense, own)
        return Converted(program, self.warnings)

    def known_names(self) -> None:
        """Each name of the quantifier file is one of the file's."""
        for names in (self.said.order, self.said.universal):
            for name, line in names.items():
                if name not in self.linear.columns:
                    raise Unconvertible(line, f"the variable {name} isn't known", FILE)
        for name, (_, _, line) in self.said.bounds.items():
            if name not in self.linear.columns:
                raise Unconvertible(line, f"the variable {name} isn't known", FILE)
            if self.linear.columns[name].is_binary:
                raise Unconvertible(line, f"bounds of {name}, which stands in Binary", FILE)

    def order(self) -> List[str]:
        """The variables in the order of play, after the rules on continuous ones."""
        order = [*self.said.order, *(name for name in self.linear.columns if name not in self.said.order)]
        continuous: Optional[str] = None
        for name in order:
            column = self.linear.columns[name]
            line = self.said.universal.get(name)
            if not (column.is_whole or column.is_binary):
                continuous = name if continuous is None else continuous
                if line is not None:
                    raise Unconvertible(line, f"{name} is universal and continuous", FILE)
            elif line is not None and continuous is not None:
                raise Unconvertible(line, f"the continuous {continuous} stands before the universal {name}", FILE)
        return order

    def variable(self, program: Program, column: Column) -> Variable:
        low, high = self.ends(column)
        kind = Kind.CONTINUOUS
        if column.is_binary or (column.is_whole and (low, high) == (0, 1)):
            kind = Kind.BINARY
        elif column.is_whole:
            kind = Kind.WHOLE
        return Variable(program, self.names[column.name], kind, low, high, column.name in self.said.universal)

    def ends(self, column: Column) -> Tuple[Fraction, Fraction]:
        """The bounds of a variable: those of the quantifier file, else those of the file."""
        name, low, high = column.name, column.low, column.high
        if name in self.said.bounds:
            return self.said.bounds[name][:2]
        if column.is_binary:
            return self.binary_ends(column)
        for bound in (low, high):
            if bound.wrong:
                raise self.fault(bound.line, f"{name}: {bound.wrong}")
        if high.value is None:
            raise self.fault(high.line or column.line, f"{name} has no upper bound (the quantifier file's `bounds` can give one)")
        if low.value is None:
            raise self.fault(low.line, f"{name} has no lower bound (the quantifier file's `bounds` can give one)")
        if high.value < 0 and not low.is_given:
            raise self.fault(high.line, f"{name} has an upper bound below 0 and no lower one")
        return low.value, high.value

    def binary_ends(self, column: Column) -> Tuple[Fraction, Fraction]:
        for bound in (column.low, column.high):
            if bound.is_given and bound.value not in (0, 1):
                raise self.fault(bound.line, f"{column.name} stands in Binary, and has a bound that is neither 0 nor 1")
        low, high = column.low.value, column.high.value
        return (low if low is not None else Fraction(0)), (high if high is not None else Fraction(1))

    def uncertain_rows(self) -> Set[int]:
        """The places of the rows that bind the universal player. A name counts before the number of a row without one."""
        places = {row.called(): place for place, row in enumerate(self.linear.rows) if row.name is None}
        places.update((row.name, place) for place, row in enumerate(self.linear.rows) if row.name is not None)
        for name, line in self.said.uncertain.items():
            if name in self.linear.free_rows:
                raise Unconvertible(line, f"the free row {name} can't be uncertain", FILE)
            if name not in places:
                raise Unconvertible(line, f"the row {name} isn't known", FILE)
        return {places[name] for name in self.said.uncertain}

    def rows_of(self, row: LinearRow, is_uncertain: bool) -> List[Row]:
        """The one or two rows of the format that a row becomes."""
        terms = self.row_terms(row, is_uncertain)
        label = self.labels[row.name] if row.name is not None else None
        if row.low is not None and row.low == row.high:
            return [self.written(Row(label, terms, "=", row.low), row)]
        found: List[Row] = []
        for relation, end in ((">=", row.low), ("<=", row.high)):
            if end is not None:
                found.append(self.written(Row(self.label(label, bool(found)), terms, relation, end), row))
        return found

    def label(self, label: Optional[str], is_second: bool) -> Optional[str]:
        """A row's label; the second row of a range has a number behind it."""
        if label is None or not is_second:
            return label
        second = free_name(label, self.taken)
        self.taken.add(second)
        return second

    def row_terms(self, row: LinearRow, is_uncertain: bool) -> List[Tuple[str, Fraction]]:
        """The terms of a row. One without terms gets a variable times 0, as the format asks for one."""
        universal = self.said.universal
        existential = next((name for name, _ in row.terms if name not in universal), None)
        if is_uncertain and existential is not None:
            line = self.said.uncertain[row.called()]
            raise Unconvertible(line, f"the existential {existential} stands in the uncertain row {row.called()}", FILE)
        if row.terms and existential is None and not is_uncertain:
            self.warnings.append(
                f"row {row.called()} has universal variables alone and isn't uncertain: "
                "the universal player may break it and win"
            )
        if not row.terms:
            some = next((name for name in self.linear.columns if name in universal or not is_uncertain), None)
            if some is None:
                raise self.fault(row.line, f"row {row.called()} has no terms, and there is no variable for one")
            return [(self.names[some], Fraction(0))]
        return [(self.names[name], value) for name, value in summed(row.terms).items()]

    def written(self, made: Row, row: LinearRow) -> Row:
        """The row, once it is sure that the format can write its numbers."""
        try:
            made.text()
        except Fault as fault:
            raise self.fault(row.line, f"row {row.called()}: {fault}") from None
        return made

    def place_objective(self, program: Program) -> None:
        name = self.linear.objective_name
        program.objective_name = renamed([name])[name] if name else None
        program.objective_terms = [(self.names[n], value) for n, value in summed(self.linear.objective).items()]
        program.objective_constant = self.linear.constant

    def comments(self, sense: Optional[str], own: str) -> List[str]:
        """What the head of the text says about the conversion."""
        if sense is not None:
            how = f"{sense}, as asked for" + ("" if sense == own else f"; the file says {own}")
        elif self.linear.is_sense_said:
            how = f"{own}, as the file says"
        else:
            how = f"{own}, as the file says none"
        found = [f"Converted from {self.file}, read as {self.linear.kind}.", f"Sense: {how}."]
        found += [f"The free row {name} (line {line}) is left out." for name, line in self.linear.free_rows.items()]
        for what, table in (("variable", self.names), ("row", self.labels)):
            found += [f"The {what} {new} was {old}" for old, new in table.items() if old != new]
        return found
