"""Reads MPS files: free, with or without set names, and by the columns of fixed MPS."""

from __future__ import annotations

from fractions import Fraction
from typing import Callable, Dict, List, Optional, Tuple

from .faults import Unconvertible
from .linear import LinearProgram, LinearRow, bound_number, not_expected, number

Fields = List[str]
REFUSED = {
    "SOS": "SOS sets",
    "SOS1": "SOS sets",
    "SOS2": "SOS sets",
    "SETS": "SOS sets",
    "QUADOBJ": "quadratic terms",
    "QMATRIX": "quadratic terms",
    "QSECTION": "quadratic terms",
    "QCMATRIX": "quadratic terms",
    "CSECTION": "quadratic terms",
    "INDICATORS": "indicator constraints",
    "LAZYCONS": "lazy constraints",
    "USERCUTS": "user cuts",
    "GENCONS": "general constraints",
    "PWLOBJ": "piecewise linear objectives",
}
SENSES = {"MAX": True, "MAXIMIZE": True, "MAXIMISE": True, "MIN": False, "MINIMIZE": False, "MINIMISE": False}
RELATIONS = {"L": "<=", "G": ">=", "E": "="}
COLUMNS_OF_FIELDS = ((1, 3), (4, 12), (14, 22), (24, 36), (39, 47), (49, 61))
BOUNDS_WITH_VALUES = ("UP", "LO", "FX", "LI", "UI")
BOUNDS_WITHOUT = ("FR", "MI", "PL", "BV")


class Reader:
    """Reads the sections of a file. A line of data is six fields, some of them empty, however it is laid out."""

    def __init__(self, text: str, kind: str, split: "Callable[[Reader, str], Fields]") -> None:
        self.text = text
        self.split = split
        self.linear = LinearProgram(kind)
        self.section = ""
        self.line = 0
        self.rows: Dict[str, LinearRow] = {}
        self.kinds: Dict[str, str] = {}
        self.objective: Optional[str] = None
        self.is_whole = False
        self.sets: Dict[str, str] = {}
        self.right: Dict[str, Fraction] = {}
        self.ranges: Dict[str, Fraction] = {}

    def fault(self, words: str) -> Unconvertible:
        return Unconvertible(self.line, words)

    def read(self) -> LinearProgram:
        for self.line, line in enumerate(self.text.split("\n"), 1):
            line = line.rstrip("\r")
            if line.startswith("*") or not line.strip():
                continue
            is_sense = self.section == "OBJSENSE" and line.split()[0].upper() in SENSES
            if line[0] not in " \t" and not is_sense:
                self.begin(line.split())
                if self.section == "ENDATA":
                    return self.finished()
            elif self.section == "OBJSENSE":
                self.sense(line.split()[0])
            else:
                self.data(self.split(self, line))
        raise self.fault("the file has no ENDATA")

    def begin(self, words: List[str]) -> None:
        """Begins a section."""
        self.section = words[0].upper()
        if self.section in REFUSED:
            self.section = "refused " + REFUSED[self.section]
        elif self.section == "OBJSENSE" and len(words) > 1:
            self.sense(words[1])
        elif self.section not in ("NAME", "OBJSENSE", "ROWS", "COLUMNS", "RHS", "RANGES", "BOUNDS", "ENDATA"):
            raise self.fault(f"the section {words[0]} isn't known")

    def sense(self, word: str) -> None:
        if word.upper() not in SENSES:
            raise self.fault(f"the sense {word} is neither MAX nor MIN")
        self.linear.is_maximized = SENSES[word.upper()]
        self.linear.is_sense_said = True

    def data(self, fields: Fields) -> None:
        if self.section.startswith("refused "):
            word = next((field for field in fields if field), "")
            raise self.fault(f"{self.section[8:]}, which the format can't say: {word}")
        reader = {
            "ROWS": self.row,
            "COLUMNS": self.column,
            "RHS": self.right_side,
            "RANGES": self.range,
            "BOUNDS": self.bound,
        }.get(self.section)
        if reader is None:
            raise self.fault("a line of data outside a section")
        reader(fields)

    def row(self, fields: Fields) -> None:
        kind, name = fields[0].upper(), fields[1]
        if kind not in ("N", "L", "G", "E") or not name or any(fields[2:]):
            raise self.fault("a row is N, L, G or E and a name")
        if name in self.kinds:
            raise self.fault(f"a second row {name}")
        self.kinds[name] = kind
        if kind != "N":
            row = LinearRow(name, len(self.linear.rows) + 1, self.line)
            self.rows[name] = row
            self.linear.rows.append(row)
        elif self.objective is None:
            self.objective = self.linear.objective_name = name
        else:
            self.linear.free_rows[name] = self.line

    def pairs(self, fields: Fields) -> List[Tuple[str, Fraction]]:
        """The one or two rows of a line with their numbers."""
        found: List[Tuple[str, Fraction]] = []
        for name, word in ((fields[2], fields[3]), (fields[4], fields[5])):
            if found and not name and not word:
                break
            if name not in self.kinds:
                raise self.fault(f"the row {name!r} isn't known" if name else "a row is due")
            found.append((name, number(word, self.line)))
        return found

    def column(self, fields: Fields) -> None:
        if fields[2] == "'MARKER'":
            marks = [field for field in fields[3:] if field]
            if marks not in (["'INTORG'"], ["'INTEND'"]):
                raise self.fault("a MARKER is 'INTORG' or 'INTEND'")
            self.is_whole = marks == ["'INTORG'"]
            return
        if not fields[1] or fields[0]:
            raise self.fault("a column is due")
        column = self.linear.column(fields[1], self.line)
        column.is_whole = column.is_whole or self.is_whole
        for name, value in self.pairs(fields):
            if name == self.objective:
                self.linear.objective.append((column.name, value))
            elif name in self.rows:
                self.rows[name].terms.append((column.name, value))

    def one_set(self, name: str) -> None:
        """Of each section the sets have one name."""
        if self.sets.setdefault(self.section, name) != name:
            raise self.fault(f"a second set, {name or 'without a name'}, in {self.section}")

    def right_side(self, fields: Fields) -> None:
        self.one_set(fields[1])
        self.keep(self.right, fields)

    def range(self, fields: Fields) -> None:
        self.one_set(fields[1])
        for name in self.keep(self.ranges, fields):
            if name not in self.rows:
                raise self.fault(f"a range of the free row {name}")

    def keep(self, into: Dict[str, Fraction], fields: Fields) -> List[str]:
        names: List[str] = []
        for name, value in self.pairs(fields):
            if name in into:
                raise self.fault(f"a second number for the row {name} in {self.section}")
            into[name] = value
            names.append(name)
        return names

    def bound(self, fields: Fields) -> None:
        kind, name, word = fields[0].upper(), fields[2], fields[3]
        self.one_set(fields[1])
        if name not in self.linear.columns:
            raise self.fault(f"the column {name!r} isn't known" if name else "a column is due")
        if kind == "SC":
            raise self.fault(f"semi-continuous variables, which the format can't say: {name}")
        if kind not in BOUNDS_WITH_VALUES + BOUNDS_WITHOUT or any(fields[4:]):
            raise self.fault(f"a bound of the kind {fields[0]} isn't known")
        column = self.linear.columns[name]
        column.is_whole = column.is_whole or kind in ("LI", "UI", "BV")
        if kind in BOUNDS_WITH_VALUES:
            relation = {"UP": "<=", "UI": "<=", "LO": ">=", "LI": ">=", "FX": "="}[kind]
            column.bound(relation, *bound_number(word, self.line), self.line)
        if kind in ("FR", "MI"):
            column.bound(">=", None, -1, self.line)
        if kind in ("FR", "PL"):
            column.bound("<=", None, 1, self.line)
        if kind == "BV":
            column.bound(">=", Fraction(0), 1, self.line)
            column.bound("<=", Fraction(1), 1, self.line)

    def finished(self) -> LinearProgram:
        """Gives the rows their ends, once all sections are read."""
        for name, row in self.rows.items():
            right = self.right.get(name, Fraction(0))
            row.relate(RELATIONS[self.kinds[name]], right)
            span = self.ranges.get(name)
            if span is None:
                continue
            if self.kinds[name] == "G" or (self.kinds[name] == "E" and span >= 0):
                row.high = right + abs(span)
            if self.kinds[name] == "L" or (self.kinds[name] == "E" and span < 0):
                row.low = right - abs(span)
        if self.objective is not None:
            self.linear.constant = -self.right.get(self.objective, Fraction(0))
        return self.linear


def without_comment(words: List[str], first: int) -> List[str]:
    """The words before the first one that begins with `$`, from a place on."""
    for at in range(first, len(words)):
        if words[at].startswith("$"):
            return words[:at]
    return words


def split_free(reader: Reader, line: str) -> Fields:
    """The fields of a line of free MPS, where words stand between blanks."""
    section = reader.section
    words = without_comment(line.split(), 2 if section in ("ROWS", "BOUNDS") else 1)
    if section == "ROWS":
        due, fields = (2,), words
    elif section == "COLUMNS":
        due, fields = (3, 5), ["", *words]
    elif section == "BOUNDS":
        due, fields = (2, 3, 4), free_bound(reader, words)
    elif section in ("RHS", "RANGES"):
        due, fields = (2, 3, 4, 5), ["", *([] if len(words) % 2 else [""]), *words]
    else:
        return words
    if len(words) not in due:
        raise reader.fault(f"{len(words)} words on a line of {section}")
    return (fields + [""] * 6)[:6]


def free_bound(reader: Reader, words: List[str]) -> Fields:
    """The fields of a bound: whether a set's name stands there is seen by the number of words, or by the columns' names."""
    has_value = words[0].upper() in BOUNDS_WITH_VALUES + ("SC",)
    if has_value and len(words) == 3:
        return [words[0], "", *words[1:]]
    if not has_value and (len(words) == 2 or (len(words) == 3 and words[2] not in reader.linear.columns)):
        return [words[0], "", *words[1:]]
    return words


def split_fixed(reader: Reader, line: str) -> Fields:
    """The fields of a line of fixed MPS, by its columns."""
    if "\t" in line:
        raise reader.fault("a tab, where fields stand by columns")
    fields = [line[begin:end].strip() for begin, end in COLUMNS_OF_FIELDS]
    for at in (2, 4):
        if fields[at].startswith("$"):
            return fields[:at] + [""] * (6 - at)
    edges = [0] + [end for _, end in COLUMNS_OF_FIELDS]
    begins = [begin for begin, _ in COLUMNS_OF_FIELDS] + [len(line)]
    for begin, end in zip(edges, begins):
        if line[begin:end].strip():
            raise reader.fault(not_expected(line[begin:end].strip(), "a field in its columns", reader.line).words)
    return fields


def read(text: str, is_fixed: bool) -> LinearProgram:
    """The linear program that an MPS file states. Where it can't be read as free MPS it is read by its columns."""
    if is_fixed:
        return Reader(text, "fixed MPS, by its columns", split_fixed).read()
    try:
        return Reader(text, "free MPS", split_free).read()
    except Unconvertible as fault:
        try:
            return Reader(text, "fixed MPS, by its columns, as it is no free MPS", split_fixed).read()
        except Unconvertible:
            raise fault from None
