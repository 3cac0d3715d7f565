"""Reads LP files, as CPLEX writes them."""

from __future__ import annotations

import re
from fractions import Fraction
from typing import Dict, List, NamedTuple, Optional, Set, Tuple

from .faults import Unconvertible
from .linear import INFINITE_WORD, LinearProgram, LinearRow, bound_number, not_expected, number

HEADINGS = (
    ("max", r"maximi[sz]e|maximum|max"),
    ("min", r"minimi[sz]e|minimum|min"),
    ("rows", r"subject\s+to|such\s+that|s\.t\.|st\.|st"),
    ("lazy constraints", r"lazy\s+constraints"),
    ("user cuts", r"user\s+cuts"),
    ("general constraints", r"general\s+constraints?|gencons"),
    ("bounds", r"bounds?"),
    ("generals", r"generals?|gen|integers?|int"),
    ("binaries", r"binar(?:y|ies)|bin"),
    ("semi-continuous variables", r"semi-continuous|semis|semi"),
    ("SOS sets", r"sos[12]?"),
    ("indicators", r"indicators?"),
    ("piecewise linear objectives", r"pwlobj"),
    ("several objectives", r"multi-objectives?"),
    ("end", r"end"),
)
REFUSED = {
    "lazy constraints",
    "user cuts",
    "general constraints",
    "semi-continuous variables",
    "SOS sets",
    "indicators",
    "piecewise linear objectives",
    "several objectives",
}
HEADING = re.compile(
    r"[ \t]*(?:" + "|".join(f"(?P<h{at}>{words})" for at, (_, words) in enumerate(HEADINGS)) + r")(?=\s|$)(?!\s*:)",
    re.IGNORECASE,
)
NAME_BEGIN = r"A-Za-z!\"#$%&()/,;?@_`'{}|~\x80-\xff"
TOKEN = re.compile(
    r"\s+|(?P<number>(?:[0-9]+(?:\.[0-9]*)?|\.[0-9]+)(?:[eE][+-]?[0-9]+)?)"
    rf"|(?P<name>[{NAME_BEGIN}][{NAME_BEGIN}0-9.\[\]]*)"
    r"|(?P<arrow>->|<->|<-)|(?P<relation><=|=<|>=|=>|<|>|=)|(?P<sign>[+-])|(?P<colon>:)|(?P<square>[\[\]^*])"
)
RELATIONS = {"<": "<=", "<=": "<=", "=<": "<=", ">": ">=", ">=": ">=", "=>": ">=", "=": "="}
TURNED = {"<=": ">=", ">=": "<=", "=": "="}


class Token(NamedTuple):
    kind: str
    text: str
    line: int


END = Token("end", "", 0)


def line_tokens(text: str, line: int) -> List[Token]:
    """The tokens of a line, or of what stands behind its heading."""
    tokens: List[Token] = []
    at = 0
    while at < len(text):
        found = TOKEN.match(text, at)
        if found is None:
            raise Unconvertible(line, f"{text[at]!r} can't stand in an LP file")
        if found.lastgroup is not None:
            tokens.append(Token(found.lastgroup, found[0], line))
        at = found.end()
    return tokens


def heading_of(line: str) -> Tuple[str, str]:
    """The word of a heading at the beginning of a line, and what stands behind it; no word where there is none."""
    found = HEADING.match(line)
    if found is None:
        return "", line
    at = int(str(found.lastgroup)[1:])
    return HEADINGS[at][0], line[found.end() :]


def is_name(heading: str, rest: str) -> bool:
    """Whether the word of a heading behind the rows' one is a variable's name, by what follows it."""
    return rest.lstrip()[:1] in ("<", ">", "=") or (heading != "bounds" and rest.lstrip()[:1] in ("+", "-"))


class Sections:
    """The tokens of each section, and where each begins."""

    def __init__(self, text: str) -> None:
        self.tokens: Dict[str, List[Token]] = {}
        self.sense = ""
        self.last_line = 0
        now = ""
        for number_of_line, line in enumerate(text.split("\n"), 1):
            self.last_line = number_of_line
            line = line.split("\\", 1)[0]
            heading, rest = heading_of(line)
            if heading and self.begins(heading, rest, number_of_line):
                if heading == "end":
                    return
                now = "objective" if heading in ("max", "min") else heading
                self.tokens.setdefault(now, [])
                line = rest
            tokens = line_tokens(line, number_of_line)
            if tokens and not now:
                raise Unconvertible(number_of_line, "Maximize or Minimize is due")
            if tokens and now in REFUSED:
                raise Unconvertible(number_of_line, f"{now}, which the format can't say: {tokens[0].text}")
            self.tokens.setdefault(now, []).extend(tokens)
        raise Unconvertible(self.last_line, "the file has no End")

    def begins(self, heading: str, rest: str, line: int) -> bool:
        """Whether a heading begins a section here: the objective comes first, then the rows, then all others."""
        if heading in ("max", "min"):
            is_first = not self.sense
            self.sense = self.sense or heading
            return is_first
        if not self.sense:
            raise Unconvertible(line, "Maximize or Minimize is due")
        if heading == "rows":
            return "rows" not in self.tokens
        if heading == "end" and "rows" not in self.tokens and not rest.strip():
            raise Unconvertible(line, "Subject To is due")
        return "rows" in self.tokens and not is_name(heading, rest)


class Cursor:
    """Goes through the tokens of a section. `what` names the part that is read, for faults."""

    def __init__(self, tokens: List[Token]) -> None:
        self.tokens = tokens
        self.at = 0
        self.what = ""
        self.line = tokens[0].line if tokens else 0

    def now(self, ahead: int = 0) -> Token:
        place = self.at + ahead
        return self.tokens[place] if place < len(self.tokens) else END

    def kind(self, ahead: int = 0) -> str:
        return self.now(ahead).kind

    def take(self, kind: str, due: str) -> Token:
        token = self.now()
        if token.kind != kind:
            raise self.fault(due)
        self.at += 1
        self.line = token.line
        return token

    def fault(self, due: str) -> Unconvertible:
        token = self.now()
        line = token.line or self.line
        if token.kind == "square":
            return Unconvertible(line, f"{self.what} has a quadratic term, which the format can't say")
        if token.kind == "arrow":
            return Unconvertible(line, f"{self.what} is an indicator constraint, which the format can't say")
        return Unconvertible(line, f"{self.what}: {not_expected(token.text, due, line).words}")

    def label(self) -> Optional[str]:
        if self.kind() == "name" and self.kind(1) == "colon":
            self.at += 2
            self.line = self.now(-1).line
            return self.now(-2).text
        return None

    def signs(self) -> Tuple[int, int]:
        """How many signs stand here, and 1 or -1, what they say."""
        count, sign = 0, 1
        while self.kind() == "sign":
            sign = -sign if self.take("sign", "a sign").text == "-" else sign
            count += 1
        return count, sign

    def number(self, due: str) -> Fraction:
        token = self.take("number", due)
        return number(token.text, token.line)

    def variable(self) -> Token:
        token = self.take("name", "a variable")
        if INFINITE_WORD.fullmatch(token.text):
            raise Unconvertible(token.line, f"{self.what}: infinity where a number or a variable is due")
        return token


class Reader:
    """Reads the sections of a file into a linear program."""

    def __init__(self, text: str) -> None:
        self.sections = Sections(text)
        self.linear = LinearProgram("LP")
        self.row_names: Set[Optional[str]] = set()

    def read(self) -> LinearProgram:
        if "rows" not in self.sections.tokens:
            raise Unconvertible(self.sections.last_line, "the file has no Subject To")
        self.linear.is_maximized = self.sections.sense == "max"
        self.linear.is_sense_said = True
        self.objective(self.cursor("objective"))
        self.rows(self.cursor("rows"))
        self.bounds(self.cursor("bounds"))
        for token in self.names("generals"):
            self.linear.column(token.text, token.line).is_whole = True
        for token in self.names("binaries"):
            self.linear.column(token.text, token.line).is_binary = True
        return self.linear

    def cursor(self, section: str) -> Cursor:
        return Cursor(self.sections.tokens.get(section, []))

    def term(self, cursor: Cursor, sign: int) -> Tuple[str, Fraction]:
        """A number and a variable, or a variable alone. The name is empty where there is a number alone."""
        size = cursor.number("a number") if cursor.kind() == "number" else None
        if size is not None and cursor.kind() != "name":
            if cursor.kind() in ("square", "arrow"):
                raise cursor.fault("a variable")
            return "", sign * size
        token = cursor.variable()
        self.linear.column(token.text, token.line)
        if cursor.kind() in ("square", "arrow"):
            raise cursor.fault("a sign")
        return token.text, sign * (Fraction(1) if size is None else size)

    def objective(self, cursor: Cursor) -> None:
        cursor.what = "the objective"
        self.linear.objective_name = cursor.label()
        is_first = True
        while cursor.kind() != "end":
            count, sign = cursor.signs()
            if count == 0 and not is_first:
                raise cursor.fault("a sign")
            name, value = self.term(cursor, sign)
            if name:
                self.linear.objective.append((name, value))
            else:
                self.linear.constant += value
            is_first = False

    def rows(self, cursor: Cursor) -> None:
        while cursor.kind() != "end":
            row = LinearRow(cursor.label(), len(self.linear.rows) + 1, cursor.now().line)
            cursor.what = f"row {row.called()}"
            if row.name is not None and row.name in self.row_names:
                raise Unconvertible(row.line, f"a second row {row.name}")
            self.row_names.add(row.name)
            self.row(cursor, row)
            self.linear.rows.append(row)

    def row(self, cursor: Cursor, row: LinearRow) -> None:
        """One row: terms, a relation and a number; a number and a relation may stand in front."""
        left = self.left_end(cursor)
        while cursor.kind() != "relation" or not row.terms:
            count, sign = cursor.signs()
            if count == 0 and row.terms:
                raise cursor.fault("a sign or a relation")
            name, value = self.term(cursor, sign)
            if not name:
                raise Unconvertible(cursor.line, f"{cursor.what} has a constant on the left")
            row.terms.append((name, value))
            if left is not None and self.is_row_end(cursor):
                raise Unconvertible(cursor.line, f"{cursor.what} has its number on the left alone")
        relation = RELATIONS[cursor.take("relation", "a relation").text]
        if left is not None and (relation == "=" or left[0] != TURNED[relation]):
            raise Unconvertible(cursor.line, f"{cursor.what} has two relations that aren't a range")
        if left is not None:
            row.relate(left[0], left[1])
        _, sign = cursor.signs()
        row.relate(relation, sign * self.right(cursor))
        self.row_ends(cursor)

    def left_end(self, cursor: Cursor) -> Optional[Tuple[str, Fraction]]:
        """A number and a relation in front of the terms, the relation as it is read from the terms."""
        begin = cursor.at
        _, sign = cursor.signs()
        if cursor.kind() == "number" and cursor.kind(1) == "relation":
            value = sign * cursor.number("a number")
            return TURNED[RELATIONS[cursor.take("relation", "a relation").text]], value
        cursor.at = begin
        return None

    def right(self, cursor: Cursor) -> Fraction:
        if cursor.kind() == "name":
            word = cursor.now().text
            what = "an infinite right side" if INFINITE_WORD.fullmatch(word) else f"the variable {word} on the right"
            raise Unconvertible(cursor.now().line, f"{cursor.what} has {what}")
        return cursor.number("a number")

    @staticmethod
    def is_row_end(cursor: Cursor) -> bool:
        """Whether the section ends here, or the next row's label stands here."""
        return cursor.kind() == "end" or (cursor.kind() == "name" and cursor.kind(1) == "colon")

    def row_ends(self, cursor: Cursor) -> None:
        """Behind the number, nothing of the same line goes on with the row."""
        if self.is_row_end(cursor):
            return
        if cursor.kind() in ("square", "arrow") or cursor.now().line == cursor.line:
            raise cursor.fault("the end of the row")

    def bounds(self, cursor: Cursor) -> None:
        while cursor.kind() != "end":
            cursor.what = "a bound"
            if cursor.kind() == "name" and not INFINITE_WORD.fullmatch(cursor.now().text):
                self.bound_by_name(cursor)
            else:
                self.bound_by_value(cursor)

    def bound_by_name(self, cursor: Cursor) -> None:
        token = cursor.variable()
        cursor.what = f"the bound of {token.text}"
        column = self.linear.column(token.text, token.line)
        if cursor.kind() == "name" and cursor.now().text.lower() == "free":
            cursor.at += 1
            column.bound("<=", None, 1, token.line)
            column.bound(">=", None, -1, token.line)
            return
        relation = RELATIONS[cursor.take("relation", "a relation or free").text]
        column.bound(relation, *self.value(cursor), token.line)

    def bound_by_value(self, cursor: Cursor) -> None:
        value = self.value(cursor)
        relation = TURNED[RELATIONS[cursor.take("relation", "a relation").text]]
        token = cursor.variable()
        cursor.what = f"the bound of {token.text}"
        column = self.linear.column(token.text, token.line)
        column.bound(relation, *value, token.line)
        if cursor.kind() == "relation":
            relation = RELATIONS[cursor.take("relation", "a relation").text]
            column.bound(relation, *self.value(cursor), token.line)

    def value(self, cursor: Cursor) -> Tuple[Optional[Fraction], int]:
        """A bound's value, and the sign where it is infinite."""
        _, sign = cursor.signs()
        kind = "name" if cursor.kind() == "name" and INFINITE_WORD.fullmatch(cursor.now().text) else "number"
        token = cursor.take(kind, "a number")
        return bound_number(("-" if sign < 0 else "") + token.text, token.line)

    def names(self, section: str) -> List[Token]:
        cursor = self.cursor(section)
        cursor.what = f"the section of {section}"
        found: List[Token] = []
        while cursor.kind() != "end":
            found.append(cursor.variable())
        return found


def read(text: str) -> LinearProgram:
    """The linear program that an LP file states."""
    return Reader(text).read()
