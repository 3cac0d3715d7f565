"""Reads a problem's text, as docs/FORMAT.md describes it, into a program."""

from __future__ import annotations

import re
from fractions import Fraction
from typing import Dict, List, NamedTuple, Optional, Set, Tuple

from . import program as qyas
from .faults import Fault, ProgramFault
from .model import Kind, Program, Variable
from .names import BOUND_WORDS, KEYWORDS
from .number import read_decimal
from .row import Row

TOKEN = re.compile(
    r"(?P<gap>[ \t\r]+|\\[^\n]*)|(?P<line>\n)"
    r"|(?P<name>[A-Za-z_][A-Za-z0-9_.\[\](){}#$%&@!~']*)"
    r"|(?P<number>(?:[0-9]+(?:\.[0-9]*)?|\.[0-9]+)(?:[eE][+-]?[0-9]+)?)"
    r"|(?P<relation><=|=<|>=|=>|<|>|=)|(?P<mark>[-+:])"
)
RELATIONS = {"<": "<=", "<=": "<=", "=<": "<=", ">": ">=", ">=": ">=", "=>": ">=", "=": "="}
TURNED = {"<=": ">=", ">=": "<=", "=": "="}
SECTIONS = {"UNCERTAINTY", "BOUNDS", "GENERALS", "GENERAL", "BINARIES", "BINARY", "EXISTS", "ALL", "ORDER"}
SAME_SECTION = {"GENERAL": "GENERALS", "BINARY": "BINARIES"}
MOST_BYTES = 4_194_304


class Unreadable(Exception):
    """The text isn't one of the format: the program tells why."""


class Token(NamedTuple):
    kind: str
    text: str
    line: int
    start: int
    end: int


def tokens_of(text: str) -> List[Token]:
    """The tokens of a text, a keyword as the kind `keyword`, and one of the kind `end` behind them."""
    tokens: List[Token] = []
    line, at = 1, 0
    while at < len(text):
        found = TOKEN.match(text, at)
        if found is None:
            raise Unreadable
        kind, at = str(found.lastgroup), found.end()
        if kind == "line":
            line += 1
        elif kind != "gap":
            tokens.append(Token(kind_of(kind, found[0]), found[0], line, found.start(), at))
    tokens.append(Token("end", "", line, at, at))
    return tokens


def kind_of(kind: str, text: str) -> str:
    """The kind of a token: some names are keywords."""
    if kind == "name" and text.upper() in KEYWORDS:
        return "keyword"
    if kind == "name" and text.upper() in BOUND_WORDS:
        return "infinite"
    return kind


class Reader:
    """Goes through the tokens of a text, once."""

    def __init__(self, text: str) -> None:
        self.text = text
        self.tokens = tokens_of(text)
        self.at = 0
        self.first_seen: Dict[str, None] = {}

    def now(self) -> Token:
        return self.tokens[self.at]

    def kind(self, ahead: int = 0) -> str:
        place = self.at + ahead
        return self.tokens[place].kind if place < len(self.tokens) else "end"

    def is_word(self, *words: str) -> bool:
        return self.now().kind == "keyword" and self.now().text.upper() in words

    def is_mark(self, *marks: str) -> bool:
        return self.now().kind == "mark" and self.now().text in marks

    def take(self, kind: str) -> Token:
        token = self.now()
        if token.kind != kind:
            raise Unreadable
        self.at += 1
        return token

    def word(self, *words: str) -> str:
        if not self.is_word(*words):
            raise Unreadable
        return self.take("keyword").text.upper()

    def label(self) -> Optional[str]:
        """A name with a colon behind it, where one stands here."""
        if self.kind() == "name" and self.kind(1) == "mark" and self.tokens[self.at + 1].text == ":":
            self.at += 2
            return self.tokens[self.at - 2].text
        return None

    def signs(self) -> Tuple[int, int]:
        """How many signs stand here, and 1 or -1, what they say."""
        count, sign = 0, 1
        while self.is_mark("+", "-"):
            sign = -sign if self.now().text == "-" else sign
            count += 1
            self.at += 1
        return count, sign

    def number(self) -> Fraction:
        return read_decimal(self.take("number").text)

    def variable(self) -> str:
        name = self.take("name").text
        self.first_seen.setdefault(name)
        return name

    def heading_of_rows(self) -> None:
        if self.word("SUBJECT", "ST") == "SUBJECT":
            self.word("TO")

    def line_ends(self, may_label: bool) -> None:
        """Behind a row or a bound, only what may go on stands on its line."""
        before, token = self.tokens[self.at - 1], self.now()
        if token.kind in ("keyword", "end") or token.line != before.line:
            return
        if not (may_label and token.kind == "name" and self.kind(1) == "mark" and self.tokens[self.at + 1].text == ":"):
            raise Unreadable

    def objective(self, into: Program) -> None:
        into.objective_name = self.label()
        terms: List[Tuple[str, Fraction]] = []
        is_first = True
        while not self.is_word("SUBJECT", "ST"):
            count, sign = self.signs()
            if count == 0 and not is_first:
                raise Unreadable
            if self.kind() == "number":
                value = sign * self.number()
                if self.kind() == "name":
                    terms.append((self.variable(), value))
                else:
                    into.objective_constant += value
            else:
                terms.append((self.variable(), Fraction(sign)))
            is_first = False
        into.objective_terms = tuple(terms)

    def rows(self) -> List[Row]:
        rows: List[Row] = []
        while self.kind() not in ("keyword", "end"):
            rows.append(self.row())
        return rows

    def row(self) -> Row:
        begin = self.now()
        name = self.label()
        terms: List[Tuple[str, Fraction]] = []
        while self.kind() != "relation":
            count, sign = self.signs()
            if count == 0 and terms:
                raise Unreadable
            size = self.number() if self.kind() == "number" else Fraction(1)
            terms.append((self.variable(), sign * size))
        if not terms:
            raise Unreadable
        relation = RELATIONS[self.take("relation").text]
        _, sign = self.signs()
        right = sign * self.number()
        end = self.tokens[self.at - 1].end
        self.line_ends(True)
        return Row(name, terms, relation, right, begin.line, words_of(self.text[begin.start : end]))

    def value(self) -> Fraction:
        """A bound's value. An infinite one is a fault of the text wherever it stands."""
        _, sign = self.signs()
        return sign * self.number()

    def bound(self) -> List[Tuple[str, str, Fraction]]:
        """One bound, as one or two of a name, a relation read from the name, and a value."""
        if self.kind() == "name":
            name = self.variable()
            relation = RELATIONS[self.take("relation").text]
            found = [(name, relation, self.value())]
        else:
            value = self.value()
            relation = TURNED[RELATIONS[self.take("relation").text]]
            name = self.variable()
            found = [(name, relation, value)]
            if self.kind() == "relation":
                relation = RELATIONS[self.take("relation").text]
                found.append((name, relation, self.value()))
        self.line_ends(False)
        return found

    def bounds(self) -> List[Tuple[str, str, Fraction]]:
        found: List[Tuple[str, str, Fraction]] = []
        while self.kind() not in ("keyword", "end"):
            found += self.bound()
        return found

    def names(self, are_variables: bool) -> List[str]:
        found: List[str] = []
        while self.kind() == "name":
            found.append(self.variable() if are_variables else self.take("name").text)
        return found


def words_of(source: str) -> str:
    """A row's words on one line: comments left out, blanks as one space."""
    return " ".join(re.sub(r"\\[^\n]*", " ", source).split())


class Sections:
    """What the sections behind the rows hold."""

    def __init__(self) -> None:
        self.uncertainty: List[Row] = []
        self.bounds: List[Tuple[str, str, Fraction]] = []
        self.names: Dict[str, List[str]] = {}

    def read(self, reader: Reader) -> None:
        seen: Set[str] = set()
        while not reader.is_word("END"):
            heading = reader.word(*SECTIONS)
            heading = SAME_SECTION.get(heading, heading)
            if heading in seen:
                raise Unreadable
            seen.add(heading)
            if heading == "UNCERTAINTY":
                reader.heading_of_rows()
                self.uncertainty = reader.rows()
            elif heading == "BOUNDS":
                self.bounds = reader.bounds()
            else:
                self.names[heading] = reader.names(heading != "ORDER")
        reader.word("END")
        reader.take("end")
        if "ORDER" not in seen:
            raise Unreadable

    def of(self, heading: str) -> List[str]:
        return self.names.get(heading, [])


def place_variables(into: Program, sections: Sections, first_seen: Dict[str, None]) -> None:
    """Makes the variables in the order of play, after the rules on names and scope."""
    order, universal = sections.of("ORDER"), set(sections.of("ALL"))
    binaries, generals = set(sections.of("BINARIES")), set(sections.of("GENERALS"))
    if universal & set(sections.of("EXISTS")) or len(set(order)) != len(order) or set(order) != set(first_seen):
        raise Unreadable
    low: Dict[str, Fraction] = {}
    high: Dict[str, Fraction] = {}
    for name, relation, value in sections.bounds:
        if relation != "<=":
            low[name] = value
        if relation != ">=":
            high[name] = value
    is_past_continuous = False
    for name in order:
        kind = Kind.BINARY if name in binaries else Kind.WHOLE if name in generals else Kind.CONTINUOUS
        if name not in high and kind is not Kind.BINARY:
            raise Unreadable
        is_past_continuous = is_past_continuous or kind is Kind.CONTINUOUS
        if is_past_continuous and name in universal:
            raise Unreadable
        least, most = low.get(name, Fraction(0)), high.get(name, Fraction(1))
        if kind is Kind.BINARY:
            least, most = max(least, Fraction(0)), min(most, Fraction(1))
        into.variables[name] = Variable(into, name, kind, least, most, name in universal)


def head_comments(text: str) -> List[str]:
    """The comments on the lines before the first token."""
    comments: List[str] = []
    for line in text.split("\n"):
        words = line.strip(" \t\r")
        if words and not words.startswith("\\"):
            break
        if words:
            comments.append(words[1:].strip())
    return comments


def parse(text: str) -> Program:
    """The program that a text states; `Unreadable` where it is none of the format."""
    if len(text) > MOST_BYTES:
        raise Unreadable
    reader, sections = Reader(text), Sections()
    sense = reader.word("MAXIMIZE", "MAX", "MINIMIZE", "MIN")
    into = Program("maximize" if sense.startswith("MAX") else "minimize")
    into.comments = head_comments(text)
    reader.objective(into)
    reader.heading_of_rows()
    into.rows = reader.rows()
    sections.read(reader)
    into.uncertainty = sections.uncertainty
    place_variables(into, sections, reader.first_seen)
    for row in into.uncertainty:
        if any(not into.variables[name].is_universal for name, _ in row.terms):
            raise Unreadable
    return into


def read(data: bytes, qyas_path: Optional[str] = None) -> Program:
    """The program that a problem's text states. Where it states none, the program `qyas` is asked why, and its fault raised."""
    try:
        return parse(data.decode("latin-1"))
    except (Unreadable, Fault):
        pass
    qyas.solve_text(data, qyas_path).close()
    raise ProgramFault("the program reads this text, and the companions don't")
