"""Names: which the format reads, and how others are renamed."""

from __future__ import annotations

import re
from typing import Dict, Iterable, List

NAME = re.compile(r"[A-Za-z_][A-Za-z0-9_.\[\](){}#$%&@!~']*")
NAME_CHARACTER = re.compile(r"[A-Za-z0-9_.\[\](){}#$%&@!~']")
KEYWORDS = frozenset(
    "MAXIMIZE MAX MINIMIZE MIN SUBJECT TO ST UNCERTAINTY BOUNDS GENERALS GENERAL BINARIES BINARY EXISTS ALL ORDER END".split()
)
BOUND_WORDS = frozenset(("INF", "INFINITY", "FREE"))


def why_no_name(name: object) -> str:
    """Why the format can't read this as a name; nothing where it can."""
    if not isinstance(name, str) or not name:
        return f"{name!r} is no name"
    if name.upper() in KEYWORDS or name.upper() in BOUND_WORDS:
        return f"{name} is a keyword of the format, and no name"
    if not re.match(r"[A-Za-z_]", name):
        return f"the name {name!r} begins with {name[0]!r}: names begin with a letter or _"
    if NAME.fullmatch(name) is None:
        wrong = next(character for character in name if NAME_CHARACTER.fullmatch(character) is None)
        return f"the name {name!r} holds {wrong!r}, which no name may hold"
    return ""


def mended(name: str) -> str:
    """The name with each byte that no name may hold as `_`, and a `_` in front where it would begin wrongly."""
    text = "".join(c if NAME_CHARACTER.fullmatch(c) else "_" for c in name)
    return text if not why_no_name(text) else "_" + text


def renamed(names: Iterable[str]) -> Dict[str, str]:
    """For each name one that the format reads. Names that need no change keep theirs, wherever they stand."""
    listed: List[str] = list(dict.fromkeys(names))
    taken = {name for name in listed if not why_no_name(name)}
    table: Dict[str, str] = {}
    for name in listed:
        if not why_no_name(name):
            table[name] = name
        else:
            table[name] = free_name(mended(name), taken)
            taken.add(table[name])
    return table


def free_name(name: str, taken: Iterable[str]) -> str:
    """The name, or with `_2`, `_3` .. behind it the first that isn't taken."""
    if name not in taken:
        return name
    number = 2
    while f"{name}_{number}" in taken:
        number += 1
    return f"{name}_{number}"
