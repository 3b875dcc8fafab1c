"""The file of rows that real Twisted gave: a script for each rule, and what it prints."""

from __future__ import annotations

import json
from pathlib import Path
from typing import Any, Iterator, List, Tuple

from ..checkout import TOP
from .comparing import words_in
from .grammar import SINCE
from .rows import ROWS as FOLDER
from .rows import Expected, written
from .running import run

#: the scripts, by the names of their rows
RULES = TOP / "python" / "data" / "rules.txt"
ROWS = FOLDER / "twisted.rows"


class Quirky(Exception):
    """A script on which Twisted reaches an entry of the profile: no row of agreement can be made of it."""


def rules(path: Path = RULES) -> Iterator[Tuple[str, str]]:
    """Each rule's name, and its script."""
    for part in path.read_text(encoding="utf-8").removeprefix("== ").split("\n== "):
        name, *lines = part.strip().split("\n")
        parts = list(_parts("\n".join(lines)))
        events = [part for part in parts if isinstance(part, list)]
        version = max(SINCE.get(word, 1) for word in words_in(events))
        keys = "".join(f"{_said(key)}:{_said(value)}," for key, value in _keys(parts))
        said = ",\n ".join(map(_said, events))
        yield name, f'{{"version":{version},{keys}"events":[\n {said}]}}'


def _said(value: Any) -> str:
    return json.dumps(value, ensure_ascii=False, separators=(",", ":"))


def _keys(parts: List[Any]) -> Iterator[Tuple[str, Any]]:
    """The keys of a script beside its version and its events, which objects before the events say."""
    for part in parts:
        if isinstance(part, dict):
            yield from part.items()


def _parts(text: str) -> Iterator[Any]:
    """The events of a script, and the objects of its other keys, which stand one after the other."""
    decoder = json.JSONDecoder()
    place = 0
    while place < len(text):
        event, place = decoder.raw_decode(text, place)
        yield event
        while place < len(text) and text[place].isspace():
            place += 1


def row(name: str, script: str) -> Expected:
    """The row of what Twisted prints for a script."""
    ran = run(script.encode())
    if ran.quirks:
        raise Quirky(f"{name}: Twisted does here what docs/TWISTED.md says of {ran.quirks[0][1].value}")
    return Expected(ROWS.name, name, script, ran.status, "", ran.output)


def file_of_rows() -> str:
    """The whole file, as it is made."""
    rows: List[Expected] = [row(name, script) for name, script in rules()]
    return written(rows)
