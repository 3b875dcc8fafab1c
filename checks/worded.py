"""Files of rows that have a script, and then for each of some words how a run with these ends and what it prints.

The words stand in a line `-- WORD ..`, then comes the line `-- STATUS ERRORS`, and then the output. In a line `-- json WORD ..` they are
those of a run as JSON.
"""

from __future__ import annotations

import re
from pathlib import Path
from typing import Iterator, List, NamedTuple, Optional

from programs import Ran, first_difference

_ENDING = re.compile(r"-- (\d+) ?(.*)")


class Row(NamedTuple):
    """A script, the words behind the one of the file, and what is expected of that run."""

    name: str
    script: str
    words: str
    expected: Ran
    is_json: bool = False


def read_rows(path: Path, word: str) -> Iterator[Row]:
    """Yields the rows of a file: of each script, one for each of its lines that begin with this word."""
    asked = re.compile(f"-- (json )?{word}(?: (.*))?")
    text = path.read_text(encoding="utf-8")
    for part in text.removeprefix("== ").split("\n\n== "):
        name, *lines = part.rstrip("\n").split("\n")
        places = [place for place, line in enumerate(lines) if asked.fullmatch(line)]
        for place, end in zip(places, [*places[1:], len(lines)]):
            yield row_of(name, "\n".join(lines[: places[0]]), asked, lines[place:end])


def row_of(name: str, script: str, asked: "re.Pattern[str]", lines: List[str]) -> Row:
    """Returns the row of these lines: the words, the ending, and what is printed."""
    words, ending = asked.fullmatch(lines[0]), _ENDING.fullmatch(lines[1])
    if words is None or ending is None:
        raise ValueError(f"{name}: no words and no ending: {lines[:2]}")
    output = "".join(line + "\n" for line in lines[2:])
    errors = f"{ending.group(2)}\n" if ending.group(2) else ""
    return Row(name, script, words.group(2) or "", Ran(int(ending.group(1)), output, errors), words.group(1) is not None)


def difference(expected: Ran, ran: Ran) -> Optional[str]:
    """Returns in what a run differs from its row."""
    if (ran.status, ran.errors) != (expected.status, expected.errors):
        return f"status {ran.status} {ran.errors!r}, not {expected.status} {expected.errors!r}"
    return None if ran.output == expected.output else first_difference(expected.output, ran.output)
