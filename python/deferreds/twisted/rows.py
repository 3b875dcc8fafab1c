"""Reads files of rows: scripts, how their runs end, and what they print (the format is in crates/test_rows/README.md)."""

from __future__ import annotations

import re
from pathlib import Path
from typing import Iterator, List, NamedTuple

from ..checkout import TOP

_ENDING = re.compile(r"-- (\d+) ?(.*)")
_COUNTED = re.compile(r"\*(\d+) (.*)", re.DOTALL)

#: the line that stands for any lines, or none
ANY_LINES = "..."

#: rows that are wrong on purpose, and those that say why scripts are refused
NOT_RUN = {"wrong.rows", "why.rows"}

#: where the repository has its files of rows, and where an installed package has them
ROWS = TOP / "crates" / "test_rows" / "data"
PACKAGED = Path(__file__).resolve().parents[1] / "rows"
#: rows that are here for the comparison with Twisted, among them those of the entries of docs/TWISTED.md, on which Twisted does otherwise
_HERE = Path(__file__).resolve().parent / "data"
ENTRIES = _HERE / "entries.rows"


class Expected(NamedTuple):
    """A script of a row, and what is expected of its run."""

    file: str
    name: str
    script: str
    status: int
    errors: str
    output: str


def unfolded(lines: List[str]) -> List[str]:
    """The lines, where `*3 LINE` stands for three."""
    result: List[str] = []
    for line in lines:
        counted = _COUNTED.fullmatch(line)
        if counted is None:
            result.append(line)
        else:
            result.extend([counted.group(2)] * int(counted.group(1)))
    return result


def filled(expected: List[str], printed: List[str]) -> List[str]:
    """The expected lines, where that which stands for any lines is what was printed in its place."""
    if ANY_LINES not in expected:
        return expected
    place = expected.index(ANY_LINES)
    first, last = expected[:place], expected[place + 1 :]
    return first + printed[place : max(place, len(printed) - len(last))] + last


def read_rows(path: Path) -> Iterator[Expected]:
    """Each script of the rows of a file."""
    text = path.read_text(encoding="utf-8")
    for part in text.removeprefix("== ").split("\n== "):
        name, *lines = part.rstrip("\n").split("\n")
        place = next(i for i, line in enumerate(lines) if _ENDING.fullmatch(line))
        ending = _ENDING.fullmatch(lines[place])
        assert ending is not None
        errors = f"{ending.group(2)}\n" if ending.group(2) else ""
        output = "".join(line + "\n" for line in unfolded(lines[place + 1 :]))
        for script in _scripts(lines[:place]):
            yield Expected(path.name, name, script, int(ending.group(1)), errors, output)


def _scripts(lines: List[str]) -> Iterator[str]:
    """The script that the lines say, or where the first ones are frames, each of the others in each frame."""
    frames = [line[3:] for line in lines if line.startswith(":: ")]
    if not frames:
        yield "\n".join(unfolded(lines))
        return
    for frame in frames:
        for line in lines:
            if not line.startswith(":: "):
                yield frame.replace("%", line)


def row_files() -> List[Path]:
    """The files of rows, whose runs end and print as the rows say: an installed package holds those of the repository."""
    folder = PACKAGED if PACKAGED.is_dir() else ROWS
    files = [*sorted(folder.glob("*.rows")), *sorted(_HERE.glob("*.rows"))]
    return [path for path in files if path.name not in NOT_RUN]


def written(rows: List[Expected]) -> str:
    """A file of these rows."""
    return "\n".join(
        f"== {row.name}\n{row.script}\n-- {row.status}{' ' + row.errors.strip() if row.errors else ''}\n{row.output}"
        for row in rows
    )
