"""Runs each row of the repository on the program: a script, how its run ends and what it prints, or why it is refused."""

from __future__ import annotations

from pathlib import Path
from typing import Iterator, NamedTuple, Optional

from deferreds.ending import run_command
from deferreds.twisted.rows import ROWS, Expected, filled, read_rows, row_files, unfolded
from programs import Ran, first_difference, program_here, run, run_all

_WHY = "\n-- why\n"


class Asked(NamedTuple):
    """A row, and whether the program is asked why its script is refused."""

    row: Expected
    why: bool


def all_rows() -> Iterator[Asked]:
    """Each script of the rows of each file."""
    for path in row_files():
        for row in read_rows(path):
            yield Asked(row, False)
    for row in why_rows(ROWS / "why.rows"):
        yield Asked(row, True)


def why_rows(path: Path) -> Iterator[Expected]:
    """The rows whose output is the line that says why a script is refused."""
    for part in path.read_text(encoding="utf-8").split("== ")[1:]:
        head, _, line = part.rstrip("\n").partition(_WHY)
        name, _, script = head.partition("\n")
        yield Expected(path.name, name, "\n".join(unfolded(script.split("\n"))), 0, "", f"{line}\n")


def difference(row: Expected, ran: Ran) -> Optional[str]:
    """In what a run differs from its row."""
    if (ran.status, ran.errors) != (row.status, row.errors):
        return f"status {ran.status} {ran.errors!r}, not {row.status} {row.errors!r}"
    expected = "\n".join(filled(row.output.split("\n"), ran.output.split("\n")))
    return None if expected == ran.output else first_difference(expected, ran.output)


def check_row(program: Path, asked: Asked) -> Optional[str]:
    """Runs a row."""
    row = asked.row
    if asked.why:
        printed = run(program, ["--why"], row.script).output
        wrong = None if printed == row.output else first_difference(row.output, printed)
    else:
        wrong = difference(row, run(program, [], row.script))
    return wrong and f"{row.file}: {row.name}: {wrong}: {row.script[:300]}"


def main() -> int:
    program = program_here()
    return run_all(all_rows(), lambda asked: check_row(program, asked), "rows")


if __name__ == "__main__":
    run_command(main, "rows.py")
