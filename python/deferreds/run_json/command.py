"""`check_json [--random N] [--seed S] [--each K] [--ours PROGRAM]`: holds what `./deferreds --json` prints against its journal.

Over each K-th row of the repository, or all, the lines joined are what `./deferreds` prints, and a fold of the journal agrees with them: in
what each line lies, by which line each Deferred was fired, and what is left. Over the rows of `left.rows`, what is left is as it stands
there, worked out by hand. Over random scripts the fold agrees, too, until N of them make no name twice; of the others only the Deferreds
are compared. The last line is `N passed, M failed`, and the status is 0 exactly where M is 0. Without PROGRAM it is the one that
`./deferreds` runs. Status 70: the program can't be run, or doesn't end in a minute.
"""

from __future__ import annotations

import os
import sys
from itertools import islice
from pathlib import Path
from typing import Iterator, List

from ..arguments import Parser
from ..ending import run_command
from ..program import NOT_RUN, NotRun, built
from ..twisted.randoms import Scripts
from ..twisted.rows import Expected, filled, read_rows, row_files

from .checking import Ran, Wrong, check_fold, check_run, rows_of, run

LEFT_ROWS = Path(__file__).resolve().parent / "data" / "left.rows"

_MOST_SHOWN = 20

#: the most random scripts that are tried for one in which no name is made twice
_MOST_TRIED = 10


class Checks:
    """Counts what passed and what didn't."""

    def __init__(self, program: Path) -> None:
        self._plain = [os.fspath(program)]
        self._told = [*self._plain, "--json"]
        self.passed = 0
        self.failed = 0

    def count(self, name: str, script: str, wrong: str) -> None:
        """Counts a run, in which this is wrong, where it isn't empty."""
        if not wrong:
            self.passed += 1
            return
        self.failed += 1
        if self.failed <= _MOST_SHOWN:
            print(f"{name}: {wrong}\n{script}")

    def check_row(self, row: Expected) -> None:
        """A row: its output is what is printed, line by line."""
        told = run(self._told, row.script)
        printed = "\n".join(filled(row.output.split("\n"), _joined(told).split("\n")))
        self._check(f"{row.file}: {row.name}", row.script, Ran(row.status, printed, row.errors), told)

    def check_left_row(self, row: Expected) -> None:
        """A row of what is left."""
        wrong = ""
        try:
            lines = check_run(row.script, run(self._plain, row.script), run(self._told, row.script))
            left = "".join(f"{line}\n" for line in rows_of(lines))
            if left != row.output:
                wrong = f"what is left:\n{left}and not\n{row.output}"
        except Wrong as found:
            wrong = str(found)
        self.count(row.name, row.script, wrong)

    def check_random(self, number: int, script: str) -> bool:
        """A random script. False where it wasn't compared as a whole."""
        told = run(self._told, script)
        printed = run(self._plain, script)
        if '"callers":' in script:
            # its posts may be taken in another order in another run
            printed = Ran(told.status, _joined(told), told.errors)
        return self._check(f"random {number}", script, printed, told)

    def _check(self, name: str, script: str, printed: Ran, told: Ran) -> bool:
        """Holds a run against what is printed of it, and against the fold of its journal. False where that knew not all."""
        is_whole = True
        try:
            lines = check_run(script, printed, told)
            if lines:
                is_whole = check_fold(told.output, lines)
            self.count(name, script, "")
        except Wrong as wrong:
            self.count(name, script, str(wrong))
        return is_whole


def _joined(told: Ran) -> str:
    from .checking import joined, read_lines

    return joined(read_lines(told.output))


def all_rows() -> Iterator[Expected]:
    """Each row of the repository."""
    for path in row_files():
        yield from read_rows(path)


def main(words: List[str]) -> int:
    """The command."""
    parser = Parser(prog="check_json", description=__doc__)
    parser.add_argument("--random", type=int, default=2000, metavar="N")
    parser.add_argument("--seed", type=int, default=1, metavar="S")
    parser.add_argument("--each", type=int, default=1, metavar="K", help="take each K-th row alone")
    parser.add_argument("--ours", type=Path, metavar="PROGRAM")
    asked = parser.parse_args(words)
    if asked.each < 1:
        parser.error("K is 1 or more")
    try:
        return _check(asked.ours or built(), asked.seed, asked.random, asked.each)
    except NotRun as why:
        print(f"check_json: {why}; --ours names a program", file=sys.stderr)
    except OSError as error:
        print(f"check_json: {asked.ours} can't be run: {error.strerror}", file=sys.stderr)
    return NOT_RUN


def _check(program: Path, seed: int, randoms: int, each: int) -> int:
    """Checks the program by each so many-th row, and by so many random scripts; the status."""
    checks = Checks(program)
    for row in islice(all_rows(), 0, None, each):
        checks.check_row(row)
    for row in read_rows(LEFT_ROWS):
        checks.check_left_row(row)
    scripts = Scripts(seed, "version-3")
    found = 0
    for number in range(_MOST_TRIED * randoms):
        if found == randoms:
            break
        found += checks.check_random(number, scripts.script(number))
    if found < randoms:
        checks.count("random scripts", "", f"only {found} make no name twice")
    print(f"{checks.passed} passed, {checks.failed} failed")
    return 0 if checks.failed == 0 else 1


if __name__ == "__main__":
    run_command(lambda: main(sys.argv[1:]), "check_json")
