"""How often each case of a rule is reached by rows and by random scripts, as their journals and the player show it."""

from __future__ import annotations

import re
from pathlib import Path
from typing import Iterable, Iterator, List, NamedTuple, Optional, Pattern, Tuple

from ..checkout import TOP
from .classes import BUILT_IN
from .randoms import Scripts
from .rows import read_rows, row_files
from .rules import RULES
from .running import Run, run
from .script import read
from .turning import Turning

CASES = TOP / "python" / "data" / "cases.txt"

#: the journal of a run that is longer isn't looked at, since patterns take long there
_MOST_LINES = 300
_REFUSED = 2


class Case(NamedTuple):
    """A case of a rule, and how a run shows it: by its journal and its script, or by what the player or the turns say."""

    rules: Tuple[str, ...]
    what: str
    journal: Optional[Pattern[str]]
    script: Optional[Pattern[str]]
    played: str
    turns: str

    @property
    def name(self) -> str:
        """The rules, and what they do."""
        return f"{', '.join(self.rules)}: {self.what}"


def cases(path: Path = CASES) -> List[Case]:
    """The cases of a file."""
    text = "\n".join(line for line in path.read_text(encoding="utf-8").splitlines() if not line.startswith("#"))
    return [_case(part.strip().split("\n")) for part in text.split("== ")[1:]]


def _case(lines: List[str]) -> Case:
    rules, _, what = lines[0].partition(": ")
    said = {key: _after(lines[1:], f"{key}: ") for key in ("script", "played", "turns")}
    journal = [line for line in lines[1:] if not line.startswith(("script: ", "played: ", "turns: "))]
    return Case(
        tuple(rules.split(", ")),
        what,
        re.compile(journal[0], re.MULTILINE) if journal else None,
        re.compile(said["script"], re.DOTALL) if said["script"] else None,
        said["played"],
        said["turns"],
    )


def _after(lines: List[str], key: str) -> str:
    return next((line[len(key) :] for line in lines if line.startswith(key)), "")


class Shown:
    """The cases that a run shows."""

    def __init__(self, script: str, ran: Run) -> None:
        lines = ran.journal if len(ran.journal) <= _MOST_LINES else []
        self._script = script
        self._ran = ran
        self._journal = "".join(f"{line}\n" for line in lines)
        self._turns = Turning(read(script.encode(), list(BUILT_IN))).read(lines, set(ran.begins))

    def times(self, case: Case) -> int:
        """How often it shows a case."""
        if case.played:
            return self._ran.seen[case.played]
        if case.turns:
            return self._turns[case.turns]
        assert case.journal is not None
        if case.script is not None and not case.script.search(self._script):
            return 0
        return sum(1 for _ in case.journal.finditer(self._journal))


class Reached:
    """How often each case was reached."""

    def __init__(self) -> None:
        self.cases = cases()
        self.counts = {case.name: [0, 0] for case in self.cases}

    def count(self, scripts: Iterable[str], column: int) -> None:
        """Runs scripts, and counts what they show in a column."""
        for script in scripts:
            shown = Shown(script, run(script.encode(), rules=RULES))
            for case in self.cases:
                self.counts[case.name][column] += shown.times(case)

    def lines(self) -> Iterator[str]:
        """A line for each case, and how many are reached by no row, and by no random script."""
        yield "   rows   random  case"
        for name, (rows, random) in self.counts.items():
            yield f"{rows:7} {random:8}  {name}"
        yield f"{len(self.cases)} cases, {self._noughts(0)} reached by no row, {self._noughts(1)} by no random script"

    def _noughts(self, column: int) -> int:
        return sum(not counts[column] for counts in self.counts.values())

    @property
    def are_all(self) -> bool:
        """Whether each case was reached by a row, and by a random script."""
        return not self._noughts(0) and not self._noughts(1)


def scripts_of_rows() -> Iterator[str]:
    """The scripts of the rows that aren't refused."""
    return (row.script for path in row_files() for row in read_rows(path) if row.status != _REFUSED)


def random_scripts(number: int, seed: int, level: str) -> Iterator[str]:
    """So many random scripts of a level."""
    return (script for _, script in Scripts(seed, level).some(number))
