"""Which rows of a recorded run tell of Twisted's own doing, and not of the program's files."""

from __future__ import annotations

import re
from typing import List, Optional, Set

from .places import Place
from .records import Row
from .run import Run

#: files that aren't the program's: installed packages, Python's own library, and what starts Twisted
_LIBRARY = re.compile(r"/(?:site|dist)-packages/|/lib(?:64)?/python[0-9.]*/|/bin/(?:twistd|twist|trial)[0-9]*$")
#: rows that name no Deferred, and are Twisted's own if no line of the program is known for them
_CALLS = frozenset({"later", "call", "uncall", "reset", "loop", "turn", "tick", "tickin"})


def is_library(place: Optional[Place]) -> bool:
    """Whether a line is in no file of the program, as far as is known."""
    return place is None or _LIBRARY.search(place.file) is not None


def foreign_rows(run: Run, rows: range) -> List[int]:
    """Those of these rows; none if no Deferred was made in a file of the program."""
    made = {record.number for record in run.fold.records.values() if is_library(run.places.of_deferred(record.names))}
    if not run.is_recorded or len(made) == len(run.fold.records):
        return []
    return [row for row in rows if _is_foreign(run, run.fold.rows[row], made)]


def _is_foreign(run: Run, row: Row, made: Set[int]) -> bool:
    """Whether the row is in no file of the program, and names no Deferred that was made in one."""
    if not is_library(run.row_places.of(row)):
        return False
    return made.issuperset(row.names) if row.names else row.entry.word in _CALLS
