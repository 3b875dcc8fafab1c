"""Callbacks that made a Deferred and didn't return it: the next callback ran before that one was fired, and nobody got its result.

Only a Deferred with no pair of the program's counts: who adds an errback to one and leaves it means to. What inline bodies make isn't
looked at, since they go on by themselves.
"""

from __future__ import annotations

from typing import Dict, List, NamedTuple, Optional, Set

from .bodies import Bodies
from .fold import Fold
from .lines import NULL
from .records import Made, Record, Row

_MADE = frozenset({Made.ACTION, Made.INLINE, Made.JOB})

#: the lines that name a Deferred with which nobody does anything
_OWN = frozenset({"new", "name", "job", "deliver", "fire", "run", "set"})


class NotReturned(NamedTuple):
    """A Deferred that a callback made and didn't return, whose callback that was, and the row in which the next one began."""

    record: Record
    chain: int
    next: int


def not_returned(fold: Fold, bodies: Bodies) -> List[NotReturned]:
    """The Deferreds that callbacks made and didn't return, the first one first."""
    made = _made(fold, bodies)
    begun: Dict[Optional[int], int] = {}
    found: Dict[int, NotReturned] = {}
    for row in fold.rows:
        if row.entry.word == "run":
            begun[row.inside] = row.place
        elif row.entry.word == "set" and row.entry.outcome == NULL and _goes_on(fold, row):
            for record in made.get(begun.get(row.inside, -1), []):
                if record.fired is None or record.fired > row.place:
                    found[record.number] = NotReturned(record, row.entry.deferred, row.place + 1)
    used = _used(fold, set(found))
    return [one for number, one in found.items() if number not in used]


def _made(fold: Fold, bodies: Bodies) -> Dict[int, List[Record]]:
    """The Deferreds that were made by what lies directly in each row, but not by an inline body."""
    found: Dict[int, List[Record]] = {}
    for record in fold.records.values():
        inside = fold.rows[record.row].inside
        if inside is not None and record.made in _MADE and record.row not in bodies.acting:
            found.setdefault(inside, []).append(record)
    return found


def _goes_on(fold: Fold, end: Row) -> bool:
    """Whether the next callback of the Deferred runs at once after the one that ends in this row."""
    after = fold.rows[end.place + 1] if end.place + 1 < len(fold.rows) else None
    return after is not None and after.entry.word == "run" and after.entry.deferred == end.entry.deferred


def _used(fold: Fold, numbers: Set[int]) -> Set[int]:
    """Those of these Deferreds with which somebody does something."""
    used: Set[int] = set()
    for row in fold.rows:
        used.update(number for number in row.names if number in numbers and not _is_own(fold, row, number))
    return used


def _is_own(fold: Fold, row: Row, number: int) -> bool:
    """Whether a row belongs to the making or the firing of a Deferred: with `add`, only what deferLater adds."""
    entry = row.entry
    if entry.word == "await":
        return entry.deferred == number
    if entry.word == "add":
        before, after = fold.rows[row.place - 1].entry, fold.rows[min(row.place + 1, len(fold.rows) - 1)].entry
        return before.word == "new" and before.deferred == number and after.word == "later"
    return entry.word in _OWN
