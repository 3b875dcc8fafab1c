"""Whose inline body or coroutine acts in each line.

A body acts from the line that makes its Deferred to its first `await`, and then in the side of whom it awaits, to its next `await` or
to the line that fires its Deferred. A body that another one begins acts inside of that.
"""

from __future__ import annotations

from typing import Dict, FrozenSet, List, Optional, Set

from .fold import Fold
from .records import Row

#: the frame of what lies directly in an event
_EVENT = -1
_STOPS = frozenset({"await", "fire"})


class Bodies:
    """The bodies of a run, by the numbers of their Deferreds. Those that never awaited are known by the names that a script gives them."""

    def __init__(self, fold: Fold, names: FrozenSet[str] = frozenset()) -> None:
        self._rows = fold.rows
        self._all = {
            record.number
            for record in fold.records.values()
            if record.awaits is not None or any(name in names for name in record.names)
        }
        #: the body that goes on in a side, by the row in which that begins
        self._going_on: Dict[int, int] = {}
        #: the bodies that have begun in a frame and have neither awaited nor ended, the innermost last
        self._begun: Dict[int, List[int]] = {}
        self._event: Optional[int] = None
        #: whose body acts in a row, if one does
        self.acting: Dict[int, int] = {}
        self._find_going_on()
        for row in self._rows:
            self._lay(row)

    def _find_going_on(self) -> None:
        """Finds the sides in which bodies go on: each ends with an `await` of the body, or with its end."""
        awaits: Dict[int, int] = {}
        for row in self._rows:
            number, above = row.entry.deferred, row.inside
            if row.entry.word in _STOPS and above is not None and awaits.get(number, -1) == self._ran(above):
                self._going_on[above] = number
            if row.entry.word == "await":
                awaits[number] = row.entry.other

    def _ran(self, row: int) -> int:
        """The Deferred whose side begins in a row."""
        entry = self._rows[row].entry
        return entry.deferred if entry.word == "run" else -2

    def _lay(self, row: Row) -> None:
        frame = row.inside if row.inside is not None else _EVENT
        if frame == _EVENT and row.event != self._event:
            self._event = row.event
            self._begun[_EVENT] = []
        begun, number = self._begun.setdefault(frame, []), row.entry.deferred
        body = begun[-1] if begun else self._going_on.get(frame)
        if body is not None:
            self.acting[row.place] = body
        if row.entry.word == "new" and number in self._all:
            begun.append(number)
        elif row.entry.word in _STOPS and number in begun:
            self._begun[frame] = begun[: begun.index(number)]
        elif row.entry.word in _STOPS and not begun and body == number:
            self._going_on.pop(frame)
