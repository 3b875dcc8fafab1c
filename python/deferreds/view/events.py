"""Where the events of a script stand among the rows: those of several lines have a head, the others a few words
behind their line.
"""

from __future__ import annotations

from typing import Dict, Optional

from .fold import Fold
from .nesting import LAST_POSTS
from .places import NOWHERE, Place, Places
from .records import Row
from .row_places import RowPlaces
from .scripts import Script

#: lines that tell by themselves what their event is
_TELLING = frozenset({"advance", "drain", "note", "new"})


class Events:
    """The heads of events, and the words behind lines."""

    def __init__(self, fold: Fold, script: Script, places: Places = NOWHERE, row_places: Optional[RowPlaces] = None) -> None:
        self._script = script
        self._places = places
        self._row_places = row_places if row_places is not None else RowPlaces(fold, script, places)
        first: Dict[int, Row] = {}
        size: Dict[int, int] = {}
        for row in fold.rows:
            if row.event is not None:
                first.setdefault(row.event, row)
                size[row.event] = size.get(row.event, 0) + 1
        #: the heads of events, and the words behind lines, by the rows in which events begin
        self._heads: Dict[int, str] = {}
        self._tails: Dict[int, str] = {}
        for event, row in first.items():
            if size[event] == 1 or row.entry.word in ("advance", "drain"):
                self._tails[row.place] = self._tail(event, row)
            else:
                self._heads[row.place] = self.said(event)

    def _begins(self, row: Row) -> bool:
        return row.place in self._heads or row.place in self._tails

    def head(self, row: Row) -> Optional[str]:
        """The head above the row, if it has one."""
        return self._heads.get(row.place)

    def tail(self, row: Row) -> str:
        """The words behind the row, if it has some."""
        return self._tails.get(row.place, "")

    def _tail(self, event: int, row: Row) -> str:
        return f"event {event}" if row.entry.word in _TELLING and event != LAST_POSTS else self.said(event)

    def place(self, row: Row) -> Optional[Place]:
        """Where in the program the event was performed that begins in this row, if one does."""
        return self._places.of_event(row.event) if row.event is not None and self._begins(row) else None

    def place_of(self, row: Row) -> Optional[Place]:
        """Which line of the program the row tells of, if the event that begins in it doesn't show that beside it."""
        return self._row_places.of(row) if row.place not in self._tails or self.place(row) is None else None

    def whole(self, row: Row, most: int) -> str:
        """The event that begins in the row as the script has it, where that says more than `most` characters, or than its short text."""
        if row.event is None or not self._begins(row):
            return ""
        short, text = self._script.shown(row.event), self._script.whole(row.event)
        return text if len(short) > most or "…" in short else ""

    def said(self, event: int) -> str:
        """An event with what the script says."""
        if event == LAST_POSTS:
            return "the last posts"
        return f"event {event}  {self._script.shown(event)}".rstrip()
