"""Inside what a row lies.

The facts of a run tell it of each line: which event it belongs to, and in which line it lies. A journal alone tells
it of the sides that run: these begin with `run` and end with the `set`, `take` or `wait` of their Deferred. Where a
delayed call, a turn, a delivery or a post ends it doesn't tell, so that all one can say of what follows is that it
comes after that.
"""

from __future__ import annotations

from typing import List, NamedTuple, Optional, Sequence

from ..language import LANGUAGE
from .records import Actor, By, Row

_SECTIONS = LANGUAGE.lines_that("due", "turn", "tick", "step")
_CLOSERS = LANGUAGE.lines_that("ends")
_OUTER = LANGUAGE.lines_that("outer")

#: the event of the posts that are performed after the last event
LAST_POSTS = -1


class Place(NamedTuple):
    """Where a line lies, as the facts tell it."""

    #: the event of the script, or LAST_POSTS
    event: int
    #: the line in which it lies directly, and in how many it lies
    under: Optional[int]
    depth: int


class Open(NamedTuple):
    """A side that runs: whose, and the row in which it began."""

    deferred: int
    row: Row


class Nesting:
    """What is open at a row."""

    def __init__(self, places: Optional[Sequence[Place]]) -> None:
        self._places = places
        self.sides: List[Open] = []
        self._section: Optional[Row] = None
        #: the rows that end a side which isn't the innermost: a broken journal
        self.crossed: List[int] = []

    def closed(self, row: Row) -> Optional[Open]:
        """The side that the row ends, if it ends one."""
        if row.entry.word not in _CLOSERS:
            return None
        place = next(
            (
                at
                for at in reversed(range(len(self.sides)))
                if self.sides[at].deferred == row.entry.deferred
            ),
            None,
        )
        if place is None:
            return None
        if place != len(self.sides) - 1:
            self.crossed.append(row.place)
        side = self.sides[place]
        del self.sides[place:]
        return side

    def lay(self, row: Row, rows: Sequence[Row]) -> None:
        """Says how deep the row lies, and who acts in it; then what it begins is open."""
        row.sides = len(self.sides)
        if self._places is None:
            self._lay_by_sides(row)
        else:
            self._lay_as_told(row, rows, self._places[row.place])
        if row.entry.word == "run":
            self.sides.append(Open(row.entry.deferred, row))
            row.opens = True

    def _lay_as_told(self, row: Row, rows: Sequence[Row], place: Place) -> None:
        row.depth, row.inside = place.depth, place.under
        above = rows[place.under].entry if place.under is not None else None
        if above is not None and above.word == "run":
            row.actor = Actor(By.SIDE, above.deferred)
        elif above is not None and above.word in _SECTIONS:
            row.actor = Actor(By.SECTION, above.row)
        else:
            row.actor = Actor(By.EVENT, place.event)

    def _lay_by_sides(self, row: Row) -> None:
        if row.entry.word in _OUTER:
            self._section = None
        row.depth = len(self.sides)
        if self.sides:
            row.inside = self.sides[-1].row.place
            row.actor = Actor(By.SIDE, self.sides[-1].deferred)
            return
        if self._section is not None and row.entry.word not in _SECTIONS:
            row.actor = Actor(By.AFTER, self._section.place)
        if row.entry.word in _SECTIONS:
            self._section = row
