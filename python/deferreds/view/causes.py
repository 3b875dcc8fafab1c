"""Who fires a Deferred: the line that serves it, a cancel that reaches it, or else who acts there."""

from __future__ import annotations

from typing import Dict, List, Optional

from .phrases import OfDeferred, OfLine, Phrase, words
from .records import Row

CANCELLED = 'fail CancelledError ""'


class Ending:
    """The end of a task, whose waiters are fired next, in order."""

    def __init__(self, row: Row, waiters: List[int]) -> None:
        self.row = row
        self.waiters = waiters[::-1]


class Causes:
    """What explains a firing that may come."""

    def __init__(self) -> None:
        self._endings: List[Ending] = []
        self._cancels: Dict[int, Row] = {}

    def begin_event(self) -> None:
        """What came before explains nothing any more."""
        self._endings.clear()
        self._cancels.clear()

    def task_ends(self, row: Row, waiters: List[int]) -> None:
        """A task ends in this row, and fires these."""
        if waiters:
            self._endings.append(Ending(row, waiters))

    def cancel_reaches(self, row: Row, deferred: int) -> None:
        """The cancel of this row reaches an unfired Deferred."""
        self._cancels[deferred] = row

    def taken_cancel(self, deferred: int) -> Optional[Row]:
        """The cancel that has reached the Deferred, which explains nothing after this."""
        return self._cancels.pop(deferred, None)

    def of(self, row: Row, before: Optional[Row], acting: Phrase) -> Phrase:
        """Why the Deferred of this row is fired, where `acting` says who acts."""
        return (
            self._by_end_of_task(row)
            or (self._by_line_before(row, before, acting) if before is not None else ())
            or self._by_cancel(row, acting)
            or acting
        )

    def _by_end_of_task(self, row: Row) -> Phrase:
        while self._endings and (
            not self._endings[-1].waiters or self._endings[-1].row.sides > row.sides
        ):
            self._endings.pop()
        if not self._endings:
            return ()
        ending = self._endings[-1]
        if ending.row.inside != row.inside or ending.waiters[-1] != row.entry.deferred:
            return ()
        ending.waiters.pop()
        return (f"end of task {ending.row.entry.name}, ", OfLine(ending.row.place))

    @staticmethod
    def _by_line_before(row: Row, before: Row, acting: Phrase) -> Phrase:
        if before.serves != row.entry.deferred:
            return ()
        name, inside = before.entry.name, in_whom(acting)
        said: Dict[str, Phrase] = {
            "acquire": (f"a token of {name} was free",),
            "get": (f"a value of {name} was stored",),
            "whendone": (f"task {name} has ended already",),
            "release": (f"release {name}", *inside),
            "put": (f"put {name}", *inside),
            "deliver": (f"job {before.entry.number} is done",),
            "stop": (f"stop of loop {name}", *inside),
        }
        return said.get(before.entry.word, ())

    def _by_cancel(self, row: Row, acting: Phrase) -> Phrase:
        cancel = self._cancels.get(row.entry.deferred)
        if cancel is None or cancel.inside != row.inside:
            return ()
        inside = in_whom(acting)
        whom, reached = cancel.entry.deferred, row.entry.deferred
        if row.entry.outcome is not None and row.entry.outcome.text != CANCELLED:
            by = words(", by cancel ", OfDeferred(whom)) if whom != reached else words()
            return ("the canceller of ", OfDeferred(reached), *by, *inside)
        return ("cancel ", OfDeferred(whom), *inside)

    def firing_cancel(self, row: Row) -> Optional[Row]:
        """The cancel that fires the Deferred of this row, or whose canceller does."""
        cancel = self._cancels.get(row.entry.deferred)
        return cancel if cancel is not None and cancel.inside == row.inside else None


def in_whom(acting: Phrase) -> Phrase:
    """Who acts, as the end of a sentence."""
    return (" in ", *acting) if acting and acting[0] != "after " else acting and (" ", *acting)
